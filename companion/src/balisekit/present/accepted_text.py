"""Accepted findings and remarks in words and as JSON, and entries for the open ones."""
from __future__ import annotations

from collections import Counter
from typing import Any, Dict, Iterator, List, Optional, Sequence

from balisekit.io import csv_writing
from balisekit.present.opening import Shown, paths_from
from balisekit.rules import findings_on_correct_data
from balisekit.rules.accepted import COLUMNS, UNNAMED, Acceptance, Item, Judged, Key, checksum, keys
from balisekit.rules.checking import Place
from balisekit.rules.discovery import letter_of
from balisekit.rules.families import FAMILIES, Outcome
from balisekit.tables.names import clean


def accepted_words(entry: Acceptance) -> str:
    """By whom, when and why a finding was accepted."""
    until = f", until {entry.until}" if entry.until else ""
    return f"accepted: {clean(entry.reason)} ({clean(entry.who)}, {entry.date}{until})"


def fault_lines(judged: Judged, shown: Shown = str) -> Iterator[str]:
    """The entries at fault, and notes on entries without a sha256 and on those for rules that were not applied."""
    path = clean(shown(judged.entries.path))
    yield from (f"{path}: row {entry.row}: {why}" for entry, why in judged.faults)
    unsigned = sum(not entry.sha256 for entry in judged.entries.entries)
    if unsigned:
        yield (
            f"note: entries without a sha256: {unsigned}. They accept nothing, since nobody knows which telegrams were "
            "looked at: --propose writes new ones"
        )
    if judged.passed_over:
        rules = sorted({entry.rule for entry in judged.passed_over})
        many = f"{len(judged.passed_over)} entries are" if len(judged.passed_over) > 1 else "1 entry is"
        yield f"note: {many} for rules that were not applied, or not in full: {', '.join(rules)}"


def verdict_lines(judged: Judged, last: str, whole: bool, letters: str = "F") -> Iterator[str]:
    """The verdict, how many items are open, and whether none is. If not all was looked at, the verdict comes last."""
    if not whole:
        yield from (counts(judged, letters), last)
        return
    yield from (last, counts(judged, letters))
    if not (judged.open or judged.faults):
        *first, last_things = [FAMILIES[letter].things for letter in letters]
        things = " or ".join(filter(None, [", ".join(first), last_things]))
        by_any = f"; accepted by *: {judged.accepted_by_any}" if judged.accepted_by_any else ""
        yield f"no open {things}{by_any}{_against_the_rule(judged)}"


def counts(judged: Judged, letters: str = "F") -> str:
    """How many items there are, accepted and open, and entries at fault."""
    counted = Counter(map(_letter, judged.items))
    numbers = [
        (FAMILIES[letter].things, counted[letter]) for letter in letters if counted[letter] or letter == letters[0]
    ]
    by_any = f" ({judged.accepted_by_any} by *)" if judged.accepted_by_any else ""
    at_fault = f"; entries at fault {len(judged.faults)}" if judged.faults else ""
    found = ", ".join(f"{things} {number}" for things, number in numbers)
    still_open = len(judged.open)
    accepted = len(judged.items) - still_open
    return f"{found}: accepted {accepted}{by_any}, open {still_open}{at_fault}{_against_the_rule(judged)}"


def _against_the_rule(judged: Judged) -> str:
    """By rule, how many items were accepted that correct data never gets."""
    numbers = [f"{rule} {count}" for rule, count in sorted(judged.against_the_rule.items())]
    return f"; accepted though no case of correct data has them: {', '.join(numbers)}" if numbers else ""


def _letter(item: Item) -> str:
    return "F" if isinstance(item, Place) else letter_of(item.rule)


def as_json(judged: Judged, outcome: Outcome) -> Dict[str, Any]:
    """The effect of all entries, for other tools."""
    return {
        "path": paths_from(outcome.checked)(judged.entries.path),
        "sha256": judged.entries.sha256,
        "day": str(judged.day),
        "status": outcome.status,
        "counts": counts(judged, outcome.letters),
        "findings": [None if entry is None else entry_json(entry) for entry in map(judged.of, outcome.findings)],
        "at_fault": [{**entry_json(entry), "why": why} for entry, why in judged.faults],
        "not_applied": [entry_json(entry) for entry in judged.passed_over],
    }


def entry_json(entry: Acceptance) -> Dict[str, Any]:
    """An entry for other tools."""
    texts = {name: str(getattr(entry, name) or "") for name in ("reason", "who", "date", "until", "sha256")}
    return {"row": entry.row, **texts}


def proposal(outcome: Outcome) -> str:
    """A file of entries for the open items. Nobody has signed them: `who` and `date` are empty.

    An entry for other data that fits an item gives its reason, unless the reason is from the table of findings on
    correct data: that table gives a reason only if the data match one of its rows.
    """
    judged, reasons = outcome.judged, findings_on_correct_data.reasons()
    named = keys(outcome.items, outcome.checked)
    items: Dict[Key, List[Item]] = {}
    for key, item in zip(named, outcome.items):
        items.setdefault(key, []).append(item)
    rows: Dict[Key, List[str]] = {}
    former: Sequence[Optional[Acceptance]] = judged.former if judged else [None] * len(named)
    for key, item, known in zip(named, outcome.items, former):
        if UNNAMED not in key and key not in rows and not (judged and judged.of(item)):
            reason = reasons.get(item.correct, "") if isinstance(item, Place) else ""
            own = known.reason if known and known.reason not in reasons.values() else reason
            rows[key] = [*key, clean(own), "", "", "", checksum(items[key])]
    return csv_writing.text(COLUMNS, rows.values())

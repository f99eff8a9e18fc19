"""Corrections are tried out: the corrected table is checked again, in memory, and its entries are compared.

A correction explains entries only if they are gone then, and no other one is there.
"""
from __future__ import annotations

from collections import Counter
from dataclasses import replace
from functools import partial
from itertools import islice
from typing import (
    Any,
    Callable,
    Dict,
    FrozenSet,
    Iterable,
    Iterator,
    List,
    Mapping,
    NamedTuple,
    Optional,
    Sequence,
    Set,
    Tuple,
)

from balisekit.engine.program import Program, Text
from balisekit.errors import TableError, TableErrors
from balisekit.expressions import expression
from balisekit.rules.corrections.correction import Correction, Evidence, Stage, names_another_identity
from balisekit.rules.entries import Entry
from balisekit.tables.changed import changed_table
from balisekit.tables.model import Table

MOST, JUDGED = 40, 6_000
"""How many corrections of one stage are tried at most, and how many telegrams and entries are made again for them."""
OF_PROFILES = {10: (12, 15, 21), 11: (12, 15, 21), 12: (12, 15, 27), 13: (12, 15, 27)}
"""The packets that findings of profiles compare, by the rule F."""
NUMBER = expression(r"[+-]?\d(?:[\d.,]*\d)?")


class Answer(NamedTuple):
    """What the check, or a part of it, says of a table."""

    entries: Sequence[Entry] = ()
    skipped: Mapping[str, int] = {}
    """How many things each rule has not looked at, for reasons that sound lines do not have."""
    refused: int = 0
    """How many telegrams and groups were refused or left out."""
    reasons: Mapping[Tuple[str, str], int] = {}
    """How many things each rule has not looked at, by rule and reason."""


class Explained(NamedTuple):
    """A correction, and the entries that are gone with it."""

    correction: Correction
    entries: Sequence[Entry]


Key = Tuple[Any, ...]
Again = Callable[[Table], Iterator[Answer]]
"""What parts of the check, one after the other, say of a corrected table. No two of them have entries of one rule."""


def explained(evidence: Evidence, before: Answer, again: Again, suggestions: Sequence[Stage]) -> List[Explained]:
    """The corrections that explain open entries. Each entry belongs to one of them at most.

    Of the corrections of one stage those that explain most entries count.
    """
    found: List[Explained] = []
    most = min(MOST, JUDGED // max(len(evidence.checked.table.rows) + len(before.entries), 1))
    had = Counter(map(_key, before.entries if most else ()))
    for stage in suggestions:
        if len(evidence.entries) < stage.least:
            continue
        some = islice((each for suggest in stage.suggest for each in suggest(evidence)), most)
        tried = _of_stage(evidence, some, partial(_gone, evidence, before, had, again))
        for each in _united(sorted(tried, key=lambda each: -len(each.entries))):
            still_open = {id(entry) for entry in evidence.entries}
            if all(id(entry) in still_open for entry in each.entries):
                found.append(each)
                still_open -= {id(entry) for entry in each.entries}
                evidence.entries = [entry for entry in evidence.entries if id(entry) in still_open]
    return found


def _of_stage(
    evidence: Evidence, some: Iterable[Correction], gone_with: Callable[[Correction], Sequence[Entry]]
) -> Iterator[Explained]:
    """The corrections of a stage that explain several entries. After one that explains all, only its like is tried."""
    like: Optional[Correction] = None
    for correction in some:
        if like is not None and not correction.is_like(like):
            break
        if len(evidence.entries) < correction.least:
            continue
        gone = gone_with(correction)
        if len(gone) >= correction.least and (not correction.is_only_place or is_of_one_packet(gone)):
            yield Explained(correction, gone)
        like = correction if len(gone) == len(evidence.entries) else like


def _united(tried: Sequence[Explained]) -> Iterator[Explained]:
    """The same. Places of one group that explain the same entries are one place."""
    same: Dict[Tuple[int, ...], Explained] = {}
    for each in tried:
        key = tuple(id(entry) for entry in each.entries)
        first = same.setdefault(key, each)
        if first is not each and each.correction.is_like(first.correction):
            same[key] = Explained(first.correction.either(each.correction), each.entries)
    yield from same.values()


def is_of_one_packet(entries: Sequence[Entry]) -> bool:
    """Whether all may be about one packet, so that nobody takes two mistakes of one place for one.

    A telegram of another group is one mistake, whatever its packets are.
    """
    if any(map(names_another_identity, entries)):
        return True
    about = [_packets(entry) for entry in entries]
    known = [numbers for numbers in about if numbers]
    return not known or bool(frozenset.intersection(*known))


def _packets(entry: Entry) -> FrozenSet[int]:
    """The packets that an entry may be about, by NID_PACKET. Empty: it is about other parts of telegrams."""
    own = frozenset() if entry.packet is None else frozenset({entry.packet})
    return own | frozenset(each for place in entry.findings for each in OF_PROFILES.get(place.finding.rule, ()))


def _gone(evidence: Evidence, before: Answer, had: "Counter[Key]", again: Again, correction: Correction) -> List[Entry]:
    """The open entries that are gone with a correction, if there is no new one and nothing is judged less.

    A finding that was there before is not new, and one that is expected then is gone. Others must be gone beside it.
    """
    texts = _texts(evidence.checked.program, correction)
    if texts is None:  # (nobody can write it)
        return []
    left, known = had.copy(), _known(evidence, correction)
    expected: Set[str] = set()
    still: Set[str] = set()
    try:
        for answer in again(_corrected(evidence.checked.table, correction, texts)):
            old = [entry for entry in answer.entries if entry.findings and known.issuperset(_lines(entry))]
            others = [entry for entry in old if entry.expected]
            expected.update(line for entry in others for line in _lines(entry))
            still.update(line for entry in old if not entry.expected for line in _lines(entry))
            has = Counter(map(_key, answer.entries)) - Counter(map(_key, others))
            new = has - had - Counter(map(_key, old))
            left.subtract(has)
            new -= _in_other_words(new, left)
            if answer.refused > before.refused or _is_worse(correction, before, answer, new):
                return []
    except (TableError, TableErrors):
        return []
    missing = [each for each in _missing(evidence.entries, left) if not (each.findings and still >= {*_lines(each)})]
    corrected = sum(not entry.findings or not expected.issuperset(_lines(entry)) for entry in missing)
    return missing if corrected >= correction.least else []


def _in_other_words(new: "Counter[Key]", left: "Counter[Key]") -> "Counter[Key]":
    """The new entries of which the same rule had one of the same rows: that one is not gone then."""
    found: Counter[Key] = Counter()
    for key in new:
        same = next((each for each in left if left[each] > 0 and each[:3] == key[:3]), None)
        if same is not None and not found[key]:
            left[same] -= 1
            found[key] += 1
    return found


def _known(evidence: Evidence, correction: Correction) -> Set[str]:
    """The findings of the table, as the program says them. With other groups or aspects they have other numbers."""
    has_other_numbers = correction.lost or any("group" in cells for cells in correction.cells.values())
    return set() if has_other_numbers else {place.finding.line for place in evidence.checked.findings}


def _lines(entry: Entry) -> Sequence[str]:
    """The findings of an entry, as the program says them."""
    return [place.finding.line for place in entry.findings]


def _is_worse(correction: Correction, before: Answer, answer: Answer, new: "Counter[Key]") -> bool:
    """Whether a rule compares less, or has new entries that it would have had before if it had compared as much.

    A group without the packets of another group lacks what its own telegram should say: nothing is said of that.
    """
    if correction.is_of_stranger:
        return any(key[2] != correction.group.name for key in new)
    if any(count > before.skipped.get(rule, 0) for rule, count in answer.skipped.items()):
        return True
    judged = Counter(key[0] for key in new.elements())
    for (rule, why), count in before.reasons.items() if judged else ():
        judged[rule] -= max(count - answer.reasons.get((rule, why), 0), 0) if rule in answer.skipped else 0
    return any(count > 0 for count in judged.values())


def _corrected(table: Table, correction: Correction, texts: Mapping[int, Mapping[str, Any]]) -> Table:
    """The table with a correction."""
    cells = {row: {**correction.cells.get(row, {}), **texts.get(row, {})} for row in {*correction.cells, *texts}}
    return _in_order(changed_table(table, cells, correction.lost, table.reading.by_position), correction)


def _texts(program: Program, correction: Correction) -> Optional[Dict[int, Mapping[str, Any]]]:
    """The cells of the telegrams, as the program writes them."""
    answers = list(program.encode(correction.forms.values())) if correction.forms else []
    if not all(isinstance(answer, Text) for answer in answers):
        return None
    return {row: {"telegram": answer.line, "cell": answer.line} for row, answer in zip(correction.forms, answers)}


def _in_order(table: Table, correction: Correction) -> Table:
    """The table with groups whose balises are in another order."""
    if not correction.orders:
        return table
    groups = tuple(correction.orders.get(group.name, group) for group in table.groups)
    return replace(table, groups=groups)


def _missing(entries: Sequence[Entry], gone: "Counter[Key]") -> Iterator[Entry]:
    for entry in entries:
        key = _key(entry)
        if gone[key] > 0:
            gone[key] -= 1
            yield entry


def _key(entry: Entry) -> Key:
    """What tells an entry from others. Its numbers do not: it is the same one with another distance."""
    group, message = entry.group.name if entry.group else None, entry.message.number if entry.message else None
    words = NUMBER.sub("0", entry.sentence)
    return entry.rule, entry.rows, group, entry.aspects, entry.packet, entry.direction, message, words

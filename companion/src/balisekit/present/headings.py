"""Entries in words: what they are about, what is wrong, and the heading above those of one urgency."""
from __future__ import annotations

from collections import Counter
from typing import Dict, Iterable, Iterator, List, Sequence

from balisekit.etcs.raw_layouts import layout_of
from balisekit.rules.checking import Checked, Place
from balisekit.rules.entries import Entry, entry_of
from balisekit.rules.rule import Urgency
from balisekit.tables.names import clean, counted, describe_message, kilometre, quoted, rows_words

URGENCIES: Dict[Urgency, str] = {
    Urgency.WRONG_INFORMATION: "at worst wrong information:",
    Urgency.WRONG_PLACE: "at worst a wrong position of the train:",
    Urgency.NOT_JUDGED: "not judged, check by other means:",
    Urgency.BRAKING: "at worst the train brakes:",
    Urgency.RULE_ONLY: "a rule only:",
}
CORRECT = "findings that correct data can get; check each:"
SHOW_FOLDED = "; --folded lists them"


def heading(entry: Entry) -> str:
    """The heading under which an entry is listed."""
    return CORRECT if entry.expected else URGENCIES[entry.urgency]


def first_of_each(found: Sequence[Entry]) -> Iterator[str]:
    """For each entry its heading, if it is the first one under it."""
    before = ""
    for entry in found:
        own = heading(entry)
        yield own if own != before else ""
        before = own


def about(entry: Entry) -> str:
    """What an entry is about: rows, group, kilometre, track, aspects, balises and direction, or its message."""
    parts: List[str] = []
    if entry.message is not None:
        parts.append(f"message of {describe_message(entry.message)}")
    elif entry.group is not None:
        track = entry.group.track
        parts += [rows_words(entry.rows), clean(entry.group.name)]
        parts += [] if entry.km is None else [f"km {kilometre(entry.km)}"]
        parts += [f"track {clean(track)}"] if track else []
        parts += _aspects(entry)
        several = "s" if len(entry.balises) > 1 else ""
        parts += [f"balise{several} {', '.join(map(str, entry.balises))}"] if entry.balises else []
    elif entry.rows:
        parts.append(rows_words(entry.rows))
    elif entry.remark and entry.remark.location.listed:
        parts += ["track plan", clean(entry.remark.location.listed)]
    directions = {entry.direction: None} if entry.direction else {}
    directions.update(dict.fromkeys(place.finding.direction for place in entry.findings if place.finding.direction))
    return "  ".join([*parts, *([" and ".join(map(str, directions))] if directions else [])])


def _aspects(entry: Entry) -> Iterator[str]:
    """Which aspects it is about."""
    if len(entry.aspects) > 1:
        every = entry.group is not None and len(entry.aspects) == len(entry.group.aspects)
        yield "every aspect" if every else f"aspects {', '.join(map(quoted, entry.aspects))}"
    elif entry.aspects:
        yield f"aspect {quoted(entry.aspects[0])}"


def words(entry: Entry) -> str:
    """An entry as one line. A remark of a rule of balisekit begins with the name of the rule."""
    rule = f"{entry.rule}: " if entry.remark else ""
    return f"{about(entry)}: {rule}{entry.sentence}{f'; {entry.expected}' if entry.expected else ''}"


def entry_lines(entry: Entry, with_folded: bool = False) -> List[str]:
    """An entry, and below it the lines of the program, or where its rule is from if it is not balisekit's.

    For entries that are folded below it there is a line with their number, and `with_folded` a line for each.
    """
    quoted = () if entry.folded and entry.expected and not with_folded else entry.quoted
    below = [*(f"program: {line}" for line in quoted), *added(entry), *folded_lines(entry, with_folded)]
    return [words(entry), *(f"    {line}" for line in below)]


def entries_counted(count: int) -> str:
    """So many entries, in words."""
    return f"{count} {'entry' if count == 1 else 'entries'}"


def folded_lines(entry: Entry, each: bool = True) -> Iterator[str]:
    """How many findings and remarks are folded below an entry, by rule, then `each` of them."""
    if not entry.folded:
        return
    rules = [f"F{place.finding.rule}" for place in entry.findings]
    rules += [folded.rule for folded in entry.folded if folded.remark]
    counts = ", ".join(f"{rule} {count}" for rule, count in Counter(rules).items())
    gone = "" if entry.expected else ", gone if it is corrected"
    number = f"folded below it: {entries_counted(len(entry.folded))} ({counts}){gone}"
    yield number if each else f"{number}{SHOW_FOLDED}"
    yield from (f"  {words(folded)}" for folded in entry.folded if each)


def added(entry: Entry) -> List[str]:
    """A line on an added rule, so that nobody takes its remark for one of balisekit."""
    origin = entry.remark.origin if entry.remark else None
    return [f"added rule, not balisekit's: {clean(str(origin))}"] if origin else []


def finding_words(place: Place) -> str:
    """A finding by itself."""
    return words(entry_of(place))


def finding_lines(place: Place, before: str = "") -> List[str]:
    """Two lines for a finding: what is wrong and where, and the program's words."""
    return [before + finding_words(place), f"    program: {place.finding.line}"]


def separated(found: Sequence[Entry]) -> str:
    """How many findings must be corrected, and how many correct data can get, if there are any of the latter."""
    counts = Counter(bool(entry.expected) for entry in found for _ in entry.findings)
    return f", {counts[False]} to correct, {counts[True]} expected of correct data" if counts[True] else ""


def summary(checked: Checked, found: Sequence[Entry], are_open: bool) -> Iterator[str]:
    """How many findings there are, by rule, how many causes they have, and how many groups have no (open) finding."""
    if not found:
        return
    findings = [place for entry in found for place in entry.findings]
    counts = Counter(f"F{place.finding.rule}" for place in findings)
    open_ = "open " if are_open else ""
    causes = f" of {counted(len(found), 'cause')}" if len(found) < len(findings) else ""
    total, groups = len(checked.kept), {place.group.name for place in findings if place.group}
    sound = f"; {total - len(groups)} of {counted(total, 'group')} without {open_}finding" if total else ""
    of_rules = ", ".join(f"{rule} {count}" for rule, count in counts.items())
    yield f"{counted(len(findings), f'{open_}finding')}{causes}{separated(found)}: {of_rules}{sound}"


DECODED = {True: "decoded only by balisekit", False: "decoded only by balisekit, layout not certain"}
"""The words for packets that the program keeps as bits and balisekit reads, by whether their layout is certain."""


def not_decoded(checked: Checked) -> Iterator[str]:
    """The packets that the program keeps as bits, and where they are."""
    raw, in_messages = checked.accepted.raw_packets(), checked.raw_in_messages
    for key in sorted({*raw, *in_messages}):
        layout, sender = layout_of(*key), "" if key[1] else " from the train"
        said = DECODED[layout.is_certain] if layout else "not decoded"
        parts = [*_in(raw.get(key, []), "telegram"), *_in(in_messages.get(key, []), "message")]
        yield f"{said}: packet {key[0]}{sender} in {' and '.join(parts)}"


def _in(numbers: Sequence[int], what: str) -> Iterable[str]:
    if numbers:
        count = len(numbers)
        where = rows_words(numbers) if what == "telegram" else rows_words(numbers).replace("row", "line", 1)
        yield f"{count} {what}{'s' if count > 1 else ''} ({where})"

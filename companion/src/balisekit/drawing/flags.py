"""Flags at places of a track: what rules have found there."""
from __future__ import annotations

from decimal import Decimal
from typing import Dict, Iterable, Iterator, List, NamedTuple, Sequence

from balisekit.rules.entries import Entry
from balisekit.tables.names import clean, listed, quoted

NAMED = 4
"""How many rules are named at a flag, and how many sentences its title has."""


class Mark(NamedTuple):
    """What a rule has found at a place of a track."""

    track: str
    km: Decimal
    rule: str
    """`F11`, `L2`."""
    sentence: str
    rows: Sequence[int] = ()
    group: str = ""
    """The group that it is about: all that is about one group has one flag."""
    is_quiet: bool = False
    """Whether it is no fault: it was accepted, or the rule also reports it for correct data."""


class Flag(NamedTuple):
    """All marks of a group, or of a place without one."""

    place: int
    """In decimetres."""
    words: str
    title: str
    is_quiet: bool
    is_of_links: bool
    """Whether only rules L have found something there."""
    group: str = ""


def marks_of(entries: Iterable[Entry], accepted: Iterable[Entry] = ()) -> Iterator[Mark]:
    """The entries that have a kilometre. Those that are accepted or expected are quiet."""
    for some, is_accepted in ((entries, False), (accepted, True)):
        for entry in some:
            if entry.group is not None and entry.km is not None:
                quiet = is_accepted or bool(entry.expected)
                where = entry.group.track, entry.km
                aspects = f"aspect {listed(list(map(quoted, entry.aspects)), NAMED)}: " if entry.aspects else ""
                yield Mark(*where, entry.rule, aspects + entry.sentence, entry.rows, entry.group.name, quiet)


def flags(marks: Iterable[Mark], track: str) -> List[Flag]:
    """The flags of a track, in the order of their places."""
    together: Dict[str, List[Mark]] = {}
    for mark in marks:
        if mark.track == track:
            together.setdefault(mark.group or f"km {mark.km}", []).append(mark)
    return sorted(map(_flag, together.values()))


def _flag(marks: Sequence[Mark]) -> Flag:
    rules = list(dict.fromkeys(mark.rule for mark in sorted(marks, key=lambda mark: mark.is_quiet)))
    title = "; ".join(map(_sentence, marks[:NAMED])) + (f"; {len(marks) - NAMED} more" if len(marks) > NAMED else "")
    place = int(min(mark.km for mark in marks) * 10_000)
    of_links = all(rule.startswith("L") for rule in rules)
    return Flag(place, listed(rules, NAMED), title, all(mark.is_quiet for mark in marks), of_links, marks[0].group)


def _sentence(mark: Mark) -> str:
    """A mark in words, with its rows."""
    rows = f"row{'s' * (len(mark.rows) > 1)} {listed(list(map(str, mark.rows)), NAMED)}: " if mark.rows else ""
    return f"{mark.rule}: {rows}{clean(mark.sentence)}"

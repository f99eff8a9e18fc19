"""names alike: two names look alike and differ.

What it says. Two groups, aspects or tracks of the table have names that differ by characters without ink, by letters of
another script or by the way an accent is written. Two tracks have names that differ only in case, in blanks, in
punctuation or in how a number is written, such as 1 and 01, or Track 1 and Track-1. Punctuation between two digits or
at an end of the name is not meant. Groups whose names differ in case or blanks only have a note of their own.

Why it matters. To be looked at: what reads as one group or aspect is checked as two.

Usual cause. A name was copied from a document or a page that has such characters.

How to correct it. Write the name anew wherever it is meant.
"""
from __future__ import annotations

import re
import unicodedata
from collections import Counter
from typing import Dict, Iterable, Iterator, Tuple

from balisekit.expressions import expression
from balisekit.rules.line import Line
from balisekit.rules.location import Location
from balisekit.rules.rule import Options, Remark, Result, Rule
from balisekit.tables.model import Row
from balisekit.tables.names import BLANK, quoted

TRACKS = "tracks"
LOOK_ALIKE = str.maketrans(
    "АВЕЅЗІЈКМНОРСТУХаеѕіјорсухԁԛԝΑΒΕΖΗΙΚΜΝΟΡΤΥΧοѵ‐‑‒–—−", "ABES3IJKMHOPCTYXaesijopcyxdqwABEZHIKMNOPTYXov------"
)
"""Letters of Cyrillic and Greek, and dashes, each with the Latin character that it looks like."""
NUMBER = expression(r"(?<![0-9.,])0*([0-9]+)(?:[.,]0+)?(?![0-9]|[.,][0-9])")
"""A number, which spreadsheets and people write with more or fewer zeros: 1, 01, 1.0."""
SIGNS = expression(r"(?<=[^\W\d_])[\s_.,:/-]+(?=[^\W_])|(?<=\d)[\s_.,:/-]+(?=[^\W\d_])")
"""Blanks and punctuation within a name: beside a letter, and not between two digits, where they may tell two names."""


def find(line: Line, options: Options) -> Result:
    """Compares the names of all groups, of all aspects and of all tracks."""
    rows = [row for group in line.table_groups for aspect in group.aspects for row in aspect.rows]
    names = {
        "groups": {group.name: group.aspects[0].rows[0] for group in reversed(line.table_groups)},
        "aspects": {row.aspect: row for row in reversed(rows)},
        TRACKS: {row.track: row for row in reversed(rows)},
    }
    found = [remark for what, named in names.items() for remark in _compare(what, named)]
    return Result(sorted(found, key=lambda each: each.location.order), sum(map(len, names.values())))


def _compare(what: str, named: Dict[str, Row]) -> Iterator[Remark]:
    if what != TRACKS and all(name.isascii() and name.isprintable() for name in named):
        return
    first: Dict[str, str] = {}
    for name, row in reversed(list(named.items())):
        seen = _look(name)
        other = first.setdefault(_plain(seen) if what == TRACKS else seen, name)
        if _look(other) != seen:
            sentence = f"{what} {quoted(other)} and {quoted(name)} differ only in {_way(_look(other), seen)}"
            yield Remark(RULE.name, Location(row=row), sentence)
        elif _folded(other) != _folded(name):
            sentence = f"{what} {quoted(other)} and {quoted(name)} look alike, and differ by {_differing(other, name)}"
            yield Remark(RULE.name, Location(row=row), sentence)
        elif what == TRACKS and other != name:
            sentence = f"{what} {quoted(other)} and {quoted(name)} differ only in case or blanks"
            yield Remark(RULE.name, Location(row=row), sentence)


def _plain(seen: str) -> str:
    """What is seen of the name of a track, without punctuation and zeros."""
    return NUMBER.sub(r"\1", SIGNS.sub("", seen))


def _way(one: str, other: str) -> str:
    """In what two names of tracks differ that are the same without punctuation and zeros."""
    if SIGNS.sub("", one) == SIGNS.sub("", other):
        return "punctuation or blanks"
    number = "how a number is written"
    return number if NUMBER.sub(r"\1", one) == NUMBER.sub(r"\1", other) else f"punctuation, blanks or {number}"


def _folded(name: str) -> str:
    return re.sub(r"\s+", " ", name).casefold()


def _look(name: str) -> str:
    """What is seen of a name."""
    seen = [each for each in unicodedata.normalize("NFKC", name) if unicodedata.category(each) not in ("Cc", "Cf")]
    return _folded(BLANK.sub("", "".join(seen)).translate(LOOK_ALIKE)).strip()


def _differing(one: str, other: str) -> str:
    """The characters of which one of the two has more, apart from visible ones of ASCII."""
    more = (Counter(one) - Counter(other)) + (Counter(other) - Counter(one))
    letters = sorted(each for each in more if not (each.isascii() and each.isprintable()))
    if not letters and not more[" "]:
        return "the order of their characters"
    named: Iterable[Tuple[str, str]] = ((each, unicodedata.name(each, "")) for each in letters or [" "])
    return ", ".join(f"U+{ord(each):04X} {name}".strip() for each, name in named)


RULE = Rule("names alike", "names", __doc__ or "", find)

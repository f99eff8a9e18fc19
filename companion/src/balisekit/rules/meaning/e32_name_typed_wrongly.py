"""E32: name that looks typed wrongly.

What it says. One group has an aspect or a track whose name differs in one letter from a name that at least three other
groups have. Or groups have aspects whose names differ only in upper and lower case or in blanks. The rule is
balisekit's own, because no standard is about the names in a table.
- The rule compares the names of aspects with each other, and the names of tracks with each other.
- Two names differ in one letter if one letter is missing, added or replaced, or if two neighbouring letters are
  exchanged.
- The first and the last letter of the word with this difference must be the same in both names. The word must have at
  least four letters in both names.
- All digits and other characters must be the same in both names. Upper and lower case do not count for this.
- The rule reports a name with another letter only if one group has it. A name is not reported if its group also has the
  name of the other groups.
- Aspects that differ only in case or blanks are reported however many groups have them. One remark names all groups
  with the rarer name. If both are equally frequent, the name that is first in the table counts as right.
- Such aspects are not reported if their names have one letter, or if one group has both. Blanks between digits count.

Why it matters. No effect on a train is known. Rules E7 to E9, E15 and E24 compare aspects by their names, and most
other rules compare groups of one track. So a wrong name hides mistakes of its group.

Example. Before (`examples/meaning/mistakes/E32.csv`): one aspect of Signal 3 is called "yelow", and 5 groups have the
aspect "yellow". After: all 6 groups have the aspect "yellow".

When it is a false alarm. The rule assumes that nobody chose two names that differ in one letter inside a word, or only
in case or blanks. Two words of this kind might have two meanings, such as in another language.

Usual cause. The name was typed by hand, or the table was put together from two lists.

How to correct it. Write the name as the other groups have it.

How to accept it. State what each of the two names means.

How sure. 95 %, by practice.
"""
from __future__ import annotations

import re
from collections import Counter
from decimal import Decimal
from typing import Dict, Iterator, List, Sequence, Set, Tuple

from balisekit.rules.line import Line
from balisekit.rules.passages import GroupData
from balisekit.rules.rule import Options, Remark, Result, Rule, Urgency
from balisekit.tables.model import Row
from balisekit.tables.names import quoted

LEAST, SHORTEST = 3, 4
"""The fewest groups that show what a name should be, and the fewest letters of a word."""
WORDS, BLANKS = re.compile(r"[^\W\d_]+"), re.compile(r"(?<!\d)\s+|\s+(?!\d)")
"""What is compared of a name, and what is not."""


def find(line: Line, options: Options) -> Result:
    """Compares the names of aspects and tracks over the table."""
    groups = line.decoded.groups
    aspects = [{aspect.name for aspect in data.group.group.aspects} for data in groups]
    tracks = [{data.group.track} for data in groups]
    found = [*_of("aspect", groups, aspects), *_of("track", groups, tracks), *_in_two_cases(groups, aspects)]
    return Result(sorted(found, key=lambda each: each.location.order), len(groups))


def _of(kind: str, groups: Sequence[GroupData], names: Sequence[Set[str]]) -> Iterator[Remark]:
    """The names of one kind that one group has, and that look like a name of several others."""
    counts = Counter(name for own in names for name in own)
    usual: Dict[Tuple[object, ...], List[str]] = {}
    for name, count in counts.items():
        if count >= LEAST:
            usual.setdefault(_rest(name), []).append(name)
    for data, own in zip(groups, names):
        for name in sorted(own):
            others = usual.get(_rest(name), ()) if counts[name] == 1 else ()
            wanted = next((each for each in others if each not in own and _is_slip(name, each)), None)
            if wanted is not None:
                words = (
                    f"no other group has the {kind} {quoted(name)}, and {counts[wanted]} groups have {quoted(wanted)}"
                )
                yield _remark(kind, data, name, f"{words}: it looks typed wrongly", counts[wanted])


def _in_two_cases(groups: Sequence[GroupData], names: Sequence[Set[str]]) -> Iterator[Remark]:
    """The aspects that differ from a more frequent one only in case or blanks: one remark for all of their groups."""
    counts = Counter(name for own in names for name in sorted(own))
    alike: Dict[str, List[str]] = {}
    for name in counts:
        alike.setdefault(BLANKS.sub("", name).casefold(), []).append(name)
    several = (sorted(some, key=lambda name: -counts[name]) for key, some in alike.items() if len(key) > 1)
    for usual, *others in several:
        for name in others:
            first, *more = [data for data, own in zip(groups, names) if name in own]
            if not any({usual, name} <= own for own in names):
                have = "1 group has" if counts[name] == 1 else f"{counts[name]} groups have"
                words = f"{have} the aspect {quoted(name)}, and {counts[usual]} {quoted(usual)}"
                made = _remark("aspect", first, name, f"{words}: they differ only in case or blanks", counts[usual])
                yield made._replace(also=[data.location(_rows("aspect", data, name)[0]) for data in more])


def _rest(name: str) -> Tuple[object, ...]:
    """What is beside the words of a name, in its order: digits, blanks and signs."""
    return tuple(WORDS.split(name))


def _is_slip(name: str, wanted: str) -> bool:
    """Whether two names with the same rest differ in one letter of one word."""
    pairs = zip(WORDS.findall(name.casefold()), WORDS.findall(wanted.casefold()))
    differing = [pair for pair in pairs if pair[0] != pair[1]]
    return len(differing) == 1 and _is_one_letter(*differing[0])


def _is_one_letter(one: str, other: str) -> bool:
    """Whether two words differ in one letter that is not at an end, or in the order of two neighbours."""
    if min(len(one), len(other)) < SHORTEST or one[0] != other[0] or one[-1] != other[-1]:
        return False
    begin = _common(one, other)
    first, second = one[begin:], other[begin:]
    end = _common(first[::-1], second[::-1])
    cut = [word[: len(word) - min(end, len(first), len(second))] for word in (first, second)]
    is_exchange = len(cut[0]) == 2 and cut[0] == cut[1][::-1]
    return is_exchange or max(map(len, cut)) == 1


def _common(one: str, other: str) -> int:
    """How many letters two words begin with in common."""
    shortest = min(len(one), len(other))
    return next((place for place in range(shortest) if one[place] != other[place]), shortest)


def _remark(kind: str, data: GroupData, name: str, sentence: str, count: int) -> Remark:
    """A remark on the name of a group, beside another name that some groups have."""
    rows = [row.number for row in _rows(kind, data, name)]
    aspects: Sequence[str] = [name] if kind == "aspect" else ()
    return Remark("E32", data.location(), sentence, None, {"groups": Decimal(count)}, (), None, rows, aspects)


def _rows(kind: str, data: GroupData, name: str) -> Sequence[Row]:
    """The rows of a group that have a name."""
    return [row for row in data.group.group.each_row if kind == "track" or row.aspect == name]


RULE = Rule("E32", "groups", __doc__ or "", find, Urgency.RULE_ONLY)

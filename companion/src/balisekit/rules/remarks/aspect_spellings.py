"""aspect spellings: a group has one aspect, or all, of other names than most groups have.

What it says. At most three groups have this aspect, and most of the groups that share all their other aspects with
them have one other aspect in its place. Or no aspect of a group has a name that more than three groups have, and most
groups have other names. One word of two languages, a slip of the pen, a prefix or another case looks like that.

Why it matters. To be looked at: what is one aspect for the engineer is two for E7 to E9, for pictures of a track, and
for entries of accepted findings.

Usual cause. The table was put together from lists of several people.

How to correct it. Write the name as in the other groups, if the same aspect is meant.
"""
from __future__ import annotations

from collections import Counter
from typing import Dict, FrozenSet, Iterator, List, Mapping, Tuple

from balisekit.rules.line import Line
from balisekit.rules.location import Location
from balisekit.rules.rule import Options, Remark, Result, Rule
from balisekit.tables.model import Group
from balisekit.tables.names import clean, listed, quoted

FEW = 3
"""The most groups with one other name that are named."""
GREATEST_COUNT = 32
"""More aspects than a signal has."""
LEAST = 3
"""The fewest groups that show what names are usual."""
NAMED = 5
Names = FrozenSet[str]
Groups = Mapping[Names, List[Group]]
"""By the names of their aspects."""


def find(line: Line, options: Options) -> Result:
    """Compares the groups with several aspects by the names of these."""
    groups: Dict[Names, List[Group]] = {}
    for group in line.table_groups:
        if 1 < len(group.aspects) <= GREATEST_COUNT:
            groups.setdefault(frozenset(aspect.name for aspect in group.aspects), []).append(group)
    having: Counter[str] = Counter()
    for names, members in groups.items():
        having.update({name: len(members) for name in names})
    return Result([*_one_other(groups, having), *_all_others(groups, having)], len(line.table_groups))


def _all_others(groups: Groups, having: Mapping[str, int]) -> Iterator[Remark]:
    """Groups that have no aspect of the names that most groups have."""
    rare = [names for names in groups if all(having[name] <= FEW for name in names)]
    usual = max(groups, key=lambda names: len(groups[names]), default=frozenset())
    others = [group for names in rare if names.isdisjoint(usual) for group in groups[names]]
    count = len(groups.get(usual, ()))
    if count >= LEAST and count > 2 * len(others):
        for group in others:
            names = [quoted(aspect.name) for aspect in group.aspects]
            most = listed(list(map(quoted, sorted(usual))), NAMED)
            sentence = (
                f"{clean(group.name)} has the aspects {listed(names, NAMED)}, and {count} groups have {most}: are they "
                "the same aspects? E9 compares aspects by their names"
            )
            yield Remark(RULE.name, Location(row=group.aspects[0].rows[0]), sentence)


def _one_other(groups: Groups, having: Mapping[str, int]) -> Iterator[Remark]:
    """Groups of which one aspect has another name than in most groups with their other aspects."""
    sharing: Dict[Names, List[Tuple[Names, str]]] = {}
    for names in groups:
        for name in names:
            sharing.setdefault(names - {name}, []).append((names, name))
    for alternatives in sharing.values():
        most, usual = max(alternatives, key=lambda item: len(groups[item[0]]))
        count = len(groups[most])
        rest = sum(len(groups[names]) for names, _ in alternatives) - count
        for names, name in alternatives:
            if names != most and having[name] <= FEW and count > max(FEW, 2 * rest):
                yield _remark(groups[names], name, usual, count)


def _remark(groups: List[Group], name: str, usual: str, count: int) -> Remark:
    who = listed([clean(group.name) for group in groups], FEW)
    have = "has" if len(groups) == 1 else "have"
    sentence = (
        f"{who} {have} an aspect {quoted(name)}, and {count} groups with the same other aspects have {quoted(usual)}: "
        "is it the same aspect?"
    )
    return Remark(RULE.name, Location(row=groups[0].aspects[0].rows[0]), sentence)


RULE = Rule("aspect spellings", "groups", __doc__ or "", find)

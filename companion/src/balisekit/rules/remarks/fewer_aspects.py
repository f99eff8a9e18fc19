"""fewer aspects: a group has only some of the aspects of others.

What it says. At most three groups have just the aspects of this one, and most of the other groups that have these all
have the same further aspects.

Why it matters. To be looked at: an aspect that the table lacks is not checked.

Usual cause. The last aspect of a group was left out of the table. A group of another kind, such as one with infill, may
have fewer aspects rightly.

How to correct it. Add the rows of the aspect, if the design has it.
"""
from __future__ import annotations

from collections import Counter
from typing import Dict, FrozenSet, Iterator, List

from balisekit.rules.line import Line
from balisekit.rules.location import Location
from balisekit.rules.rule import Options, Remark, Result, Rule
from balisekit.tables.names import clean, quoted

FEW = 3
"""The most groups with the same few aspects that are named."""


def find(line: Line, options: Options) -> Result:
    """Compares the groups by the names of their aspects."""
    return Result(list(_look(line)), len(line.table_groups))


def _look(line: Line) -> Iterator[Remark]:
    named = [frozenset(aspect.name for aspect in group.aspects if aspect.name) for group in line.table_groups]
    counts = Counter(names for names in named if names)
    having: Dict[str, List[FrozenSet[str]]] = {}
    for names in counts:
        for aspect in names:
            having.setdefault(aspect, []).append(names)
    for group, own in zip(line.table_groups, named):
        if not 0 < counts[own] <= FEW:
            continue
        larger = [names for names in min((having[aspect] for aspect in own), key=len) if names > own]
        most = max(larger, key=lambda names: counts[names], default=own)
        if most > own and counts[most] * 2 > sum(counts[names] for names in larger) + counts[own] - 1:
            sentence = (
                f"{clean(group.name)} has {len(own)} aspect{'s' if len(own) > 1 else ''}, {counts[most]} other "
                f"group{'s have' if counts[most] > 1 else ' has'} {len(most)}: it lacks "
                f"{', '.join(map(quoted, sorted(most - own)))}"
            )
            yield Remark(RULE.name, Location(row=group.aspects[0].rows[0]), sentence)


RULE = Rule("fewer aspects", "groups", __doc__ or "", find)

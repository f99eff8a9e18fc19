"""A group has the kilometre of the next one.

In real life. The column of kilometres slipped by one group.

Here. The kilometres of a group are those of the group that follows in the table.

For a train. Nothing, since trains do not know kilometres. But two groups are at one place in all checks and plans.
"""
from __future__ import annotations

from typing import Optional

from balisekit.mistakes.mistake import Change
from balisekit.mistakes.of_rows import kilometre_of, mistake_of, moved, Neighbours, neighbours_of
from balisekit.mistakes.original import Original


def altered(original: Original, groups: Neighbours) -> Optional[Change]:
    """A group at the kilometre of the next one."""
    one, two = map(kilometre_of, groups)
    return None if one is None or two is None else moved(groups[0], two - one)


MISTAKE = mistake_of(__name__, __doc__, neighbours_of, altered)

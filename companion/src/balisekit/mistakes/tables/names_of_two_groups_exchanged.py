"""Two groups have each other's names.

In real life. Two lines of the list of signals were exchanged.

Here. The rows of two groups that follow each other have each other's names; kilometres and telegrams stay.

For a train. Nothing, as long as the balises are mounted by kilometre. If they are mounted by name, two groups are
exchanged.
"""
from __future__ import annotations

from typing import Optional

from balisekit.mistakes.mistake import Change
from balisekit.mistakes.of_rows import mistake_of, named, Neighbours, neighbours_of
from balisekit.mistakes.original import Original


def altered(original: Original, groups: Neighbours) -> Optional[Change]:
    """Two groups with exchanged names."""
    one, two = groups
    cells = {row.number: {"group": two.name} for row in one.each_row}
    cells.update({row.number: {"group": one.name} for row in two.each_row})
    return Change(f"{named(one)} and {named(two)} have each other's names", frozenset(cells), cells=cells)


MISTAKE = mistake_of(__name__, __doc__, neighbours_of, altered)

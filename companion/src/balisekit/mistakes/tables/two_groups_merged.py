"""Two groups have one name.

In real life. The name of a group was copied over that of the next one.

Here. All rows of a group have the name of the group that follows in the table.

For a train. Nothing, if the telegrams are right. But the balises of two groups are checked and mounted as one.
"""
from __future__ import annotations

from typing import Optional

from balisekit.mistakes.mistake import Change
from balisekit.mistakes.of_rows import mistake_of, named, Neighbours, neighbours_of
from balisekit.mistakes.original import Original


def altered(original: Original, groups: Neighbours) -> Optional[Change]:
    """Two groups under one name."""
    cells = {row.number: {"group": groups[1].name} for row in groups[0].each_row}
    return Change(f"{named(groups[0])} is called {named(groups[1])}", frozenset(cells), cells=cells)


MISTAKE = mistake_of(__name__, __doc__, neighbours_of, altered)

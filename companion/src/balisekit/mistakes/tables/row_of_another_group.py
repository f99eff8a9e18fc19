"""A row has the name of another group.

In real life. The name was copied down one row too far.

Here. The last row of a group has the name of the group that follows in the table.

For a train. Nothing, if the telegrams are right. But the balise may be mounted at another group.
"""
from __future__ import annotations

from typing import Optional

from balisekit.mistakes.mistake import Change
from balisekit.mistakes.of_rows import mistake_of, named, Neighbours, neighbours_of
from balisekit.mistakes.original import Original


def altered(original: Original, groups: Neighbours) -> Optional[Change]:
    """The last row of a group under the name of the next one."""
    row = groups[0].each_row[-1].number
    if len(groups[0].each_row) < 2:
        return None
    words = f"row {row} is called {named(groups[1])}"
    return Change(words, frozenset({row}), cells={row: {"group": groups[1].name}})


MISTAKE = mistake_of(__name__, __doc__, neighbours_of, altered)

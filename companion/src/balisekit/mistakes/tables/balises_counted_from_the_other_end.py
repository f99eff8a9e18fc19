"""The balises of a group are numbered from the wrong end.

In real life. The column balise was filled in against the nominal direction.

Here. The numbers in the column balise of a group are in the reverse order.

For a train. If the balises are mounted by these numbers, the group is the wrong way round.
"""
from __future__ import annotations

from typing import Optional

from balisekit.mistakes.mistake import Change
from balisekit.mistakes.of_rows import groups_of, mistake_of, named
from balisekit.mistakes.original import Original
from balisekit.tables.model import Group


def altered(original: Original, group: Group) -> Optional[Change]:
    """A group whose numbers in the column balise are reversed."""
    numbers = [row.balise for row in group.each_row if row.balise is not None]
    if len(set(numbers)) < 2:
        return None
    ends = min(numbers) + max(numbers)
    cells = {row.number: {"balise": ends - row.balise} for row in group.each_row if row.balise is not None}
    return Change(f"{named(group)} has the numbers of its balises reversed", frozenset(cells), cells=cells)


MISTAKE = mistake_of(__name__, __doc__, groups_of, altered)

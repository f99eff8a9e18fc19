"""Two balises of a group have each other's kilometres.

In real life. The group was measured against the direction of the kilometres.

Here. The kilometres of the first two balises of a group change places in all its rows.

For a train. If balises are mounted by kilometre, the group is the wrong way round.
"""
from __future__ import annotations

from typing import Optional

from balisekit.mistakes.mistake import Change
from balisekit.mistakes.of_rows import groups_of, mistake_of, named
from balisekit.mistakes.original import Original
from balisekit.tables.model import Group


def altered(original: Original, group: Group) -> Optional[Change]:
    """A group with two kilometres exchanged."""
    places = [km for km in dict.fromkeys(row.km for row in group.each_row) if km is not None][:2]
    if len(places) < 2:
        return None
    turned = dict(zip(places, places[::-1]))
    cells = {row.number: {"km": turned[row.km]} for row in group.each_row if row.km in turned}
    return Change(f"{named(group)} has two kilometres exchanged", frozenset(cells), cells=cells)


MISTAKE = mistake_of(__name__, __doc__, groups_of, altered)

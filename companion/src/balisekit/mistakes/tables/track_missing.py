"""A group has no track.

In real life. A cell was cleared, or the group was added by hand.

Here. The cells of the column track are empty in all rows of a group.

For a train. Nothing, since trains do not know the names of tracks. But the group is compared with no neighbour.
"""
from __future__ import annotations

from typing import Optional

from balisekit.mistakes.mistake import Change
from balisekit.mistakes.of_rows import groups_of, mistake_of, named
from balisekit.mistakes.original import Original
from balisekit.tables.model import Group


def altered(original: Original, group: Group) -> Optional[Change]:
    """A group without a track."""
    cells = {row.number: {"track": ""} for row in group.each_row if row.track}
    return Change(f"{named(group)} has no track", frozenset(cells), cells=cells) if cells else None


MISTAKE = mistake_of(__name__, __doc__, groups_of, altered)

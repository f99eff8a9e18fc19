"""A group is on another track.

In real life. The name of the track was copied down too far.

Here. All rows of a group have the track of another group of the table.

For a train. Nothing, since trains do not know the names of tracks. But the group is compared with the wrong
neighbours.
"""
from __future__ import annotations

from typing import Optional

from balisekit.mistakes.mistake import Change
from balisekit.mistakes.of_rows import groups_of, mistake_of, named
from balisekit.mistakes.original import Original
from balisekit.tables.model import Group


def altered(original: Original, group: Group) -> Optional[Change]:
    """A group on the track of another group."""
    track = next((each.track for each in original.groups if each.track and each.track != group.track), "")
    cells = {row.number: {"track": track} for row in group.each_row}
    return Change(f'{named(group)} is on track "{track}"', frozenset(cells), cells=cells) if track else None


MISTAKE = mistake_of(__name__, __doc__, groups_of, altered)

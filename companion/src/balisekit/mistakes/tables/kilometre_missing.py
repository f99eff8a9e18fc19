"""A group has no kilometre.

In real life. The place was not known when the table was made.

Here. The kilometres of a group are empty.

For a train. Nothing. But no rule can compare the group with the line.
"""
from __future__ import annotations

from typing import Optional

from balisekit.mistakes.mistake import Change
from balisekit.mistakes.of_rows import groups_of, mistake_of, named
from balisekit.mistakes.original import Original
from balisekit.tables.model import Group


def altered(original: Original, group: Group) -> Optional[Change]:
    """A group without kilometres."""
    cells = {row.number: {"km": None} for row in group.each_row if row.km is not None}
    return Change(f"{named(group)} has no kilometre", frozenset(cells), cells=cells) if cells else None


MISTAKE = mistake_of(__name__, __doc__, groups_of, altered)

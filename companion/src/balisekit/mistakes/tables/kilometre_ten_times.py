"""A kilometre has its decimal sign at the wrong place.

In real life. 47.300 became 473.00.

Here. The kilometres of a group are ten times as large.

For a train. Nothing, since trains do not know kilometres. But each check that compares distances with the table is
misled.
"""
from __future__ import annotations

from typing import Optional

from balisekit.mistakes.mistake import Change
from balisekit.mistakes.of_rows import groups_of, kilometre_of, mistake_of, moved
from balisekit.mistakes.original import Original
from balisekit.tables.model import Group


def altered(original: Original, group: Group) -> Optional[Change]:
    """A group whose decimal sign is one digit too far to the right."""
    first = kilometre_of(group)
    return moved(group, 9 * first) if first else None


MISTAKE = mistake_of(__name__, __doc__, groups_of, altered)

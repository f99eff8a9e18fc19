"""Two balises no longer declare that they are duplicates.

In real life. M_DUP was left at its default.

Here. M_DUP of all telegrams of a group with duplicates is 0.

For a train. If it misses one of the balises, it refuses the group.
"""
from __future__ import annotations

from typing import Optional

from balisekit.mistakes.mistake import Change
from balisekit.mistakes.of_rows import groups_of, mistake_of, named, of_headers
from balisekit.mistakes.original import Original
from balisekit.tables.model import Group


def altered(original: Original, group: Group) -> Optional[Change]:
    """A group without duplicates."""
    return of_headers(original, f"{named(group)} has M_DUP 0", group.each_row, m_dup=0)


MISTAKE = mistake_of(__name__, __doc__, groups_of, altered)

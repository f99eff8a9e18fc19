"""A controlled group has M_MCOUNT 255 in all aspects.

In real life. The counter was left at the value of fixed balises.

Here. M_MCOUNT of all telegrams of a group with several aspects is 255.

For a train. While the signal changes it takes telegrams of two aspects for one message.
"""
from __future__ import annotations

from typing import Optional

from balisekit.mistakes.mistake import Change
from balisekit.mistakes.of_rows import groups_of, mistake_of, named, of_headers
from balisekit.mistakes.original import Original
from balisekit.tables.model import Group


def altered(original: Original, group: Group) -> Optional[Change]:
    """A group whose aspects cannot be told apart."""
    several = len(group.aspects) > 1
    return of_headers(original, f"{named(group)} has M_MCOUNT 255", group.each_row, m_mcount=255) if several else None


MISTAKE = mistake_of(__name__, __doc__, groups_of, altered)

"""A group is marked as unlinked.

In real life. Q_LINK was left at its default.

Here. Q_LINK of all telegrams of a group is 0 instead of 1.

For a train. It reads the group even if nobody has announced it, and does not notice if it is missing.
"""
from __future__ import annotations

from typing import Optional

from balisekit.mistakes.mistake import Change
from balisekit.mistakes.of_rows import groups_of, mistake_of, named, of_headers
from balisekit.mistakes.original import Original
from balisekit.tables.model import Group


def altered(original: Original, group: Group) -> Optional[Change]:
    """A group that is unlinked."""
    return of_headers(original, f"{named(group)} has Q_LINK 0", group.each_row, q_link=0)


MISTAKE = mistake_of(__name__, __doc__, groups_of, altered)

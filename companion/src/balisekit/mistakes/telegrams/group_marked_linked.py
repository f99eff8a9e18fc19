"""An unlinked group is marked as linked.

In real life. The header was copied from a group that is linked.

Here. Q_LINK of all telegrams of a group is 1 instead of 0.

For a train. It ignores the group as long as it has links, since none of them announces the group.
"""
from __future__ import annotations

from typing import Optional

from balisekit.mistakes.mistake import Change
from balisekit.mistakes.of_rows import groups_of, mistake_of, named, of_headers
from balisekit.mistakes.original import Original
from balisekit.tables.model import Group


def altered(original: Original, group: Group) -> Optional[Change]:
    """A group that is linked."""
    return of_headers(original, f"{named(group)} has Q_LINK 1", group.each_row, q_link=1)


MISTAKE = mistake_of(__name__, __doc__, groups_of, altered)

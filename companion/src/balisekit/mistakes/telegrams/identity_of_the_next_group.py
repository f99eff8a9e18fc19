"""A group has the identity of the next one.

In real life. NID_BG was copied with the rest of the header.

Here. All telegrams of a group have NID_BG of the group that follows in the table.

For a train. It expects the group at another place, reads an unexpected one, and its position is wrong.
"""
from __future__ import annotations

from typing import Optional

from balisekit.mistakes.mistake import Change
from balisekit.mistakes.of_rows import mistake_of, named, Neighbours, neighbours_of, of_headers
from balisekit.mistakes.original import Original


def altered(original: Original, groups: Neighbours) -> Optional[Change]:
    """A group with the number of the next one."""
    number = original.forms[groups[1].each_row[0].number]["nid_bg"]
    return of_headers(original, f"{named(groups[0])} has NID_BG {number}", groups[0].each_row, nid_bg=number)


MISTAKE = mistake_of(__name__, __doc__, neighbours_of, altered)

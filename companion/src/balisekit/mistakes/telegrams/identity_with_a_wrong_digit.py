"""The number of a group has a wrong digit.

In real life. NID_BG 352 was typed as 353 when the group was created, so all its telegrams have it.

Here. NID_BG of all telegrams of a group is greater by one, or by two if the next group has that number.

For a train. Links announce a group that is not there, and it meets one that nobody has announced.
"""
from __future__ import annotations

from typing import Optional

from balisekit.mistakes.mistake import Change
from balisekit.mistakes.of_rows import groups_of, mistake_of, named, of_headers
from balisekit.mistakes.original import Original
from balisekit.tables.model import Group


def altered(original: Original, group: Group) -> Optional[Change]:
    """A group with another number, which no other group has."""
    used = {form["nid_bg"] for form in original.telegrams.values()}
    own = original.forms[group.each_row[0].number]["nid_bg"]
    number = next((each for each in range(own + 1, 16_383) if each not in used), own)
    return of_headers(original, f"{named(group)} has NID_BG {number}", group.each_row, nid_bg=number)


MISTAKE = mistake_of(__name__, __doc__, groups_of, altered)

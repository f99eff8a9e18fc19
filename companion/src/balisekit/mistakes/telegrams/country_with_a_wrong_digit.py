"""The country of a group is another one.

In real life. NID_C was taken from a neighbouring project at a border.

Here. NID_C of all telegrams of a group is greater by one.

For a train. It may use the default values in place of the national ones, and links announce a group that it does
not find.
"""
from __future__ import annotations

from typing import Optional

from balisekit.mistakes.mistake import Change
from balisekit.mistakes.of_rows import groups_of, mistake_of, named, of_headers
from balisekit.mistakes.original import Original
from balisekit.tables.model import Group


def altered(original: Original, group: Group) -> Optional[Change]:
    """A group of another country."""
    number = (original.forms[group.each_row[0].number]["nid_c"] + 1) % 1024
    return of_headers(original, f"{named(group)} has NID_C {number}", group.each_row, nid_c=number)


MISTAKE = mistake_of(__name__, __doc__, groups_of, altered)

"""The system version of a group is another one.

In real life. An export was made with the settings of another project.

Here. M_VERSION of all telegrams of a group is 2.0 instead of 2.1, or 2.1 instead of 2.0.

For a train. It reads the telegrams by another version, in which a packet or a number may mean another thing or nothing.
"""
from __future__ import annotations

from typing import Optional

from balisekit.mistakes.mistake import Change
from balisekit.mistakes.of_rows import groups_of, mistake_of, named, of_headers
from balisekit.mistakes.original import Original
from balisekit.tables.model import Group


def altered(original: Original, group: Group) -> Optional[Change]:
    """A group with the other version."""
    version = 65 - original.forms[group.each_row[0].number]["m_version"]
    return of_headers(original, f"{named(group)} has M_VERSION {version}", group.each_row, m_version=version)


MISTAKE = mistake_of(__name__, __doc__, groups_of, altered)

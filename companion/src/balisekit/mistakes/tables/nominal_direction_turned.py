"""The nominal direction of a group is the other one.

In real life. The column was filled in for the track, and the group faces the other way.

Here. The column nominal of a group is rising instead of falling, or falling instead of rising.

For a train. Nothing. But each rule that compares the group with the line takes it to face the wrong way.
"""
from __future__ import annotations

from typing import Optional

from balisekit.mistakes.mistake import Change
from balisekit.mistakes.of_rows import groups_of, mistake_of, named
from balisekit.mistakes.original import Original
from balisekit.tables.model import Group

TURNED = {"rising": "falling", "falling": "rising"}


def altered(original: Original, group: Group) -> Optional[Change]:
    """A group that faces the other way."""
    cells = {row.number: {"nominal": TURNED[row.nominal]} for row in group.each_row if row.nominal in TURNED}
    return Change(f"{named(group)} has the other nominal direction", frozenset(cells), cells=cells) if cells else None


MISTAKE = mistake_of(__name__, __doc__, groups_of, altered)

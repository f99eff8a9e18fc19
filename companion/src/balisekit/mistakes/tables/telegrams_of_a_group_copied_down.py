"""All telegrams of a group are those of its first row.

In real life. A cell was filled by dragging over the whole group.

Here. All rows of a group have the telegram of the first one.

For a train. It reads one position several times, and the group is never complete.
"""
from __future__ import annotations

from typing import Optional

from balisekit.mistakes.mistake import Change
from balisekit.mistakes.of_rows import groups_of, mistake_of, named, of_forms
from balisekit.mistakes.original import Original
from balisekit.tables.model import Group


def altered(original: Original, group: Group) -> Optional[Change]:
    """A group with one telegram in all rows."""
    first, *others = group.each_row
    forms = {row.number: original.forms[first.number] for row in others}
    return of_forms(f"{named(group)} has one telegram in all rows", forms)


MISTAKE = mistake_of(__name__, __doc__, groups_of, altered)

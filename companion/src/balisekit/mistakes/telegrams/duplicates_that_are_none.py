"""Two balises declare that they are duplicates, and say different things.

In real life. The flags were copied from a group with duplicates.

Here. M_DUP of the first two balises of a group without duplicates says that they are duplicates of each other.

For a train. If it misses one of them it loses the packets of that balise without noticing it.
"""
from __future__ import annotations

from typing import Optional

from balisekit.mistakes.mistake import Change
from balisekit.mistakes.of_rows import groups_of, mistake_of, named, of_forms, with_header
from balisekit.mistakes.original import Original
from balisekit.tables.model import Group


def altered(original: Original, group: Group) -> Optional[Change]:
    """A group whose first two balises are declared duplicates."""
    if len(group.aspects[0].rows) < 2 or any(original.forms[row.number]["m_dup"] for row in group.each_row):
        return None
    forms = {
        row.number: with_header(original.forms[row.number], m_dup=1 + place)
        for aspect in group.aspects
        for place, row in enumerate(aspect.rows[:2])
    }
    return of_forms(f"{named(group)} has M_DUP 1 and 2", forms)


MISTAKE = mistake_of(__name__, __doc__, groups_of, altered)

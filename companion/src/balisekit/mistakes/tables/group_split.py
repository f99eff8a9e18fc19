"""The rows of a group have two names.

In real life. The name was changed while the rows of the group were filled in.

Here. The rows of the last balise of a group have a name of their own.

For a train. Nothing, if the telegrams are right. But the balises are no longer checked together.
"""
from __future__ import annotations

from typing import Optional

from balisekit.mistakes.mistake import Change
from balisekit.mistakes.of_rows import groups_of, mistake_of, named
from balisekit.mistakes.original import Original
from balisekit.tables.model import Group


def altered(original: Original, group: Group) -> Optional[Change]:
    """A group whose last balise is under another name."""
    rows = {aspect.rows[-1].number for aspect in group.aspects}
    cells = {row: {"group": f"{group.name} B"} for row in rows}
    several = len(group.aspects[0].rows) > 1
    return Change(f"{named(group)} is split", frozenset(cells), cells=cells) if several else None


MISTAKE = mistake_of(__name__, __doc__, groups_of, altered)

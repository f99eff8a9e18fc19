"""One balise of a group has a wrong kilometre.

In real life. One of the cells of a group was not adapted when the group was moved.

Here. The last balise of a group is 100 m further on, in all its rows.

For a train. Nothing, since trains do not know kilometres. But the balise may be mounted at the wrong place.
"""
from __future__ import annotations

from decimal import Decimal
from typing import Optional

from balisekit.mistakes.mistake import Change
from balisekit.mistakes.of_rows import groups_of, mistake_of, named
from balisekit.mistakes.original import Original
from balisekit.tables.model import Group


def altered(original: Original, group: Group) -> Optional[Change]:
    """A group whose last balise is 100 m further on."""
    last = [aspect.rows[-1] for aspect in group.aspects]
    cells = {row.number: {"km": row.km + Decimal("0.1")} for row in last if row.km is not None}
    several = len(group.aspects[0].rows) > 1 and cells
    return (
        Change(f"{named(group)}: the last balise is moved by 100 m", frozenset(cells), cells=cells) if several else None
    )


MISTAKE = mistake_of(__name__, __doc__, groups_of, altered)

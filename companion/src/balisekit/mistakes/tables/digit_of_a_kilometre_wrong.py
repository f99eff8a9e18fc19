"""A digit of a kilometre is wrong.

In real life. 47.300 was typed as 47.400.

Here. The kilometres of a group are greater by 100 m, in all its rows.

For a train. Nothing, since trains do not know kilometres. But each check that compares distances with the table is
misled, and so is who mounts the balises.
"""
from __future__ import annotations

from decimal import Decimal
from typing import Optional

from balisekit.mistakes.mistake import Change
from balisekit.mistakes.of_rows import groups_of, mistake_of, moved
from balisekit.mistakes.original import Original
from balisekit.tables.model import Group


def altered(original: Original, group: Group) -> Optional[Change]:
    """A group 100 m further on."""
    return moved(group, Decimal("0.1"))


MISTAKE = mistake_of(__name__, __doc__, groups_of, altered)

"""Two digits of a kilometre are exchanged.

In real life. 47.300 was typed as 47.030.

Here. Two neighbouring digits of the kilometre of a group change places, in all its rows.

For a train. Nothing, since trains do not know kilometres. But each check that compares distances with the table is
misled, and so is who mounts the balises.
"""
from __future__ import annotations

from decimal import Decimal
from typing import Iterator, Optional

from balisekit.mistakes.mistake import Change
from balisekit.mistakes.of_rows import groups_of, kilometre_of, mistake_of, moved
from balisekit.mistakes.original import Original
from balisekit.tables.model import Group


def altered(original: Original, group: Group) -> Optional[Change]:
    """A group at a kilometre with two digits exchanged."""
    first = kilometre_of(group)
    other = None if first is None else next(exchanged(first), None)
    return None if first is None or other is None else moved(group, other - first)


def exchanged(kilometre: Decimal) -> Iterator[Decimal]:
    """The kilometres with two neighbouring digits exchanged, the greatest changes first."""
    text = f"{kilometre:.3f}"
    for place in range(len(text) - 1):
        one, two = text[place], text[place + 1]
        if one.isdigit() and two.isdigit() and one != two:
            yield Decimal(f"{text[:place]}{two}{one}{text[place + 2 :]}")


MISTAKE = mistake_of(__name__, __doc__, groups_of, altered)

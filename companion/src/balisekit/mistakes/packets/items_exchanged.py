"""Two items of a list in a packet are exchanged.

In real life. A list was sorted by another column, or a line was put in before its neighbour.

Here. The first two items of a list change places.

For a train. The profile has its values at the wrong places.
"""
from __future__ import annotations

from typing import Any, Optional, Sequence

from balisekit.mistakes.of_packets import Place, lists_of, mistake_of


def altered(place: Place) -> Optional[Sequence[Any]]:
    """The packets with a list whose first two items are exchanged."""
    key = next(iter(lists_of(place.packet, 2)), "")
    items = list(place.packet.get(key, ()))
    return place.replaced_by({**place.packet, key: [items[1], items[0], *items[2:]]}) if key else None


MISTAKE = mistake_of(__name__, __doc__, "has the first two items of its list exchanged", altered)

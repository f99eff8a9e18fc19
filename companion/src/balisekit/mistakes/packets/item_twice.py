"""A list in a packet has an item twice.

In real life. A line of a list was pasted again.

Here. The first item of a list follows itself.

For a train. All that follows in the list moves away from the group, or a group is announced twice.
"""
from __future__ import annotations

from typing import Any, Optional, Sequence

from balisekit.mistakes.of_packets import Place, lists_of, mistake_of


def altered(place: Place) -> Optional[Sequence[Any]]:
    """The packets with a list whose first item follows itself."""
    key = next(iter(lists_of(place.packet, 1)), "")
    items = list(place.packet.get(key, ()))
    return place.replaced_by({**place.packet, key: [items[0], *items]}) if key else None


MISTAKE = mistake_of(__name__, __doc__, "has the first item of its list twice", altered)

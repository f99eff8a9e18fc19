"""A list in a packet lacks an item before its last one.

In real life. A line of a list was deleted while another one was put in.

Here. The first link, section, gradient, speed or level of a packet is taken out, and others follow it.

For a train. All that follows in the list moves towards the group, or a group is not announced.
"""
from __future__ import annotations

from typing import Any, Optional, Sequence

from balisekit.mistakes.of_packets import Place, lists_of, mistake_of


def altered(place: Place) -> Optional[Sequence[Any]]:
    """The packets with a list without its first item."""
    key = next(iter(lists_of(place.packet, 2)), "")
    items = list(place.packet.get(key, ()))
    return place.replaced_by({**place.packet, key: items[1:]}) if key else None


MISTAKE = mistake_of(__name__, __doc__, "lacks the first item of its list", altered)

"""Each distance of a profile counts from the group.

In real life. A list of places was exported as it was, although each element has the distance from the one before it.

Here. Each D_GRADIENT, D_STATIC or D_LINK of a packet is the sum of those up to it.

For a train. Each change of the profile, and each linked group, is too far away, more and more along the track.
"""
from __future__ import annotations

from itertools import accumulate
from typing import Any, Optional, Sequence

from balisekit.mistakes.of_packets import Place, mistake_of


KEYS = {5: ("links", "d_link"), 21: ("elements", "d_gradient"), 27: ("elements", "d_static")}
"""The list and the distance of each packet."""


def altered(place: Place) -> Optional[Sequence[Any]]:
    """The packets with distances that are sums."""
    items, key = KEYS[place.packet["nid_packet"]]
    sums = accumulate(item[key] for item in place.packet[items])
    made = [{**item, key: total} for item, total in zip(place.packet[items], sums)]
    return place.replaced_by({**place.packet, items: made}) if len(made) > 1 else None


MISTAKE = mistake_of(__name__, __doc__, "has each distance counted from the group", altered, (5, 21, 27))

"""The two release speeds of an authority are exchanged.

In real life. The release speeds of danger point and overlap were filled into each other's fields.

Here. V_RELEASEDP and V_RELEASEOL of packet 12 or 15 change places.

For a train. It may come to the signal faster than the distance to the danger point allows, or has to creep there.
"""
from __future__ import annotations

from typing import Any, Optional, Sequence

from balisekit.mistakes.of_packets import Place, mistake_of


def altered(place: Place) -> Optional[Sequence[Any]]:
    """The packets with an authority whose release speeds are exchanged."""
    packet = place.packet
    if "danger_point" not in packet or "overlap" not in packet:
        return None
    point, overlap = packet["danger_point"], packet["overlap"]
    turned = {
        "danger_point": {**point, "v_releasedp": overlap["v_releaseol"]},
        "overlap": {**overlap, "v_releaseol": point["v_releasedp"]},
    }
    return place.replaced_by({**packet, **turned})


MISTAKE = mistake_of(__name__, __doc__, "has its two release speeds exchanged", altered, (12, 15))

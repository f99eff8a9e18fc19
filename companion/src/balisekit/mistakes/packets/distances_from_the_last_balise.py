"""All distances of a packet count from the last balise of the group.

In real life. The survey has the place of the balise that sends the packet, which is not the reference balise.

Here. The first distance of a packet 5, 12, 21 or 27 is shorter by 3 m, or by the next whole unit of Q_SCALE.

For a train. Everything in the packet is 3 m too near.
"""
from __future__ import annotations

from typing import Any, Optional, Sequence

from balisekit.mistakes.of_packets import Place, mistake_of


FIRST = {5: ("links", "d_link"), 21: ("elements", "d_gradient"), 27: ("elements", "d_static")}
"""The list and the distance of each packet with a list."""
SHIFTS = (30, 3, 1)
"""3 m in units of Q_SCALE, rounded up."""


def altered(place: Place) -> Optional[Sequence[Any]]:
    """The packets with distances that are too short."""
    packet = place.packet
    shift = SHIFTS[packet["q_scale"]]
    items, key = FIRST.get(packet["nid_packet"], ("", "l_endsection"))
    if not items:
        return place.replaced_by({**packet, key: packet[key] - shift}) if packet[key] > shift else None
    later = [index for index, item in enumerate(packet[items]) if item[key] > shift]
    if not later:
        return None
    made = [{**item, key: item[key] - shift} if index == later[0] else item for index, item in enumerate(packet[items])]
    return place.replaced_by({**packet, items: made})


MISTAKE = mistake_of(__name__, __doc__, "has its distances 3 m too short", altered, (5, 12, 21, 27))

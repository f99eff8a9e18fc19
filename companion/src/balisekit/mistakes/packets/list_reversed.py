"""A profile is given from its end.

In real life. The list was written against the direction of travel.

Here. The values of a gradient profile or a speed profile are in the reverse order; the distances and the end mark
stay.

For a train. It gets each gradient or speed at the wrong place.
"""
from __future__ import annotations

from typing import Any, Optional, Sequence

from balisekit.mistakes.of_packets import Place, mistake_of


VALUES = {21: ("g_a", "q_gdir"), 27: ("v_static", "q_front", "differences")}
"""The keys of an element that are no distance, by the packet."""


def altered(place: Place) -> Optional[Sequence[Any]]:
    """The packets with the values of a profile in the reverse order."""
    keys, elements = VALUES[place.packet["nid_packet"]], place.packet["elements"]
    count = len(elements) - 1
    if count < 2:
        return None
    others = elements[count - 1 :: -1]
    turned = [{**one, **{key: other[key] for key in keys}} for one, other in zip(elements, others)]
    return place.replaced_by({**place.packet, "elements": [*turned, elements[-1]]})


MISTAKE = mistake_of(__name__, __doc__, "has its values in the reverse order", altered, (21, 27))

"""A profile ends where the authority ends, and not where its overlap does.

In real life. The length of the authority was used for the profiles, and the overlap was forgotten.

Here. A gradient or speed profile ends earlier by D_OL of the packet 12 or 15 of the same telegram.

For a train. It has no profile for the overlap, so the authority is not complete there.
"""
from __future__ import annotations

from typing import Any, Optional, Sequence

from balisekit.mistakes.of_packets import Place, mistake_of


KEYS = {21: "d_gradient", 27: "d_static"}


def altered(place: Place) -> Optional[Sequence[Any]]:
    """The packets with a profile that is too short."""
    packet = place.packet
    key, elements = KEYS[packet["nid_packet"]], packet["elements"]
    overlaps = [each["overlap"]["d_ol"] for each in place.packets if "overlap" in each]
    shorter = elements[-1][key] - overlaps[0] if overlaps else -1
    if shorter < 0:
        return None
    return place.replaced_by({**packet, "elements": [*elements[:-1], {**elements[-1], key: shorter}]})


MISTAKE = mistake_of(__name__, __doc__, "is shorter by the overlap", altered, (21, 27))

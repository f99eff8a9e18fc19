"""All links are turned.

In real life. The orientation was taken from a plan that is drawn in the other direction.

Here. Each Q_LINKORIENTATION of a packet 5 is the other one.

For a train. It reads each linked group from the wrong side, and reacts as the links say.
"""
from __future__ import annotations

from typing import Any, Optional, Sequence

from balisekit.mistakes.of_packets import Place, mistake_of


def altered(place: Place) -> Optional[Sequence[Any]]:
    """The packets with links that are turned."""
    packet = place.packet
    turned = [{**link, "q_linkorientation": 1 - link["q_linkorientation"]} for link in packet["links"]]
    return place.replaced_by({**packet, "links": turned})


MISTAKE = mistake_of(__name__, __doc__, "has all link orientations turned", altered, (5,))

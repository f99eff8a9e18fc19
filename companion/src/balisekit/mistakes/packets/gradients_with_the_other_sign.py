"""Uphill and downhill are exchanged.

In real life. The gradients of the design are given for rising kilometres, and the trains run the other way.

Here. Each Q_GDIR of a gradient profile is the other one; the end mark stays.

For a train. It computes its braking with an uphill gradient where the track falls.
"""
from __future__ import annotations

from typing import Any, Optional, Sequence

from balisekit.mistakes.of_packets import Place, mistake_of


def altered(place: Place) -> Optional[Sequence[Any]]:
    """The packets with a gradient profile whose signs are the other ones."""
    elements = place.packet["elements"]
    made = [{**each, "q_gdir": 1 - each["q_gdir"]} if 0 < each["g_a"] < 255 else each for each in elements]
    return place.replaced_by({**place.packet, "elements": made})


MISTAKE = mistake_of(__name__, __doc__, "has all gradients with the other sign", altered, (21,))

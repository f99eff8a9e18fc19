"""A speed profile lacks the speeds of train categories.

In real life. The tool exports only the basic speed.

Here. The list of differences of each element of a packet 27 is empty.

For a train. A tilting train drives more slowly than it may; a train with a lower limit drives too fast.
"""
from __future__ import annotations

from typing import Any, Optional, Sequence

from balisekit.mistakes.of_packets import Place, mistake_of


def altered(place: Place) -> Optional[Sequence[Any]]:
    """The packets with a speed profile of basic speeds only."""
    packet = place.packet
    return place.replaced_by({**packet, "elements": [{**each, "differences": []} for each in packet["elements"]]})


MISTAKE = mistake_of(__name__, __doc__, "lacks the speeds of train categories", altered, (27,))

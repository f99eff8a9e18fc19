"""All distances of a packet have the wrong unit.

In real life. Q_SCALE was changed from 1 m to 10 cm, and the numbers stayed.

Here. Q_SCALE of a packet is another one, and all numbers stay.

For a train. All distances of the packet are ten or a hundred times as long, or as short.
"""
from __future__ import annotations

from typing import Any, Optional, Sequence

from balisekit.mistakes.of_packets import Place, mistake_of


def altered(place: Place) -> Optional[Sequence[Any]]:
    """The packets with one in another unit."""
    packet = place.packet
    return place.replaced_by({**packet, "q_scale": (packet["q_scale"] + 2) % 3}) if "q_scale" in packet else None


MISTAKE = mistake_of(__name__, __doc__, "has another Q_SCALE with the same numbers", altered)

"""A packet is for trains of the other running direction.

In real life. The balises of the group were numbered from the other end, and Q_DIR of one packet was not changed.

Here. Q_DIR of one packet is reverse instead of nominal, or nominal instead of reverse.

For a train. The trains that need the packet do not use it, and those of the other direction do.
"""
from __future__ import annotations

from typing import Any, Optional, Sequence

from balisekit.mistakes.of_packets import Place, mistake_of


def altered(place: Place) -> Optional[Sequence[Any]]:
    """The packets with one for the other direction."""
    direction = place.packet.get("q_dir")
    return place.replaced_by({**place.packet, "q_dir": 1 - direction}) if direction in (0, 1) else None


MISTAKE = mistake_of(__name__, __doc__, "is for the other running direction", altered)

"""A packet is for both running directions.

In real life. Q_DIR was left at "both", the default of a tool.

Here. Q_DIR of one packet is 2, for both directions.

For a train. Trains of the other direction get distances and speeds that are not for them.
"""
from __future__ import annotations

from typing import Any, Optional, Sequence

from balisekit.mistakes.of_packets import Place, mistake_of


def altered(place: Place) -> Optional[Sequence[Any]]:
    """The packets with one for both directions."""
    packet = place.packet
    return place.replaced_by({**packet, "q_dir": 2}) if packet.get("q_dir") in (0, 1) else None


MISTAKE = mistake_of(__name__, __doc__, "is for both running directions", altered)

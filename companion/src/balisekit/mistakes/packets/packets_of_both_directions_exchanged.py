"""The packets for the two running directions are exchanged.

In real life. Nominal and reverse were confused when the packets of a group were assigned.

Here. A packet for one direction and the packet with its number for the other one exchange their directions.

For a train. Trains of each direction get distances and speeds of the other one.
"""
from __future__ import annotations

from typing import Any, Optional, Sequence

from balisekit.mistakes.of_packets import Place, mistake_of


def altered(place: Place) -> Optional[Sequence[Any]]:
    """The packets with two of one number whose directions are exchanged."""
    own = place.packet
    turned = [
        {**each, "q_dir": 1 - each["q_dir"]}
        if each["nid_packet"] == own["nid_packet"] and each.get("q_dir") in (0, 1)
        else each
        for each in place.packets
    ]
    directions = [each["q_dir"] for each in turned if each["nid_packet"] == own["nid_packet"] and "q_dir" in each]
    return turned if {0, 1} <= set(directions) else None


MISTAKE = mistake_of(
    __name__, __doc__, "has the direction of the packet for the other direction, and the reverse", altered
)

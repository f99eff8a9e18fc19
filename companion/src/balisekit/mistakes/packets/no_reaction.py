"""A missed group has no consequence.

In real life. The reaction was set to "none" for a test, and stayed.

Here. Each Q_LINKREACTION of a packet 5 is 2, no reaction.

For a train. It drives on if it misses a group that it needs.
"""
from __future__ import annotations

from typing import Any, Optional, Sequence

from balisekit.mistakes.of_packets import Place, mistake_of


def altered(place: Place) -> Optional[Sequence[Any]]:
    """The packets with links without a reaction."""
    packet = place.packet
    return place.replaced_by({**packet, "links": [{**link, "q_linkreaction": 2} for link in packet["links"]]})


MISTAKE = mistake_of(__name__, __doc__, "has no reaction for any group", altered, (5,))

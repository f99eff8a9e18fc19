"""The end section has the length of the overlap added.

In real life. The design gives the length up to the end of the overlap, and D_OL was filled in beside it.

Here. L_ENDSECTION of packet 12 is longer by D_OL.

For a train. Its authority ends after the signal, and the overlap after that: it may pass the signal at danger.
"""
from __future__ import annotations

from typing import Any, Optional, Sequence

from balisekit.mistakes.of_packets import Place, mistake_of


def altered(place: Place) -> Optional[Sequence[Any]]:
    """The packets with an authority that is longer by its overlap."""
    packet = place.packet
    more = packet["overlap"]["d_ol"] if "overlap" in packet else 0
    return place.replaced_by({**packet, "l_endsection": packet["l_endsection"] + more}) if more else None


MISTAKE = mistake_of(__name__, __doc__, "has the overlap added to its end section", altered, (12, 15))

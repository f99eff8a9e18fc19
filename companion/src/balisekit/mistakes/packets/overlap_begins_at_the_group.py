"""The timer of the overlap begins at the wrong place.

In real life. D_STARTOL was given from the start of the end section, although it counts back from the end.

Here. D_STARTOL of packet 12 or 15 is the length of the end section less the number that it had.

For a train. The overlap ends earlier or later than the interlocking releases it.
"""
from __future__ import annotations

from typing import Any, Optional, Sequence

from balisekit.mistakes.of_packets import Place, mistake_of


def altered(place: Place) -> Optional[Sequence[Any]]:
    """The packets with an authority whose timer starts at the wrong place."""
    packet = place.packet
    if "overlap" not in packet:
        return None
    other = max(packet["l_endsection"] - packet["overlap"]["d_startol"], 0)
    return place.replaced_by({**packet, "overlap": {**packet["overlap"], "d_startol": other}})


MISTAKE = mistake_of(__name__, __doc__, "has D_STARTOL counted from the other end", altered, (12, 15))

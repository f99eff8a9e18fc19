"""The overlap never ends by time.

In real life. The time after which a route releases its overlap was not filled in.

Here. T_OL of packet 12 or 15 is 1023, which means "without end".

For a train. It relies on an overlap that another train may already use.
"""
from __future__ import annotations

from typing import Any, Optional, Sequence

from balisekit.mistakes.of_packets import Place, mistake_of


def altered(place: Place) -> Optional[Sequence[Any]]:
    """The packets with an authority whose overlap has no timer."""
    packet = place.packet
    if "overlap" not in packet:
        return None
    return place.replaced_by({**packet, "overlap": {**packet["overlap"], "t_ol": 1023}})


MISTAKE = mistake_of(__name__, __doc__, "has T_OL 1023", altered, (12, 15))

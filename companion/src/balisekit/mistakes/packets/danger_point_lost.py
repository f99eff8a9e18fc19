"""A movement authority lacks its danger point.

In real life. The danger point of the route was not filled in.

Here. The danger point is taken out of packet 12 or 15.

For a train. It has to brake earlier than the design wants, and has no release speed for the danger point.
"""
from __future__ import annotations

from typing import Any, Optional, Sequence

from balisekit.mistakes.of_packets import Place, mistake_of


def altered(place: Place) -> Optional[Sequence[Any]]:
    """The packets with an authority without its danger point."""
    made = {key: value for key, value in place.packet.items() if key != "danger_point"}
    return place.replaced_by(made) if "danger_point" in place.packet else None


MISTAKE = mistake_of(__name__, __doc__, "lacks its danger point", altered, (12, 15))

"""A movement authority lacks its overlap.

In real life. The overlap of the route was not filled in, or the tool has it under another heading.

Here. The overlap is taken out of packet 12.

For a train. It has to brake more and earlier than the design wants, since there is no room after the end of
authority.
"""
from __future__ import annotations

from typing import Any, Optional, Sequence

from balisekit.mistakes.of_packets import Place, mistake_of


def altered(place: Place) -> Optional[Sequence[Any]]:
    """The packets with an authority without its overlap."""
    made = {key: value for key, value in place.packet.items() if key != "overlap"}
    return place.replaced_by(made) if "overlap" in place.packet else None


MISTAKE = mistake_of(__name__, __doc__, "lacks its overlap", altered, (12, 15))

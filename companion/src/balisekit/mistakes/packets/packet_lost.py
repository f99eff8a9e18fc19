"""A telegram lacks one of its packets.

In real life. A packet was deleted with another one, or a tool wrote only the packets that it knows.

Here. One packet is taken out of one telegram.

For a train. What the packet says is unknown to it: it keeps what earlier groups said, or brakes.
"""
from __future__ import annotations

from typing import Any, Sequence

from balisekit.mistakes.of_packets import Place, mistake_of


def altered(place: Place) -> Sequence[Any]:
    """The packets without one."""
    return place.replaced_by()


MISTAKE = mistake_of(__name__, __doc__, "is missing", altered)

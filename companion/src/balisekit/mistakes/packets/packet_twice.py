"""A telegram has one of its packets twice.

In real life. A packet was pasted again, or two tools wrote it.

Here. One packet follows itself.

For a train. The second packet replaces the first one or adds to it. If one of them is corrected later, they
contradict.
"""
from __future__ import annotations

from typing import Any, Sequence

from balisekit.mistakes.of_packets import Place, mistake_of


def altered(place: Place) -> Sequence[Any]:
    """The packets with one of them twice."""
    return place.replaced_by(place.packet, place.packet)


MISTAKE = mistake_of(__name__, __doc__, "is there twice", altered)

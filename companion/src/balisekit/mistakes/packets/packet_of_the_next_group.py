"""A packet is that of the next group.

In real life. The packets of a signal were copied from its neighbour as a beginning, and one of them was not replaced.

Here. A packet is replaced by the one with its number and direction in the same aspect of the next group.

For a train. It gets profiles, links or conditions that begin at another signal.
"""
from __future__ import annotations

from typing import Any, Optional, Sequence

from balisekit.mistakes.of_packets import Place, mistake_of


def altered(place: Place) -> Optional[Sequence[Any]]:
    """The packets with one that the next group has differently."""
    row = place.original.of_next_group(place.row)
    other = None if row is None else place.same_in(row)
    return None if other is None else place.replaced_by(other)


MISTAKE = mistake_of(__name__, __doc__, "is that of the next group", altered)

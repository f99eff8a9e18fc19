"""A packet is that of another aspect of the signal.

In real life. The telegram of an aspect was copied from another one, and one packet was not replaced.

Here. A packet is replaced by the one with its number and direction in another aspect of the same balise.

For a train. At a restrictive aspect it gets the length or the speed of a less restrictive one, or the reverse.
"""
from __future__ import annotations

from typing import Any, Optional, Sequence

from balisekit.mistakes.of_packets import Place, mistake_of


def altered(place: Place) -> Optional[Sequence[Any]]:
    """The packets with one that another aspect has differently."""
    others = map(place.same_in, place.original.of_other_aspects(place.row))
    other = next((each for each in others if each is not None and each != place.packet), None)
    return None if other is None else place.replaced_by(other)


MISTAKE = mistake_of(__name__, __doc__, "is that of another aspect", altered)

"""A group is not announced, and the next one is at the right place.

In real life. A group was added to the line, and the groups in rear of it were not changed.

Here. The first link of a packet 5 is gone, and its distance is added to that of the second one.

For a train. It does not use the group that is not announced, and does not notice if it is missing.
"""
from __future__ import annotations

from typing import Any, Optional, Sequence

from balisekit.mistakes.of_packets import Place, mistake_of


def altered(place: Place) -> Optional[Sequence[Any]]:
    """The packets with links of which the first one is gone."""
    packet = place.packet
    if len(packet["links"]) < 2:
        return None
    first, second, *others = packet["links"]
    joined = {**second, "d_link": first["d_link"] + second["d_link"]}
    return place.replaced_by({**packet, "links": [joined, *others]})


MISTAKE = mistake_of(__name__, __doc__, "does not announce the first group", altered, (5,))

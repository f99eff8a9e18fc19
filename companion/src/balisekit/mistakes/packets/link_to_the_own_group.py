"""A packet 5 announces its own group.

In real life. The list of linked groups began with the group itself.

Here. The first link of packet 5 has NID_BG of the group that sends it.

For a train. It waits for a group that it has just passed.
"""
from __future__ import annotations

from typing import Any, Optional, Sequence

from balisekit.mistakes.of_packets import Place, mistake_of


def altered(place: Place) -> Optional[Sequence[Any]]:
    """The packets with a link to the group itself."""
    packet = place.packet
    first = {**packet["links"][0], "nid_bg": place.original.forms[place.row]["nid_bg"]}
    return place.replaced_by({**packet, "links": [first, *packet["links"][1:]]})


MISTAKE = mistake_of(__name__, __doc__, "announces its own group", altered, (5,))

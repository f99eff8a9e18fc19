"""A link names a group of another country.

In real life. At a border Q_NEWCOUNTRY was forgotten, or a link was copied with the country of the neighbour.

Here. The last link of packet 5 that has NID_C lacks it. If none has NID_C, the first link gets that of its group
increased by one.

For a train. It never finds the linked group, and reacts as if it were missing.
"""
from __future__ import annotations

from typing import Any, List, Optional, Sequence

from balisekit.mistakes.of_packets import Place, mistake_of


def altered(place: Place) -> Optional[Sequence[Any]]:
    """The packets with a link whose country is wrong."""
    links: List[Any] = list(place.packet["links"])
    named = [index for index, link in enumerate(links) if "nid_c" in link]
    if named:
        links[named[-1]] = {key: value for key, value in links[named[-1]].items() if key != "nid_c"}
    else:
        links[0] = {**links[0], "nid_c": (place.original.forms[place.row]["nid_c"] + 1) % 1024}
    return place.replaced_by({**place.packet, "links": links})


MISTAKE = mistake_of(__name__, __doc__, "names a group of another country", altered, (5,))

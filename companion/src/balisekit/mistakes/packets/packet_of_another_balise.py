"""A packet is that of another balise of the group.

In real life. Both balises were filled from one list, and a packet of one of them went to the other one too.

Here. A packet of another balise of the same aspect is added to the telegram.

For a train. It gets the packet twice. If one of them is corrected later, they contradict each other.
"""
from __future__ import annotations

from typing import Any, Optional, Sequence

from balisekit.mistakes.of_packets import Place, mistake_of


def altered(place: Place) -> Optional[Sequence[Any]]:
    """The packets with one of another balise after them."""
    group = place.original.group_of.get(place.row)
    rows = [each.rows for each in group.aspects if any(row.number == place.row for row in each.rows)] if group else []
    others = [row.number for row in rows[0] if row.number != place.row] if rows else []
    packets = [each for other in others for each in place.original.forms[other]["packets"]]
    return [*place.packets, packets[0]] if packets and place.at == 0 else None


MISTAKE = mistake_of(__name__, __doc__, "is followed by a packet of another balise", altered)

"""A list in a packet lacks its last item.

In real life. A tool dropped the last line of a list, or N_ITER was counted without it.

Here. The last link, section, gradient, speed or level of a packet is taken out.

For a train. A profile ends too early or without its end mark, or a group or a level is not announced.
"""
from __future__ import annotations

from typing import Any, Optional, Sequence

from balisekit.mistakes.of_packets import Place, lists_of, mistake_of


def altered(place: Place) -> Optional[Sequence[Any]]:
    """The packets with a list that is one item shorter."""
    key = next(iter(lists_of(place.packet, 2)), "")
    items = list(place.packet.get(key, ()))
    return place.replaced_by({**place.packet, key: items[:-1]}) if key else None


MISTAKE = mistake_of(__name__, __doc__, "lacks the last item of its list", altered)

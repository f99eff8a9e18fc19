"""A number is that of the packet for the other direction.

In real life. Both directions of a balise were filled in from one form, and one value was copied to the wrong side.

Here. The variable gets the number that it has in the packet of the same kind for the other running direction.

For a train. It gets the profile or the distance that trains in the opposite direction need.
"""
from __future__ import annotations

from typing import Iterator, Optional

from balisekit.mistakes.of_fields import mistake_of
from balisekit.mistakes.original import Original, Path, Value


def opposite(original: Original, value: Value) -> Iterator[Optional[int]]:
    """The numbers of the same variable in packets of the telegram with the same number and another Q_DIR."""
    packets = original.forms[value.row]["packets"]
    own = packets[value.packet] if value.packet is not None else None
    for place, packet in enumerate(packets if own else ()):
        if own and packet["nid_packet"] == own["nid_packet"] and packet.get("q_dir") != own.get("q_dir"):
            path: Path = ("packets", place)
            yield original.numbers.get((value.row, value.label, path + value.path[2:]))


MISTAKE = mistake_of(__name__, __doc__, opposite)

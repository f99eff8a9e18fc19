"""A number is that of the next item of its list.

In real life. One column of a list slipped by a row.

Here. The variable gets the number that it has in the item that follows in the list of its packet.

For a train. A gradient, a speed or a distance holds at the wrong place.
"""
from __future__ import annotations

from typing import Iterator, Optional

from balisekit.mistakes.of_fields import mistake_of
from balisekit.mistakes.original import Original, Value


def following(original: Original, value: Value) -> Iterator[Optional[int]]:
    """The number of the next item."""
    place = next((place for place, part in enumerate(value.path) if place > 1 and isinstance(part, int)), None)
    if place is not None:
        path = (*value.path[:place], int(value.path[place]) + 1, *value.path[place + 1 :])
        yield original.numbers.get((value.row, value.label, path))


MISTAKE = mistake_of(__name__, __doc__, following)

"""A number is that of the next group.

In real life. A list of values slipped by one row while it was copied.

Here. The variable gets the number that it has at the same place in the group that follows in the table.

For a train. It gets a distance, a speed or a name that is right at the next signal.
"""
from __future__ import annotations

from typing import Iterator, Optional

from balisekit.mistakes.of_fields import mistake_of
from balisekit.mistakes.original import Original, Value


def following(original: Original, value: Value) -> Iterator[Optional[int]]:
    """The number in the next group."""
    row = original.of_next_group(value.row)
    yield None if row is None else original.elsewhere(value, row)


MISTAKE = mistake_of(__name__, __doc__, following)

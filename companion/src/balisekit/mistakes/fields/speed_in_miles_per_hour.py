"""A speed is in miles per hour.

In real life. The speed of the design was given in miles per hour, and nobody converted it.

Here. A variable that is a speed (V) gets the number for 0.62 of its speed.

For a train. It drives more slowly than it should; if the mistake is made the other way round, much faster.
"""
from __future__ import annotations

from typing import Iterator

from balisekit.mistakes.of_fields import mistake_of
from balisekit.mistakes.original import Original, Value


def in_miles(original: Original, value: Value) -> Iterator[int]:
    """The number of a speed that was not converted."""
    if value.variable.startswith("V_"):
        yield round(value.number / 1.609344)


MISTAKE = mistake_of(__name__, __doc__, in_miles)

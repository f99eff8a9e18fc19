"""A speed is in kilometres per hour.

In real life. 80 km/h was typed as 80, although V_STATIC counts in steps of 5 km/h and has to be 16.

Here. A variable that is a speed (V) gets five times its number, if that fits its bits and is not spare.

For a train. It may drive five times as fast as the design allows.
"""
from __future__ import annotations

from typing import Iterator

from balisekit.mistakes.of_fields import mistake_of
from balisekit.mistakes.original import Original, Value

STEP_KM_H = 5


def in_kilometres(original: Original, value: Value) -> Iterator[int]:
    """The number of km/h instead of the number of steps."""
    if value.variable.startswith("V_"):
        yield STEP_KM_H * value.number


MISTAKE = mistake_of(__name__, __doc__, in_kilometres)

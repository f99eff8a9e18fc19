"""A bit of a number is wrong.

In real life. A telegram was edited by hand in a program for bits.

Here. The greatest bit of the number that can be changed is the other one.

For a train. The distance, the speed or the name is another one, often by a power of two.
"""
from __future__ import annotations

from balisekit.mistakes.of_fields import mistake_of

WIDTH = 16
"""More bits than any variable has whose numbers are not spare in between."""

MISTAKE = mistake_of(
    __name__, __doc__, lambda original, value: [value.number ^ 1 << bit for bit in range(WIDTH, -1, -1)]
)

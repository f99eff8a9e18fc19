"""A digit of a number is there twice.

In real life. A key was pressed too long.

Here. One digit of the number is repeated, the last possible one.

For a train. The distance, the speed or the name is a much larger one.
"""
from __future__ import annotations

from typing import Iterator

from balisekit.mistakes.of_fields import mistake_of


def doubled(number: int) -> Iterator[int]:
    """The numbers with one digit twice."""
    text = str(number)
    return (int(f"{text[:place]}{text[place - 1 :]}") for place in range(len(text), 0, -1))


MISTAKE = mistake_of(__name__, __doc__, lambda original, value: doubled(value.number))

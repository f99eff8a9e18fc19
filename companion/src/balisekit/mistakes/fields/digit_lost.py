"""A digit of a number is missing.

In real life. A key was not pressed hard enough, or a digit was deleted while a cell was edited.

Here. One digit of the number is left out, the first possible one.

For a train. The distance, the speed or the name is a much smaller one.
"""
from __future__ import annotations

from typing import Iterator

from balisekit.mistakes.of_fields import mistake_of


def without_one(number: int) -> Iterator[int]:
    """The numbers with one digit less."""
    text = str(number)
    return (int(f"{text[:place]}{text[place + 1 :]}") for place in range(len(text)) if len(text) > 1)


MISTAKE = mistake_of(__name__, __doc__, lambda original, value: without_one(value.number))

"""A digit of a number is wrong.

In real life. The key beside the right one was pressed.

Here. One digit of the number is greater or smaller by one, the first possible one.

For a train. The distance, the speed or the name is another one, and looks as plausible as the right one.
"""
from __future__ import annotations

from typing import Iterator

from balisekit.mistakes.of_fields import mistake_of


def with_one_wrong(number: int) -> Iterator[int]:
    """The numbers with one digit greater or smaller by one."""
    text = str(number)
    for place, digit in enumerate(text):
        for other in (int(digit) + 1, int(digit) - 1):
            if 0 <= other <= 9:
                yield int(f"{text[:place]}{other}{text[place + 1 :]}")


MISTAKE = mistake_of(__name__, __doc__, lambda original, value: with_one_wrong(value.number))

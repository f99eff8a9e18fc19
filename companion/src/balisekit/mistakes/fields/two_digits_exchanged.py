"""Two digits of a number are exchanged.

In real life. 1350 was typed as 1530.

Here. Two neighbouring digits of the number change places, the last possible ones first.

For a train. The distance, the speed or the name is another one, and looks as plausible as the right one.
"""
from __future__ import annotations

from typing import Iterator

from balisekit.mistakes.of_fields import mistake_of


def exchanged(number: int) -> Iterator[int]:
    """The numbers with two neighbouring digits exchanged."""
    text = str(number)
    for place in reversed(range(len(text) - 1)):
        other = f"{text[:place]}{text[place + 1]}{text[place]}{text[place + 2 :]}"
        if not other.startswith("0"):
            yield int(other)


MISTAKE = mistake_of(__name__, __doc__, lambda original, value: exchanged(value.number))

"""A number with a name means another thing.

In real life. The wrong line of a list was chosen: "reverse" for "nominal", "level 1" for "level 2", "permitted" for
"not permitted".

Here. A variable whose numbers are names (Q, M) gets another of its names.

For a train. A packet is for the other direction, a level or a mode is another one, or a reaction is.
"""
from __future__ import annotations

from typing import Iterator

from balisekit.mistakes.of_fields import mistake_of
from balisekit.mistakes.original import Original, Value


def names(original: Original, value: Value) -> Iterator[int]:
    """The other numbers of a variable with names."""
    if value.variable.startswith(("Q_", "M_")) and value.variable != "M_MCOUNT":
        yield from sorted(number for first, last in value.spans for number in range(first, min(last, first + 15) + 1))


MISTAKE = mistake_of(__name__, __doc__, names)

"""A number is that of another aspect of the signal.

In real life. The telegram of an aspect was copied from another one, and one value was not adapted.

Here. The variable gets the number that it has at the same place in another aspect of the same balise.

For a train. It gets the speed, the length or the timer of another aspect.
"""
from __future__ import annotations

from typing import Iterator, Optional

from balisekit.mistakes.of_fields import mistake_of
from balisekit.mistakes.original import Original, Value


def others(original: Original, value: Value) -> Iterator[Optional[int]]:
    """The numbers of the other aspects."""
    return (original.elsewhere(value, row) for row in original.of_other_aspects(value.row))


MISTAKE = mistake_of(__name__, __doc__, others)

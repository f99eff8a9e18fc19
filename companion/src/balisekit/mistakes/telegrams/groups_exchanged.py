"""Two groups have each other's telegrams.

In real life. The balises of two groups were mounted at each other's places, or two blocks of the table were
exchanged.

Here. A group has the telegrams of the next group, and the reverse, if both have as many.

For a train. It gets the messages of both in the wrong order, each at the place of the other.
"""
from __future__ import annotations

from typing import Optional

from balisekit.mistakes.mistake import Change
from balisekit.mistakes.of_rows import mistake_of, named, Neighbours, neighbours_of, of_forms
from balisekit.mistakes.original import Original


def altered(original: Original, groups: Neighbours) -> Optional[Change]:
    """The telegrams of two groups exchanged."""
    one, two = (group.each_row for group in groups)
    if len(one) != len(two):
        return None
    pairs = [(first.number, second.number) for first, second in zip(one, two)]
    forms = {row: original.forms[other] for pair in pairs for row, other in (pair, pair[::-1])}
    return of_forms(f"{named(groups[0])} and {named(groups[1])} have each other's telegrams", forms)


MISTAKE = mistake_of(__name__, __doc__, neighbours_of, altered)

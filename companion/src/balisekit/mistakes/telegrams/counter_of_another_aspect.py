"""An aspect has the counter of another one.

In real life. The counter was not raised when an aspect was copied.

Here. M_MCOUNT of all telegrams of an aspect is that of another aspect of the group.

For a train. While the signal changes it may take telegrams of two aspects for one message.
"""
from __future__ import annotations

from typing import Optional, Tuple

from balisekit.mistakes.mistake import Change
from balisekit.mistakes.of_rows import mistake_of, named_aspect, of_headers, own_rows, pairs_of_aspects
from balisekit.mistakes.original import Original
from balisekit.tables.model import Aspect, Group


def altered(original: Original, thing: Tuple[Group, Aspect, Aspect]) -> Optional[Change]:
    """An aspect with the counter of another one."""
    group, aspect, other = thing
    counter = original.forms[other.rows[-1].number]["m_mcount"]
    return of_headers(
        original, f"{named_aspect(group, aspect)} has M_MCOUNT {counter}", own_rows(aspect), m_mcount=counter
    )


MISTAKE = mistake_of(__name__, __doc__, pairs_of_aspects, altered)

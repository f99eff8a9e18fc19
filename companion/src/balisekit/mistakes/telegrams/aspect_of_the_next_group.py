"""An aspect has the packets of the next signal.

In real life. The telegrams of one aspect were copied from the neighbouring signal, and only the headers were adapted.

Here. All balises of one aspect keep their headers and get the packets of the next group in the same aspect.

For a train. In one aspect only, it gets an authority that begins at another place.
"""
from __future__ import annotations

from typing import Dict, Optional, Tuple

from balisekit.engine.records import Form

from balisekit.mistakes.mistake import Change
from balisekit.mistakes.of_rows import aspects_of, mistake_of, named_aspect, of_forms, own_rows
from balisekit.mistakes.original import Original, with_packets
from balisekit.tables.model import Aspect, Group


def altered(original: Original, thing: Tuple[Group, Aspect]) -> Optional[Change]:
    """An aspect with the packets of the next group."""
    forms: Dict[int, Form] = {}
    for row in own_rows(thing[1]):
        other = original.of_next_group(row.number)
        if other is not None:
            forms[row.number] = with_packets(original.forms[row.number], original.forms[other]["packets"])
    return of_forms(f"{named_aspect(*thing)} has the packets of the next group", forms)


MISTAKE = mistake_of(__name__, __doc__, aspects_of, altered)

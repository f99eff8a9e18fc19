"""An aspect has no packets.

In real life. An aspect was created in the tool, and was never filled.

Here. All telegrams of an aspect keep their headers and lose their packets.

For a train. At this aspect it gets no authority, or keeps one that is no longer right.
"""
from __future__ import annotations

from typing import Dict, Optional, Tuple

from balisekit.engine.records import Form
from balisekit.mistakes.mistake import Change
from balisekit.mistakes.of_rows import aspects_of, mistake_of, named_aspect, of_forms, own_rows
from balisekit.mistakes.original import Original, with_packets
from balisekit.tables.model import Aspect, Group


def altered(original: Original, thing: Tuple[Group, Aspect]) -> Optional[Change]:
    """An aspect without packets."""
    forms: Dict[int, Form] = {row.number: with_packets(original.forms[row.number], []) for row in own_rows(thing[1])}
    return of_forms(f"{named_aspect(*thing)} has no packets", forms)


MISTAKE = mistake_of(__name__, __doc__, aspects_of, altered)

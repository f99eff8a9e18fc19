"""An aspect has the packets of another one.

In real life. All packets were copied from the aspect above, and only the counter was adapted.

Here. Each balise of an aspect keeps its header and gets the packets of another aspect.

For a train. It gets the authority of another aspect, and nothing contradicts it.
"""
from __future__ import annotations

from typing import Dict, Optional, Tuple

from balisekit.engine.records import Form
from balisekit.mistakes.mistake import Change
from balisekit.mistakes.of_rows import mistake_of, named_aspect, of_forms, pairs_of_aspects
from balisekit.mistakes.original import Original, with_packets
from balisekit.tables.model import Aspect, Group


def altered(original: Original, thing: Tuple[Group, Aspect, Aspect]) -> Optional[Change]:
    """The packets of all balises of an aspect as in another one."""
    group, aspect, other = thing
    forms: Dict[int, Form] = {}
    for own, row in zip(aspect.rows, other.rows):
        if own.number != row.number:
            forms[own.number] = with_packets(original.forms[own.number], original.forms[row.number]["packets"])
    return of_forms(f'{named_aspect(group, aspect)} has the packets of "{other.name}"', forms)


MISTAKE = mistake_of(__name__, __doc__, pairs_of_aspects, altered)

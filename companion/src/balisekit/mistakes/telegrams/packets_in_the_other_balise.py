"""The packets of two balises are exchanged.

In real life. The packets were assigned to the balises in the wrong order.

Here. The first two balises of each aspect of a group keep their headers and exchange their packets.

For a train. The message of the group is the same, unless the balises are duplicates or one of them is missed. If only
one of them is controlled, it gets the authority of one aspect in all of them.
"""
from __future__ import annotations

from typing import Dict, Optional, Tuple

from balisekit.engine.records import Form
from balisekit.mistakes.mistake import Change
from balisekit.mistakes.of_rows import groups_of, mistake_of, named, of_forms
from balisekit.mistakes.original import Original, with_packets
from balisekit.tables.model import Aspect, Group

SAME = "a train that reads the whole group gets the same message"


def altered(original: Original, group: Group) -> Optional[Change]:
    """A group whose first two balises have each other's packets."""
    if len(group.aspects[0].rows) < 2:
        return None
    pairs = [pair for one, two in map(_first_two, group.aspects) for pair in ((one, two), (two, one))]
    forms: Dict[int, Form] = {
        row: with_packets(original.forms[row], original.forms[other]["packets"]) for row, other in pairs
    }
    duplicates = any(form["m_dup"] for form in forms.values())
    same = not duplicates and all(forms[row]["packets"] == original.forms[other]["packets"] for row, other in pairs)
    return of_forms(f"{named(group)} has the packets of two balises exchanged", forms, SAME if same else "")


def _first_two(aspect: Aspect) -> Tuple[int, int]:
    """The rows of the first two balises of an aspect. One that is not controlled has the same row in all aspects."""
    return aspect.rows[0].number, aspect.rows[1].number


MISTAKE = mistake_of(__name__, __doc__, groups_of, altered)

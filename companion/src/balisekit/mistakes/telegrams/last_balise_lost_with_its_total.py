"""A group lacks its last balise, and its total fits.

In real life. A group of three balises was reduced to two, and the packets of the third one were forgotten.

Here. The last balise of a group is gone in all aspects, and N_TOTAL of the others is less by one.

For a train. All that only this balise says is gone, and nothing is inconsistent.
"""
from __future__ import annotations

from typing import Optional

from balisekit.mistakes.mistake import Change
from balisekit.mistakes.of_rows import groups_of, mistake_of, named, with_header
from balisekit.mistakes.original import Original
from balisekit.tables.model import Group


def altered(original: Original, group: Group) -> Optional[Change]:
    """A group without its last balise."""
    if len(group.aspects[0].rows) < 2:
        return None
    lost = frozenset(aspect.rows[-1].number for aspect in group.aspects)
    kept = [row for row in group.each_row if row.number not in lost]
    forms = {
        row.number: with_header(original.forms[row.number], n_total=len(group.aspects[0].rows) - 2) for row in kept
    }
    rows = frozenset(row.number for row in kept)
    return Change(f"{named(group)} lacks its last balise", rows, forms=forms, lost=lost) if kept else None


MISTAKE = mistake_of(__name__, __doc__, groups_of, altered)

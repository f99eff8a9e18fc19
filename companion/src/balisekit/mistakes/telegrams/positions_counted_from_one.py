"""The balises of a group are counted from 1.

In real life. N_PIG was filled in from a list that begins with balise 1.

Here. N_PIG of all telegrams of a group is greater by one.

For a train. It looks for a first balise that is not there.
"""
from __future__ import annotations

from typing import Optional

from balisekit.mistakes.mistake import Change
from balisekit.mistakes.of_rows import groups_of, mistake_of, named, of_forms, with_header
from balisekit.mistakes.original import Original
from balisekit.tables.model import Group


def altered(original: Original, group: Group) -> Optional[Change]:
    """A group whose positions begin with 1."""
    forms = {row.number: original.forms[row.number] for row in group.each_row}
    made = {row: with_header(form, n_pig=form["n_pig"] + 1) for row, form in forms.items()}
    return of_forms(f"{named(group)} has N_PIG counted from 1", made)


MISTAKE = mistake_of(__name__, __doc__, groups_of, altered)

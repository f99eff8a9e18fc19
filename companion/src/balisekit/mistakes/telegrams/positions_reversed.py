"""The balises of a group are counted from the wrong end.

In real life. The nominal direction of the group was taken the wrong way round.

Here. N_PIG of the telegrams of a group is counted from its last balise on.

For a train. It takes itself to be running in the other direction, and uses the packets of that direction.
"""
from __future__ import annotations

from typing import Optional

from balisekit.mistakes.mistake import Change
from balisekit.mistakes.of_rows import groups_of, mistake_of, named, of_forms, with_header
from balisekit.mistakes.original import Original
from balisekit.tables.model import Group


def altered(original: Original, group: Group) -> Optional[Change]:
    """A group whose positions are reversed."""
    last = len(group.aspects[0].rows) - 1
    forms = {row.number: original.forms[row.number] for row in group.each_row}
    made = {row: with_header(form, n_pig=max(last - form["n_pig"], 0)) for row, form in forms.items()}
    return of_forms(f"{named(group)} has N_PIG in the reverse order", made)


MISTAKE = mistake_of(__name__, __doc__, groups_of, altered)

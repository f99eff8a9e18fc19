"""N_TOTAL is the number of balises.

In real life. The number was filled in, although N_TOTAL is that number less one.

Here. N_TOTAL of all telegrams of a group is greater by one.

For a train. It waits for a balise that is not there, and takes the group as incomplete.
"""
from __future__ import annotations

from typing import Optional

from balisekit.mistakes.mistake import Change
from balisekit.mistakes.of_rows import groups_of, mistake_of, named, of_headers
from balisekit.mistakes.original import Original
from balisekit.tables.model import Group


def altered(original: Original, group: Group) -> Optional[Change]:
    """A group with a total that is one too large."""
    total = len(group.aspects[0].rows)
    return of_headers(original, f"{named(group)} has N_TOTAL {total}", group.each_row, n_total=total)


MISTAKE = mistake_of(__name__, __doc__, groups_of, altered)

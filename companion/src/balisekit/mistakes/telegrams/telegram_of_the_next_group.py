"""A telegram is that of the next group.

In real life. A balise was programmed with the file of its neighbour, or a column of telegrams slipped by one group.

Here. A balise gets the telegram that the same balise of the next group has, header and all.

For a train. It believes itself to be at the next group, or refuses the group as inconsistent.
"""
from __future__ import annotations

from typing import Optional

from balisekit.mistakes.mistake import Change
from balisekit.mistakes.of_rows import mistake_of, of_forms, rows_of
from balisekit.mistakes.original import Original
from balisekit.tables.model import Row


def altered(original: Original, row: Row) -> Optional[Change]:
    """The telegram of the next group."""
    other = original.of_next_group(row.number)
    if other is None:
        return None
    return of_forms(f"row {row.number} has the telegram of row {other}", {row.number: original.forms[other]})


MISTAKE = mistake_of(__name__, __doc__, rows_of, altered)

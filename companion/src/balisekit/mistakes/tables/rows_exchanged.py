"""Two telegrams are in each other's rows.

In real life. One column was sorted and the others were not, or two cells were exchanged while the table was edited.

Here. The telegrams of a row and of the row below it change places.

For a train. Two balises are programmed with each other's telegrams.
"""
from __future__ import annotations

from typing import Optional

from balisekit.mistakes.mistake import Change
from balisekit.mistakes.of_rows import mistake_of, of_forms, rows_of
from balisekit.mistakes.original import Original
from balisekit.tables.model import Row


def altered(original: Original, row: Row) -> Optional[Change]:
    """The telegrams of a row and the next one exchanged."""
    below = row.number + 1
    if below not in original.rows:
        return None
    forms = {row.number: original.forms[below], below: original.forms[row.number]}
    return of_forms(f"rows {row.number} and {below} have each other's telegrams", forms)


MISTAKE = mistake_of(__name__, __doc__, rows_of, altered)

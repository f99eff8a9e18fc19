"""A telegram is that of the row above.

In real life. A cell was filled by dragging, or the same file was chosen twice.

Here. A row has the telegram of the row above it.

For a train. One telegram is programmed into two balises, or into two aspects.
"""
from __future__ import annotations

from typing import Optional

from balisekit.mistakes.mistake import Change
from balisekit.mistakes.of_rows import mistake_of, of_forms, rows_of
from balisekit.mistakes.original import Original
from balisekit.tables.model import Row


def altered(original: Original, row: Row) -> Optional[Change]:
    """The telegram of the row above."""
    above = row.number - 1
    if above not in original.rows:
        return None
    return of_forms(f"row {row.number} has the telegram of row {above}", {row.number: original.forms[above]})


MISTAKE = mistake_of(__name__, __doc__, rows_of, altered)

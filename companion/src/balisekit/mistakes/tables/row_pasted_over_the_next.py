"""A row is there twice, and the next one is missing.

In real life. A whole row was copied, and pasted over the row below it.

Here. All cells of a row are those of the row above it, the telegram too.

For a train. A balise or an aspect is not checked, and may be programmed from an older release.
"""
from __future__ import annotations

from typing import Optional

from balisekit.mistakes.mistake import Change
from balisekit.mistakes.of_rows import mistake_of, rows_of
from balisekit.mistakes.original import Original
from balisekit.tables.model import Row

CELLS = ("group", "name", "km", "track", "nominal", "aspect", "balise")


def altered(original: Original, row: Row) -> Optional[Change]:
    """The row as the one above it. An engineer would have to correct this row, and nobody sees what it was."""
    above = original.rows.get(row.number - 1)
    if above is None:
        return None
    words = f"row {row.number} is a copy of row {above.number}"
    cells = {row.number: {name: getattr(above, name) for name in CELLS}}
    return Change(words, frozenset({row.number}), texts={row.number: above.telegram}, cells=cells)


MISTAKE = mistake_of(__name__, __doc__, rows_of, altered)

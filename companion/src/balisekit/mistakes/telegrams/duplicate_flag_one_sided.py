"""Only one of two balises declares a duplicate.

In real life. One of the two telegrams was made from an older file.

Here. M_DUP of one telegram of a pair of duplicates is 0.

For a train. Whether it may miss a balise depends on which of the two it misses.
"""
from __future__ import annotations

from typing import Optional

from balisekit.mistakes.mistake import Change
from balisekit.mistakes.of_rows import mistake_of, of_headers, rows_of
from balisekit.mistakes.original import Original
from balisekit.tables.model import Row


def altered(original: Original, row: Row) -> Optional[Change]:
    """A telegram that no longer declares its duplicate."""
    return of_headers(original, f"row {row.number} has M_DUP 0", [row], m_dup=0)


MISTAKE = mistake_of(__name__, __doc__, rows_of, altered)

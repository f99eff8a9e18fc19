"""A telegram lacks its last digits.

In real life. A column was too narrow for an export of fixed width, or a copy was cut.

Here. The last two digits of a telegram are missing.

For a train. The telegram cannot be programmed.
"""
from __future__ import annotations

from typing import Optional

from balisekit.mistakes.mistake import Change
from balisekit.mistakes.of_rows import mistake_of, rows_of
from balisekit.mistakes.original import Original
from balisekit.tables.model import Row


def altered(original: Original, row: Row) -> Optional[Change]:
    """A telegram that is too short."""
    words = f"row {row.number}: the last two digits are missing"
    return Change(words, frozenset({row.number}), texts={row.number: row.telegram[:-2]})


MISTAKE = mistake_of(__name__, __doc__, rows_of, altered)

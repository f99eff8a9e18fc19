"""A telegram has the counter 254.

In real life. The counter of the aspect was counted on past 253.

Here. M_MCOUNT of one telegram is 254, which fits no message.

For a train. It never accepts the group with this telegram.
"""
from __future__ import annotations

from typing import Optional

from balisekit.mistakes.mistake import Change
from balisekit.mistakes.of_rows import mistake_of, of_headers, rows_of
from balisekit.mistakes.original import Original
from balisekit.tables.model import Row


def altered(original: Original, row: Row) -> Optional[Change]:
    """A telegram with the counter 254."""
    return of_headers(original, f"row {row.number} has M_MCOUNT 254", [row], m_mcount=254)


MISTAKE = mistake_of(__name__, __doc__, rows_of, altered)

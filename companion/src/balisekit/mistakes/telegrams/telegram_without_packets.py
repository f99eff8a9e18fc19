"""A telegram has no packets.

In real life. A default telegram was left where the real one belongs.

Here. One telegram keeps its header and loses all its packets.

For a train. It reads a group that says nothing, and keeps what earlier groups said.
"""
from __future__ import annotations

from typing import Optional

from balisekit.mistakes.mistake import Change
from balisekit.mistakes.of_rows import mistake_of, of_forms, rows_of
from balisekit.mistakes.original import Original, with_packets
from balisekit.tables.model import Row


def altered(original: Original, row: Row) -> Optional[Change]:
    """A telegram without its packets."""
    return of_forms(f"row {row.number} has no packets", {row.number: with_packets(original.forms[row.number], [])})


MISTAKE = mistake_of(__name__, __doc__, rows_of, altered)

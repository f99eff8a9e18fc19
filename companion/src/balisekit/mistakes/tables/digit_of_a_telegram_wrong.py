"""A digit of a telegram is wrong.

In real life. A telegram was typed from paper, or a file was damaged.

Here. One hexadecimal digit of a telegram is another one.

For a train. Anything: a bit of any field is another one.
"""
from __future__ import annotations

from typing import Optional
from zlib import crc32

from balisekit.mistakes.mistake import Change
from balisekit.mistakes.of_rows import mistake_of, rows_of
from balisekit.mistakes.original import Original
from balisekit.tables.model import Row


def altered(original: Original, row: Row) -> Optional[Change]:
    """A telegram with one wrong digit, at a place that its text decides."""
    text = row.telegram
    place = crc32(text.encode()) % (len(text) - 2)
    wrong = f"{text[:place]}{int(text[place], 16) ^ 1:x}{text[place + 1 :]}"
    return Change(f"row {row.number}: digit {place + 1} is wrong", frozenset({row.number}), texts={row.number: wrong})


MISTAKE = mistake_of(__name__, __doc__, rows_of, altered)

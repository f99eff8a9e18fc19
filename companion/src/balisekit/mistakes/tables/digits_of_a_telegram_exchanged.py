"""Two digits of a telegram are exchanged.

In real life. A telegram was typed from paper.

Here. Two neighbouring hexadecimal digits of a telegram change places.

For a train. Anything: the bits of any field are other ones.
"""
from __future__ import annotations

from typing import Optional
from zlib import crc32

from balisekit.mistakes.mistake import Change
from balisekit.mistakes.of_rows import mistake_of, rows_of
from balisekit.mistakes.original import Original
from balisekit.tables.model import Row


def altered(original: Original, row: Row) -> Optional[Change]:
    """A telegram with two digits exchanged, from a place on that its text decides."""
    text = row.telegram
    first = crc32(text.encode()) % (len(text) - 2)
    place = next((each for each in range(first, len(text) - 3) if text[each] != text[each + 1]), None)
    if place is None:
        return None
    wrong = f"{text[:place]}{text[place + 1]}{text[place]}{text[place + 2 :]}"
    words = f"row {row.number}: digits {place + 1} and {place + 2} are exchanged"
    return Change(words, frozenset({row.number}), texts={row.number: wrong})


MISTAKE = mistake_of(__name__, __doc__, rows_of, altered)

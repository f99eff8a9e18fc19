"""Telegrams of standard input, one a line, which are read as they come."""
from __future__ import annotations

import codecs
import io
import sys
from typing import Iterator, List, Tuple, cast

from balisekit.errors import TableError
from balisekit.io.inputs import claimed
from balisekit.tables.cells import digits

CHUNK = 1 << 20
GREATEST_LINE = 100_000
"""In characters."""
EMPTY = "standard input has no telegram: write one per line, or name a TABLE or --messages"


def batches() -> Iterator[List[Tuple[int, str]]]:
    """The lines with something in them after their numbers, as many at a time as there are."""
    if sys.stdin is None:
        raise TableError("standard input is closed: name a TABLE, or --messages")
    claimed("/dev/stdin")
    number, empty = 0, True
    for lines in _pieces(cast(io.BufferedReader, sys.stdin.buffer)):
        batch = []
        for number, line in enumerate(lines, number + 1):
            if len(line) > GREATEST_LINE:
                raise TableError(f"standard input: line {number}: it has more than {GREATEST_LINE:,} characters")
            if line.strip():
                batch.append((number, digits(line) or line.strip()))
        if batch:
            empty = False
            yield batch
    if empty:
        raise TableError(EMPTY)


def _pieces(stream: io.BufferedReader) -> Iterator[List[str]]:
    """The lines of a stream, which may be UTF-16 with a mark. A line that is too long may lack its end."""
    piece = head = stream.read1(CHUNK)
    while piece and len(head) < 2:
        piece = stream.read1(CHUNK)
        head += piece
    encoding = "utf-16" if head.startswith((codecs.BOM_UTF16_LE, codecs.BOM_UTF16_BE)) else "utf-8-sig"
    decoder = io.IncrementalNewlineDecoder(codecs.getincrementaldecoder(encoding)("backslashreplace"), True)
    rest, piece = "", head
    while piece:
        *lines, rest = (rest + decoder.decode(piece)).split("\n")
        yield [*lines, rest] if len(rest) > GREATEST_LINE else lines
        piece = stream.read1(CHUNK)
    yield (rest + decoder.decode(b"", True)).split("\n")

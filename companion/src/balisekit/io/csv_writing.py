"""CSV that is written: no cell of it is a formula for a spreadsheet."""
from __future__ import annotations

import csv
import io
from itertools import islice
from typing import Iterable, Iterator, Sequence

from balisekit.expressions import expression

FORMULAS = ("=", "+", "-", "@", "\t", "\r")
"""A spreadsheet may take a cell that begins with one of these for a formula."""
NUMBER = expression("-[0-9]+([.][0-9]+)?")
"""No formula, although it begins like one."""
PIECE = 1000
"""The rows of a piece."""


def safe(cell: str) -> str:
    """The cell, with an apostrophe before what may be a formula, and before an apostrophe that would be taken off."""
    is_formula = cell.startswith(FORMULAS) and not NUMBER.fullmatch(cell)
    return f"'{cell}" if is_formula or plain(cell) != cell else cell


def plain(cell: str) -> str:
    """A cell that `safe` has made, as it was."""
    bare = cell[1:] if cell.startswith("'") else ""
    return bare if bare.startswith(FORMULAS) or bare != "" and plain(bare) != bare else cell


def text(heading: Sequence[str], rows: Iterable[Sequence[str]]) -> str:
    """A CSV file of these rows."""
    return "".join(pieces(heading, rows))


def pieces(heading: Sequence[str], rows: Iterable[Sequence[str]]) -> Iterator[str]:
    """The same in pieces, for files that are too large to be in memory."""
    out = io.StringIO(newline="")
    writer = csv.writer(out, lineterminator="\n")
    writer.writerow(heading)
    rest = iter(rows)
    while True:
        part = list(islice(rest, PIECE))
        writer.writerows([safe(cell) for cell in row] for row in part)
        yield out.getvalue()
        out.seek(0)
        out.truncate()
        if not part:
            return

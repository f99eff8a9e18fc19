"""A CSV file that states where the kilometres of a track jump. `tables/chainage.py` has what follows for places."""
from __future__ import annotations

from decimal import Decimal
from typing import Dict, Iterator, Mapping, Sequence, Tuple

from balisekit.errors import TableError, TableErrors, faults_of
from balisekit.io import inputs
from balisekit.io.csv_writing import plain
from balisekit.tables import csv as csv_file, decimal_commas, reader
from balisekit.tables.beside import SWALLOWED
from balisekit.tables.cells import LINE_END, Sheet
from balisekit.tables.chainage import Chainage, Jump, look_at
from balisekit.tables.headings import Headings, alike, compared, look_at_cells

__all__ = ["Chainage", "Jump", "look_at", "read_jumps"]
COLUMNS = ("km", "km_after", "track")
"""Of a file of jumps, which has a line for each."""
NEEDED = COLUMNS[:2]


def read_jumps(path: str) -> Tuple[Jump, ...]:
    """The jumps of this file. TableError or TableErrors is raised if it cannot be read."""
    with faults_of(path):
        jumps = tuple(_jumps(csv_file.read(inputs.read_settings(path).content, Headings(COLUMNS, NEEDED))))
        if not jumps:
            raise TableError("the file of jumps has no row below its heading")
    return jumps


def _jumps(sheet: Sheet) -> Iterator[Jump]:
    rows, headings = sheet.rows, Headings(COLUMNS, NEEDED)
    first = headings.row_of(rows)
    if first is None:
        raise TableError(f"no row has the headings {' and '.join(NEEDED)}")
    places, width = headings.look_at(rows, first), len(rows[first])
    _look_at_heads(rows[: first + 1])
    faults = [fault for name in NEEDED for fault in decimal_commas.faults(sheet, first + 1, width, places, name)]
    if faults:
        raise TableErrors(faults)
    for number, row in enumerate(rows[first + 1 :], first + 2):
        _look_at_row(number, row, width, places)
        cells = {name: plain(row[place].strip()) if place < len(row) else "" for name, place in places.items()}
        if any(cells.values()):
            jump = Jump(_kilometre(cells, "km", number), _kilometre(cells, "km_after", number), cells.get("track", ""))
            if jump.before == jump.after:
                raise TableError("km and km_after are the same: that is no jump", number)
            yield jump


def _look_at_heads(rows: Sequence[Sequence[str]]) -> None:
    """Raises TableError for a column that is not known, and for a row above the headings that looks like a jump."""
    for name in compared(rows[-1]):
        if name and name not in COLUMNS:
            meant = alike(name, COLUMNS)
            hint = f'did you mean "{meant}"?' if meant else f"the columns are {', '.join(COLUMNS)}"
            raise TableError(f"there is no column {name[:40]}: {hint}", len(rows))
    for number, row in enumerate(rows[:-1], 1):
        if sum(1 for cell in row if reader.KM.fullmatch(cell.strip())) > 1:
            raise TableError("it is above the headings: put one row with headings above all others", number)


def _look_at_row(number: int, row: Sequence[str], width: int, places: Mapping[str, int]) -> None:
    """Raises TableError for cells that no column has, and for a line end: a quote may have put rows into a cell."""
    try:
        look_at_cells(row, width, places)
    except TableError as fault:
        fault.row = number
        raise
    for at, cell in enumerate(row, 1):
        if LINE_END.search(cell):
            raise TableError(f"cell {at} contains a line end: {SWALLOWED}", number)


def _kilometre(cells: Dict[str, str], name: str, number: int) -> Decimal:
    try:
        km = reader.kilometre_of(cells[name], "")
    except TableError as error:
        raise TableError(error.why, number, name) from error
    if km is None:
        raise TableError("there is no kilometre", number, name)
    return km

"""Cells of a CSV file or a workbook: digits in a cell, and merged areas, whose cells all get the value of the first."""
from __future__ import annotations

import re
from typing import Collection, Dict, List, Mapping, NamedTuple, Sequence, Tuple

from balisekit.errors import TableError, TableErrors
from balisekit.expressions import expression

COLUMNS = ("group", "telegram", "name", "km", "track", "aspect", "balise", "nominal")
"""The headings that are known."""
NEEDED = COLUMNS[:2]
GREATEST_NAME = 1000
"""The most characters of a cell that is no telegram, and how many of a heading are shown."""
BLANKS = " \t\u00a0\u2000-\u200b\u202f\u3000"
QUOTES = "\"'\u2018\u2019\u201c\u201d\u201e\u00ab\u00bb"
DIGITS = expression("[0-9A-Fa-f]+")
ERROR = expression(r"#[¡¿]?[^\W\d][\w/ ]*[!?]|##+|Loading\.\.\.|[^\W\d_]+\s*:\s*5[0-9]{2}")
"""What a spreadsheet has in a cell whose formula failed."""
ERROR_IN_CAPITALS = expression(r"#[^\W\d_](?:[^\W\d_]|/)[\w/]*")
"""The same in one language or another, if all its letters are capitals: #N/A, #YOK."""
PAIRS = expression(r"[^:-]{2}(?:([:-])[^:-]{2})(?:\1[^:-]{2})*")
LINE_END = expression("[\r\n\v\f\x1c-\x1e\x85\u2028\u2029]")
PARTS = expression("[,;|\t\r\n\v\f\x1c-\x1e\x85\u2028\u2029]")
"""What separates cells and rows that a quote has put into one cell."""

COVERED = "a merged cell covers contents of its own, which a spreadsheet does not show: unmerge the cells"
NOT_CALCULATED = "the values of its formulas are not stored: open the workbook in a spreadsheet, and save it"
RECALCULATED = (
    "the workbook leaves its formulas to the spreadsheet that opens it, which may get other values than the stored "
    "ones that are read: {formulas}, the first in row {row}; open the workbook in a spreadsheet, and save it"
)


class Sheet(NamedTuple):
    """The cells of a table."""

    encoding: str
    separator: str
    rows: List[List[str]]
    """The first one is row 1. A row may be shorter than the heading."""
    notes: Tuple[str, ...] = ()
    name: str = ""
    """Of a workbook: the name of the sheet."""
    others: Tuple[str, ...] = ()
    """The names of the workbook's other sheets."""
    merged: Sequence[Area] = ()
    """The merged areas."""
    is_filled: bool = False
    """Whether empty cells of a merged area are to have the value of its first cell."""
    in_others: Mapping[str, Found] = {}
    """What is found in the other sheets, by the names of these."""
    is_chosen: bool = False
    """Whether the user has named the sheet."""
    not_calculated: Sequence[Place] = ()
    """Of a workbook: the cells that are empty only because the values of their formulas are not stored."""
    recalculated: Sequence[Place] = ()
    """Of a workbook: the cells with formulas whose values are stored, and which a spreadsheet calculates anew."""

    @property
    def filled(self) -> Sequence[Area]:
        """The merged areas whose cells are to be filled."""
        return self.merged if self.is_filled else ()

    def look_at_covered(self, heading: int, places: Mapping[str, int]) -> None:
        """TableErrors is raised for contents that a merged cell covers, from the heading on in these columns.

        Spreadsheets show only the first cell of a merged area. LibreOffice can keep what is in the others.
        """
        looked_at, faults = 0, []
        for left, top, right, bottom in self.merged:
            within = [(name, at) for name, at in places.items() if left <= at + 1 <= right]
            part = self.rows[max(top, heading) - 1 : bottom] if within else []
            looked_at += len(part) * len(within)
            if looked_at > len(self.rows) * len(places):
                raise TableError("its merged ranges overlap: save the workbook again")
            shown = ("", kind_and_text(_value(self.rows, left, top))[1].strip())
            for number, row in enumerate(part, max(top, heading)):
                hidden = [
                    name
                    for name, at in within
                    if kind_and_text(row[at] if at < len(row) else "")[1].strip() not in shown
                ]
                faults += [TableError(COVERED, number, name) for name in hidden]
        if faults:
            raise TableErrors(faults)

    def look_at_calculated(self, heading: int, width: int, places: Mapping[str, int]) -> None:
        """TableErrors is raised for formulas below the heading whose values are not stored and needed.

        They are in these columns, beyond those that the heading has, or in a row that has nothing else.
        """
        names, faults = {at: name for name, at in places.items()}, []
        for number, at in self.not_calculated:
            is_empty = not any(map(str.strip, self.rows[number - 1]))
            if number > heading and (is_empty or at in names or at >= width):
                faults.append(TableError(NOT_CALCULATED, number, "" if is_empty else names.get(at, "")))
        if faults:
            raise TableErrors(list({str(fault): fault for fault in faults}.values()))

    def notes_on_recalculated(self, heading: int, columns: Collection[int]) -> List[str]:
        """A note on formulas below the heading, in these columns, that a spreadsheet calculates anew."""
        rows = [number for number, at in self.recalculated if number > heading and at in columns]
        formulas = f"{len(rows)} formula{'s' * (len(rows) > 1)}"
        return [RECALCULATED.format(formulas=formulas, row=rows[0])] if rows else []


class Found(NamedTuple):
    """What is found in a sheet that is not read."""

    telegrams: List[int]
    """The row of each telegram."""
    formulas: List[int]
    """The row of each formula whose value is not stored."""
    possible: Dict[int, int]
    """How many digits a row has that could hold a telegram, by its number."""


Place = Tuple[int, int]
"""The row of a cell, counted from 1, and its column, counted from 0."""
Area = Tuple[int, int, int, int]
"""The first column, the first row, the last column and the last row of an area, counted from 1."""


def is_error(text: str) -> bool:
    """Whether a spreadsheet shows this for a formula that failed."""
    return bool(ERROR.fullmatch(text) or ERROR_IN_CAPITALS.fullmatch(text) and text.isupper())


def headings(row: List[str]) -> List[str]:
    """The headings of a row as they are compared."""
    return [cell.strip().lower() for cell in row]


def of_kind(kind: str, text: str) -> str:
    """A cell of a workbook that is no text, but a `number`, a `date` or a `truth value`. No text has a NUL."""
    return f"\0{kind}\0{text}"


def kind_and_text(cell: str) -> Tuple[str, str]:
    """What a cell is if it is no text, and its text."""
    _, kind, text = cell.split("\0", 2) if cell.startswith("\0") else ("", "", cell)
    return kind, text


def digits(cell: str) -> str:
    """The cell without what is around and between digits: blanks, quotes, 0x, h, colons and hyphens of pairs."""
    if DIGITS.fullmatch(cell):
        return cell
    text = re.sub(f"[{BLANKS}]", "", cell).strip(QUOTES)
    if text[:2] in ("0x", "0X"):
        text = text[2:]
    if text[-1:] in ("h", "H"):
        text = text[:-1]
    return re.sub("[:-]", "", text) if PAIRS.fullmatch(text) else text


def fill_heads(rows: List[List[str]], areas: Sequence[Area]) -> None:
    """Fills the first column of each area, in rows that may have the headings."""
    for left, top, _, bottom in areas:
        value = _value(rows, left, top)
        for row in rows[top:bottom] if value else ():
            _put(row, left, value)


def end_of_heading(row: int, areas: Sequence[Area], columns: Collection[int]) -> int:
    """The last row that a heading in this row covers, counted from 1. Columns are counted from 0."""
    return max([row, *(bottom for left, top, _, bottom in areas if top <= row <= bottom and left - 1 in columns)])


def fill(rows: List[List[str]], areas: Sequence[Area], heading: int, columns: Collection[int]) -> None:
    """Fills the areas below the heading in these columns. A row that is empty stays so. No areas overlap."""
    for left, top, right, bottom in areas:
        value = _value(rows, left, top)
        within = [column + 1 for column in columns if left <= column + 1 <= right]
        if not value or not within or top <= heading:
            continue
        for row in rows[top - 1 : bottom]:
            for column in within if any(map(str.strip, row)) else ():
                _put(row, column, value)


def _value(rows: Sequence[List[str]], column: int, number: int) -> str:
    """The cell in this column and row, counted from 1."""
    row = rows[number - 1] if 0 < number <= len(rows) else []
    return row[column - 1] if 0 < column <= len(row) else ""


def _put(row: List[str], column: int, value: str) -> None:
    """Puts a value into a cell if that is empty."""
    row += [""] * (column - len(row))
    row[column - 1] = row[column - 1] or value

"""A sheet of variables that somebody expects, as `table` writes one."""
from __future__ import annotations

import re
from collections import Counter
from dataclasses import dataclass, replace
from typing import Callable, Iterator, List, Mapping, Optional, Sequence, Set, Tuple

from balisekit.errors import TableError, TableErrors, faults_of
from balisekit.io import inputs
from balisekit.io.csv_writing import plain
from balisekit.tables import csv as csv_file, own_headings, xlsx as xlsx_file
from balisekit.tables.encoding import WORKBOOKS
from balisekit.tables.beside import SWALLOWED, names_of
from balisekit.tables.cells import LINE_END, PARTS, Sheet, is_error, kind_and_text
from balisekit.tables.headings import Headings, alike
from balisekit.tables.names import NAMED, listed
from balisekit.tables.reader import head_of

ONE_OF = (("group", "identity"), ("raw", "value"))
"""A sheet needs one of each of these."""
NO_VALUE = "neither raw nor value: there is nothing to compare"
HAS_SWALLOWED = f"has line ends and a variable in it: {SWALLOWED}"
OTHER_KINDS = ("date", "truth value")
VARIABLE = re.compile(r"[A-Z]+(?:_[A-Z0-9]+)+(?: \([0-9]+\)| of [A-Z_]+)?|user bits|other data|body", re.IGNORECASE)
"""What a cell of the column variable looks like, wherever it is."""
SEPARATORS = re.compile("[,;\t]")
THOUSANDS = re.compile("([-+\u2212]?[1-9][0-9]{0,2})[.,]([0-9]{3})(?![0-9.,])")
"""A number whose comma or point may separate thousands or decimals. A kilometre always has decimals."""
WHOLE, DIGITS = re.compile("[-+\u2212]?[0-9]+"), re.compile("[0-9]{1,6}")
CHAINAGE = re.compile("[-+\u2212]?[0-9][0-9.,]*\\+[0-9]{3}")
"""A kilometre as a chainage writes it, which is no number in another column."""
Cells = Mapping[str, str]
"""The cells of a row by the names of the columns."""


@dataclass(frozen=True)
class Expected:
    """A sheet in which each cell can be compared. A CSV file is read row by row, because it can have millions."""

    path: str
    notes: Tuple[str, ...]
    places: Mapping[str, int]
    """Where each column is."""
    heading: int
    """The row of the headings, counted from 1."""
    width: int
    """How many cells the row of the headings has."""
    separator: str
    own: Tuple[str, ...]
    """The headings that are in it because a file of settings states them."""
    is_text: bool
    source: Callable[[], Iterator[List[str]]]

    def rows(self) -> Iterator[Tuple[int, Cells]]:
        """The rows with something in them and their numbers."""
        for number, row in self._filled():
            cells = {}
            for name, place in self.places.items():
                text = kind_and_text(row[place])[1].strip() if place < len(row) else ""
                cells[name] = plain(text) if self.is_text else text
            yield number, cells

    def _filled(self) -> Iterator[Tuple[int, List[str]]]:
        for number, row in enumerate(self.source(), 1):
            if number > self.heading and any(map(str.strip, row)):
                yield number, row

    def _has_value(self, row: List[str]) -> bool:
        """Whether there is anything that a variable can be compared with."""
        places = [self.places[name] for name in ONE_OF[1] if name in self.places]
        return any(kind_and_text(row[place])[1].strip() for place in places if place < len(row))

    def look_at(self) -> Set[int]:
        """The columns that are not read although they have something in them.

        TableErrors is raised for cells that cannot be compared, and TableError if there is no row.
        """
        faults: List[TableError] = []
        row: List[str] = []
        used: Set[int] = set()
        others = set(range(self.width)).difference(self.places.values())
        commas = _Commas({at: name for name, at in self.places.items() if at + 1 in others and name in ONE_OF[1]})
        for number, row in self._filled():
            faults += self._faults(number, row)
            used.update(at for at in others.difference(used) if any(map(str.strip, row[at : at + 1])))
            if self.separator == ",":
                commas.add(number, row)
        faults += commas.faults()
        if faults:
            raise TableErrors(faults)
        if not row:
            raise TableError("the sheet has no row below its heading")
        return used

    def _faults(self, number: int, row: List[str]) -> Iterator[TableError]:
        """Why a row cannot be compared."""
        if any(map(str.strip, row[self.width :])):
            yield TableError(f"it has {len(row)} cells, and the heading {self.width}", number)
        for at, cell in enumerate(row):
            if at not in self.places.values() and _has_swallowed(cell, self.separator):
                yield TableError(f"cell {at + 1} {HAS_SWALLOWED}", number)
        for name, place in self.places.items():
            why = _fault(name, row[place] if place < len(row) else "")
            if why:
                yield TableError(why, number, name)
        if not self._has_value(row):
            yield TableError(NO_VALUE, number)


class _Commas:
    """Values that may be decimal fractions whose commas are not quoted, in columns before one that is not read."""

    def __init__(self, names: Mapping[int, str]) -> None:
        self.names, self.filled = names, Counter[int]()
        self.in_two: List[Tuple[int, int, str, str]] = []

    def add(self, number: int, row: List[str]) -> None:
        """Takes a row into account."""
        for at in self.names:
            value, behind = [*map(str.strip, row[at : at + 2]), "", ""][:2]
            self.filled[at] += bool(value)
            if WHOLE.fullmatch(value) and DIGITS.fullmatch(behind):
                self.in_two.append((number, at, value, behind))

    def faults(self) -> Iterator[TableError]:
        """A fault for each value with digits in the next cell, unless all values have some: then they are numbers."""
        counts = Counter(at for _, at, _, _ in self.in_two)
        for number, at, value, behind in self.in_two:
            if counts[at] < self.filled[at]:
                why = f"{value}, and the next cell has {behind}: is this a decimal comma that is not quoted?"
                yield TableError(f"{why} If it is not, write {value}.0", number, self.names[at])


def read(path: str, columns: Optional[str] = None) -> Expected:
    """The sheet of this file. TableError or TableErrors is raised if it cannot be compared."""
    headings = own_headings.of_sheet(path, columns, ["variable"])
    file = inputs.read(path)
    with faults_of(path):
        sheet, source = _opened(file.content, headings)
        place, places = head_of(sheet, headings)
        sheet.look_at_calculated(place + 1, len(sheet.rows[place]), places)
        for names in ONE_OF:
            if not places.keys() & set(names):
                raise TableError(f"no column {' or '.join(names)}: it needs one of them", place + 1)
        _look_at_stated(own_headings.found(path, columns), places, place + 1)
        _look_above(sheet.rows[: place + 1], sheet.separator)
        width, is_text = len(sheet.rows[place]), sheet.encoding != "xlsx"
        own = tuple(headings.of_row(sheet.rows[place]).values())
        expected = Expected(path, (), places, place + 1, width, sheet.separator, own, is_text, source)
        used = expected.look_at()
        notes = (*sheet.notes, *headings.used(sheet.rows[place]), *_notes(sheet, place, places, used))
    return replace(expected, notes=notes)


def _look_at_stated(found: own_headings.Found, places: Mapping[str, int], row: int) -> None:
    """Raises TableError if [expect] names a column that the sheet lacks: its cells would not be compared."""
    for name, heading in found.tables.get(own_headings.EXPECT_TABLE, {}).items():
        if name not in places:
            raise TableError(f'no column {name}: by [expect] of {found.path} its heading is "{heading}"', row)


def _look_above(rows: Sequence[Sequence[str]], separator: str) -> None:
    """Raises TableErrors if the rows down to that of the headings have rows of the sheet among or in them."""
    above = (number for number, row in enumerate(rows[:-1], 1) if any(map(_is_variable, row)) and _filled(row) > 2)
    cells = ((number, at, cell) for number, row in enumerate(rows, 1) for at, cell in enumerate(row, 1))
    within = (
        TableError(f"cell {at} {HAS_SWALLOWED}", row) for row, at, cell in cells if _has_swallowed(cell, separator)
    )
    faults = [*(TableError("it has a variable, and is not below the headings", number) for number in above), *within]
    if faults:
        raise TableErrors(faults)


def _is_variable(text: str) -> bool:
    """Whether it looks like the name of a variable, in either case of its letters and with any blanks or quotes."""
    return bool(VARIABLE.fullmatch(" ".join(text.replace('"', " ").split())))


def _filled(row: Sequence[str]) -> int:
    return sum(1 for cell in row if cell.strip())


def _notes(sheet: Sheet, place: int, places: Mapping[str, int], used: Set[int]) -> Iterator[str]:
    """Notes on formulas, and on what is not compared: rows above the headings, unknown columns, and other sheets."""
    yield from sheet.notes_on_recalculated(place + 1, places.values())
    if place:
        yield f"the headings of the sheet are in row {place + 1}: what is above them is not compared"
    heads = names_of(sheet.rows[place])
    lacks = [name for name in own_headings.SHEET if name not in places]
    meant = {at: alike(heads[at].lower(), lacks) for at in sorted(used)}
    names = [f'{heads[at]}{f" (did you mean {name}?)" if name else ""}' for at, name in meant.items()]
    if names:
        yield f"columns of the sheet that are not compared: {listed(names, NAMED)}"
    if sheet.others:
        yield f"sheets of its workbook that are not compared: {listed(sheet.others, NAMED)}"


def _has_swallowed(cell: str, separator: str) -> bool:
    """Whether a cell has line ends, and a row with a variable."""
    if not LINE_END.search(cell):
        return False
    text = cell.replace(separator, ";") if separator else cell
    return len(SEPARATORS.findall(text)) > 1 and any(map(_is_variable, PARTS.split(text)))


def _opened(content: bytes, headings: Headings) -> Tuple[Sheet, Callable[[], Iterator[List[str]]]]:
    """The first rows of a sheet, and a function that gives all of them."""
    if not content.startswith(WORKBOOKS):
        return csv_file.stream(content, headings)
    sheet = xlsx_file.read(content, None, headings)
    return sheet, lambda: iter(sheet.rows)


def _fault(column: str, cell: str) -> str:
    """Why a cell cannot be compared, or nothing."""
    kind, text = kind_and_text(cell)
    if "\n" in text or "\r" in text:
        return "the cell contains a line end"
    if kind in OTHER_KINDS:
        return f"a {kind}: the spreadsheet has changed it; make the column text"
    if is_error(text.strip()):
        return f"{text.strip()} is an error of the spreadsheet: its formula failed"
    if column in ONE_OF[1] and THOUSANDS.match(text.strip()):
        return _two_numbers(text.strip())
    if column in ONE_OF[1] and CHAINAGE.match(text.strip()):
        return f"{text.strip()} is a chainage, which only the column km has: write a number"
    return "no variable" if column == "variable" and not text.strip() else ""


def _two_numbers(text: str) -> str:
    """Why a number is refused that may be one of two."""
    thousands = THOUSANDS.sub(r"\1\2", text)
    decimal = THOUSANDS.sub(lambda found: ".".join(filter(None, (found[1], found[2].rstrip("0")))), text)
    return f"{text} is {thousands} or {decimal}, by what its separator means: write one of these"

"""A table of telegrams: its columns, its rows, and its groups."""
from __future__ import annotations

import re
from decimal import Decimal
from itertools import islice
from typing import Any, Callable, Dict, Iterator, List, Mapping, Optional, Sequence, Tuple

from balisekit.errors import TableError, TableErrors, faults_of
from balisekit.expressions import expression
from balisekit.io import inputs
from balisekit.tables import beside, csv as csv_file, decimal_commas, own_headings
from balisekit.tables.cells import (
    COLUMNS,
    DIGITS,
    GREATEST_NAME,
    Sheet,
    digits,
    end_of_heading,
    fill,
    fill_heads,
    is_error,
    kind_and_text,
)
from balisekit.tables.encoding import WORKBOOKS
from balisekit.tables.grouping import groups_of
from balisekit.tables.headings import SEARCHED, Headings, alike, compared
from balisekit.tables.model import Reading, Row, Table

KM = expression(r"(?!-[0-9]+\+)(-?[0-9]{1,4})(?:[.,]([0-9]{1,6})|\+([0-9]{3})(?:[.,]([0-9]{1,3}))?)?")
SCIENTIFIC = expression(r"[0-9]+[.,][0-9]+[eE]\+?[0-9]+|[0-9][eE]\+[0-9]+")
BY_POSITION = "--by-position orders balises by N_PIG, which hides a wrong N_PIG"
COMPARED = 1000
"""How many headings that are passed over are compared with the known ones."""
ABSENT = -1
"""The index of a column that the table lacks: each row that is read ends with an empty cell."""
NO_GROUP = "no group; fill merged cells"
NUMBER = expression(r"[-+]?[0-9]+([.,][0-9]*)?")
NAMES = "the column balise has names and no number: it is read as the column name, and the order of the rows counts"
PLAIN = expression(r"(?!\s*Loading)[^\0\r\n#:]{0,1000}")
"""A text without anything that needs to be looked for."""


def read(
    path: str,
    sheet: Optional[str] = None,
    by_position: bool = False,
    columns: Optional[str] = None,
    fill_merged: bool = False,
    skip_columns: Sequence[str] = (),
) -> Table:
    """The table of this file. TableError or TableErrors is raised if it cannot be read.

    `sheet` names the sheet of an .xlsx, and `columns` a file with headings of the user's own. With `fill_merged` all
    cells of a merged area have the value of its first cell. `skip_columns` are headings of columns that are not read.
    """
    headings, file = own_headings.of_table(path, columns), inputs.read(path)
    with faults_of(path):
        cells = sheet_of(file.content, headings, sheet, fill_merged)
        place, places = head_of(cells, headings)
        not_there = beside.skip(cells.rows[place], places, skip_columns, place + 1)
        begin = end_of_heading(place + 1, cells.filled, places.values())
        named, passed_over = _take_names(cells, place, places), _passed_over(cells, place, places)
        meant = tuple(_meant(passed_over, places, compared(skip_columns)))
        try:
            cells.look_at_calculated(begin, len(cells.rows[place]), places)
            unread = beside.unread(cells, place, begin, places, skip_columns)
            of_heading = _notes_on_heading(place, headings.notes(cells.rows[place]), named)
            of_heading += beside.covered_rows(cells, place + 1, begin, places)
            rows = _rows(cells, places, begin, len(cells.rows[place]))
            grouped = groups_of(rows, by_position, place + 1)
        except (TableError, TableErrors) as error:
            raise TableErrors([*_hints(passed_over, meant, place, named), *error.faults]) from error
    about = path, file.sha256, cells.encoding, cells.separator
    not_judged = beside.of_columns(cells, cells.rows[place], begin, places, unread, skip_columns)
    account = beside.account(cells, [row.number for row in rows], passed_over, not_judged)
    of_heading += [*cells.notes_on_recalculated(begin, places.values()), *not_there]
    of_file = (*cells.notes, *own_headings.not_read(path, columns), *of_heading)
    notes = (*of_file, *([BY_POSITION] if by_position else []), *grouped.notes)
    told = tuple(headings.of_row(cells.rows[place]).values()), meant, columns
    reading = Reading(sheet, tuple(skip_columns), by_position, fill_merged)
    return Table(*about, passed_over, grouped.rows, grouped.groups, account, notes, *told, reading)


def _hints(passed_over: Sequence[str], meant: Sequence[str], place: int, named: bool) -> List[TableError]:
    """A line for each heading that is passed over and may have been mistyped, and one on names in `balise`."""
    hints = [
        f'the column {name} is passed over: did you mean "{known}"?' for name, known in zip(passed_over, meant) if known
    ]
    return [TableError(hint, row=place + 1) for hint in [*hints, *([NAMES] if named else [])]]


def sheet_of(content: bytes, headings: Headings, sheet: Optional[str] = None, fill_merged: bool = False) -> Sheet:
    """The cells of a CSV file, or of the sheet of a workbook that is named or has the headings."""
    if content.startswith(WORKBOOKS):
        from balisekit.tables import xlsx as xlsx_file  # (a CSV needs no zip and no XML)

        return xlsx_file.read(content, sheet, headings, fill_merged)
    if sheet is not None:
        raise TableError("--sheet is only for .xlsx files")
    if fill_merged:
        raise TableError("--fill-merged is only for .xlsx files: fill the cells, or name the .xlsx")
    return csv_file.read(content, headings)


def head_of(sheet: Sheet, headings: Headings) -> Tuple[int, Dict[str, int]]:
    """The row of the headings, counted from 0, and where each known column is. Merged cells below it are filled."""
    if not any(any(map(str.strip, row)) for row in sheet.rows):
        raise TableError(f"the table is empty: it needs a row with the headings {' and '.join(headings.needed)}")
    heads = [list(row) for row in sheet.rows[: SEARCHED + 1]]
    fill_heads(heads, sheet.filled)
    found = headings.row_of(heads)
    place = headings.likely(heads) if found is None else found
    try:
        places = headings.look_at(heads, place)
    except TableError as error:
        if not sheet.others:
            raise
        remedy = "--sheet names another sheet" if headings.has_telegrams else "save another sheet as CSV"
        why = f"sheet {sheet.name}: {error.why}; {remedy}: {', '.join(sheet.others)}"
        raise TableError(why, error.row) from error
    sheet.rows[place] = heads[place]
    sheet.look_at_covered(place + 1, places)
    fill(sheet.rows, sheet.filled, place + 1, places.values())
    return place, places


def _notes_on_heading(place: int, own: List[str], named: bool) -> List[str]:
    """Notes on headings of the user's own, on the rows above the headings, and on a column `balise` with names."""
    above = f"the {place} rows above it are" if place > 1 else "row 1 is"
    passed_over = [f"the headings are in row {place + 1}: {above} passed over"] if place else []
    return [*own, *passed_over, *([NAMES] if named else [])]


def _take_names(sheet: Sheet, place: int, places: Dict[str, int]) -> bool:
    """Whether the column `balise` has names. Then it is the column `name`."""
    named = _has_names(sheet, place, places)
    if named:
        places["name"] = places.pop("balise")
    return named


def _has_names(sheet: Sheet, place: int, places: Mapping[str, int]) -> bool:
    """Whether the column `balise` has names, not numbers, and no other column has the names."""
    at = places.get("balise")
    if at is None or "name" in places:
        return False
    rows = islice(sheet.rows, end_of_heading(place + 1, sheet.filled, places.values()), None)
    filled = filter(str.strip, (row[at] for row in rows if at < len(row)))
    first = next(filled, None)
    return first is not None and _is_name(first) and all(map(_is_name, filled))


def _is_name(cell: str) -> bool:
    """Whether a cell is text, and no number."""
    kind, text = kind_and_text(cell)
    return not kind and not NUMBER.fullmatch(text.strip())


def _meant(headings: Sequence[str], places: Mapping[str, int], skipped: Sequence[str]) -> Iterator[str]:
    """The column that the table lacks and that each heading resembles, or nothing. None is meant that was skipped."""
    lacks = [name for name in COLUMNS if name not in places]
    for heading, name in zip(headings[:COMPARED], compared(headings[:COMPARED])):
        yield "" if name in skipped else alike(heading.lower(), lacks)


def _passed_over(sheet: Sheet, place: int, places: Mapping[str, int]) -> Tuple[str, ...]:
    """The headings, unchanged, of the unknown columns that are not empty."""
    names, known = [], set(places.values())
    for column, cell in enumerate(sheet.rows[place]):
        if column not in known:
            used = any(row[column].strip() for row in sheet.rows[place:] if column < len(row))
            names += [kind_and_text(cell)[1].strip()[:GREATEST_NAME] or f"column {column + 1}"] if used else []
    return tuple(names)


def _rows(sheet: Sheet, places: Dict[str, int], begin: int, width: int) -> Tuple[Row, ...]:
    """The rows below the heading that have a cell with something in it. `width` is that of the heading."""
    filled = list(_filled(sheet, begin, width))
    if not filled:
        raise TableError("the table has no row below its heading")
    telegrams, *others = (_Column(name, places.get(name, ABSENT), meaning) for name, meaning in MEANINGS.items())
    cells, is_plain = list(zip(*(row for _, row in filled))), DIGITS.fullmatch
    texts = cells[telegrams.place]
    fields: Dict[str, Sequence[Any]] = {column.name: column.meanings(cells[column.place]) for column in others}
    fields["number"] = [number for number, _ in filled]
    fields["telegram"] = [text if is_plain(text) else telegrams[text] for text in texts]
    fields["cell"] = list(map(str.strip, texts))
    faults, columns = decimal_commas.faults(sheet, begin, width, places), [telegrams, *others]
    if any(len(row) > width + 1 for _, row in filled) or any(column.faults for column in columns):
        faults += _faults(sheet, columns, begin, width)
    if faults:
        raise TableErrors(faults)
    return tuple(map(Row._make, zip(*(fields[name] for name in Row._fields))))


def _filled(sheet: Sheet, begin: int, width: int) -> Iterator[Tuple[int, List[str]]]:
    """The numbers and cells of the rows below this one. The last cell of each is empty, for columns that are absent."""
    pad = [""] * (width + 1)
    for number, row in enumerate(islice(sheet.rows, begin, None), begin + 1):
        if any(map(str.strip, row)):
            yield number, row + pad[min(len(row), width) :]


class _Column(Dict[str, Any]):
    """What the cells of a column mean, by their texts. Most texts are repeated."""

    def __init__(self, name: str, place: int, meaning: Callable[[str, str], object]) -> None:
        super().__init__()
        self.name, self.place, self.meaning = name, place, meaning
        self.faults: Dict[str, str] = {}

    def meanings(self, cells: Sequence[str]) -> Sequence[Any]:
        """Those of the cells of all rows."""
        return list(map(self.__getitem__, cells))

    def __missing__(self, cell: str) -> object:
        try:
            meaning = self.meaning(cell.strip(), "") if PLAIN.fullmatch(cell) else self._read(*kind_and_text(cell))
        except TableError as fault:
            meaning, self.faults[cell] = None, fault.why
        self[cell] = meaning
        return meaning

    def _read(self, kind: str, text: str) -> object:
        if "\n" in text or "\r" in text:
            raise TableError("the cell contains a line end")
        if is_error(text.strip()):
            raise TableError(f"{text.strip()} is an error of the spreadsheet: its formula failed")
        if self.name != "telegram" and len(text) > GREATEST_NAME:
            raise TableError(f"it has more than {GREATEST_NAME:,} characters")
        return self.meaning(text.strip(), kind)


def _faults(sheet: Sheet, columns: Sequence[_Column], begin: int, width: int) -> Iterator[TableError]:
    """What is wrong with each row, its width first."""
    for number, cells in _filled(sheet, begin, width):
        if any(map(str.strip, cells[width:])):
            hint = ": is a decimal comma not quoted?" if sheet.separator == "," else ""
            yield TableError(f"it has {len(cells) - 1} cells, and the heading {width}{hint}", number)
        for column in columns:
            if cells[column.place] in column.faults:
                why = column.faults[cells[column.place]]
                why += ": give --fill-merged" if why == NO_GROUP and sheet.merged and not sheet.is_filled else ""
                yield TableError(why, number, column.name)


def _telegram(cell: str, kind: str) -> str:
    if kind or SCIENTIFIC.fullmatch(cell):
        raise TableError(
            f"a {kind or 'number'}, not digits: the spreadsheet has changed it; make the column text "
            "and export again"
        )
    if not digits(cell):
        raise TableError("it is empty")
    return digits(cell)


def _name(cell: str, kind: str) -> str:
    if kind and not (kind == "number" and re.fullmatch("-?[0-9]+", cell)):
        raise TableError(f"a {kind}, not a name: the spreadsheet has changed it; make the column text")
    return cell


def _group(cell: str, kind: str) -> str:
    if not cell:
        raise TableError(NO_GROUP)
    return _name(cell, kind)


def _balise(cell: str, _: str) -> Optional[int]:
    if cell and not re.fullmatch("[0-9]{1,6}", cell):
        remedy = ": names of balises belong in the column name" if _is_name(cell) else ""
        raise TableError(f"{cell[:40]} is no whole number{remedy}")
    return int(cell) if cell else None


def kilometre_of(cell: str, kind: str) -> Optional[Decimal]:
    """The kilometre of a cell, or None for an empty one. TableError is raised for what is none."""
    found = KM.fullmatch(cell.replace("\u2212", "-"))
    if found and kind != "date":
        whole, part, metres, more = found.groups(default="")
        return Decimal(f"{whole}.{part or metres or '0'}{more}")
    if cell:
        raise TableError(f"{cell[:40]} is no kilometre: one is written like 13.850, 13,850 or 13+850")
    return None


def _nominal(cell: str, _: str) -> str:
    if cell.lower() not in ("", "rising", "falling"):
        raise TableError(f"{cell[:40]} is neither rising nor falling")
    return cell.lower()


MEANINGS: Dict[str, Callable[[str, str], object]] = {
    "telegram": _telegram,
    "group": _group,
    "aspect": _name,
    "balise": _balise,
    "name": _name,
    "km": kilometre_of,
    "track": _name,
    "nominal": _nominal,
}
"""How the cells of each column are read: from their text, and what a workbook has instead of text."""

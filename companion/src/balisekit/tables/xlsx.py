"""Cells of a workbook. openpyxl reads all but plain texts. What takes too long is refused before it is parsed."""
from __future__ import annotations

import datetime
import io
import math
import re
import warnings
import zipfile
from contextlib import contextmanager, nullcontext, suppress
from decimal import Decimal
from functools import partial
from itertools import islice
from posixpath import normpath
from typing import (
    AbstractSet,
    Any,
    Callable,
    Dict,
    Iterable,
    Iterator,
    List,
    NamedTuple,
    Optional,
    Pattern,
    Sequence,
    Tuple,
)
from xml.etree.ElementTree import Element, ParseError, fromstring, iterparse

from balisekit.errors import KitError, TableError, needed
from balisekit.tables import strings
from balisekit.tables.cells import GREATEST_NAME, Area, Found, Place, Sheet, fill_heads, of_kind
from balisekit.tables.encoding import OLD_WORKBOOK
from balisekit.tables.headings import SEARCHED, Headings, is_data
from balisekit.tables.other_parts import Beside, beside_cells
from balisekit.tables.strings import NAMESPACE, OTHER_TEXT, Strings
from balisekit.tables.unread_digits import digits_in_rows, is_telegram, possible_digits

CONTENTS = "[Content_Types].xml"
"""A part that each workbook has."""
END_OF_ZIP, LENGTH_OF_END = b"PK\x05\x06", 22
"""How the last record of a zip begins, and how long it is without a comment."""
GREATEST, GREATEST_PART = 200_000_000, 100_000_000
"""The most bytes of an unpacked workbook, and of one part of it. 100,000 rows have up to 55,000,000."""
GREATEST_RATIO, SMALL_PART = 100, 1_000_000
"""The greatest ratio of a part's unpacked size to its packed size, unless the part is small."""
GREATEST_ROW, GREATEST_CELLS, GREATEST_STRINGS = 1_048_576, 16_384, 1_048_576
"""The most rows of a sheet, cells of a row and strings that a spreadsheet writes."""
GREATEST_COLUMNS = 200
"""The most columns of a sheet that is read."""
SHORT_WAY_OUT = "save the table as CSV, or in a workbook of its own"

REFERENCE = rb"""[^<]*?\sref\s*=\s*["']([^"']*)"""
PLACES = 6
"""Numbers are rounded to as many decimal places as a kilometre can have: later digits of sums are wrong."""
MERGED = (
    "merged ranges, whose empty cells are read as empty: {count}, the first {first}; --fill-merged takes the value of "
    "the first cell for them"
)
UNMERGE = "merged ranges, whose empty cells are read as empty: {count}, the first {first}; unmerge and fill the cells"
"""The same for a workbook that no option is about."""
FILLED = "merged ranges, whose empty cells are read with the value of the first one: {count}, the first {first}"
BESIDE = (
    "digits as telegrams have in comments, text boxes and other parts that are not read: {count}, the first in {first}"
)
STRUCK = "rows with struck-through cells, which are read as all others: {count}, the first {first}"
NOT_SEARCHED = (
    "macros, embedded objects and other parts that are not searched for telegrams: {count}, the first {first}"
)
PACKAGE, DOCUMENT = "_rels/.rels", "/officeDocument"
"""The part that names the workbook, and how the kind of that relationship ends."""
STRINGS = "http://schemas.openxmlformats.org/officeDocument/2006/relationships/sharedStrings"
"""The kind of the relationship of a workbook to its shared strings."""
FORMULA = f"{NAMESPACE}f"
CELL_TAGS = ("}c", "c")
"""How the name of the element of a cell ends, whatever its namespace."""
DATES = (datetime.date, datetime.time, datetime.timedelta)
ParseCell = Callable[[Element], Dict[str, Any]]
"""What openpyxl makes of the element of a cell: its value, and more."""


class _Formulas(NamedTuple):
    """The formulas of a sheet whose stored values may not be those that a spreadsheet shows."""

    recalculates: bool
    """Whether a spreadsheet calculates all formulas when it opens the workbook."""
    not_calculated: List[Place]
    """Those without a stored value. If they are recalculated, these are also 0 and an empty text."""
    recalculated: List[Place]
    """Those with another stored value."""


class _Struck(NamedTuple):
    """The rows of a sheet that have struck-through texts or numbers."""

    styles: AbstractSet[str]
    """The numbers of the formats of cells whose font is struck through."""
    rows: List[int]

    def look_at(self, row: Element, number: int) -> None:
        """Takes a row into account."""
        if self.styles and any(cell.get("s") in self.styles and len(cell) for cell in row):
            self.rows.append(number)

    def notes(self) -> List[str]:
        """A note on these rows, if there are any."""
        return _notes([f"row {number}" for number in self.rows], STRUCK)


def read(content: bytes, name: Optional[str], headings: Headings = Headings(), fill_merged: bool = False) -> Sheet:
    """The cells of the sheet of this name, else of the one that has the needed headings."""
    with _opened(content) as book:
        sheet, note = _chosen(book.workbook, name, headings, fill_merged)
        made = _sheet(book, sheet)  # (before the strings that no cell has are counted)
        found: Dict[str, Found] = {}
        beside = Beside([], [])
        if headings.has_telegrams:
            found = _found_in_others(book.workbook, sheet, book.recalculates)
            names = [each._worksheet_path for each in book.workbook.worksheets]
            beside = beside_cells(content, names, book.part_of_strings, _look_at_parts)
            beside.telegrams.extend([book.part_of_strings] * book.strings.telegrams_of_no_cell())
        notes = (note, *_notes(beside.telegrams, BESIDE), *_notes(beside.not_searched, NOT_SEARCHED), *made.notes)
        notes += tuple(_notes(_merged(sheet), FILLED if fill_merged else MERGED if headings.has_telegrams else UNMERGE))
        others = tuple(title for title in book.titles if title != sheet.title)
        made = made._replace(notes=notes, others=others, is_filled=fill_merged)
        return made._replace(in_others=found, is_chosen=name is not None)


def read_all(content: bytes) -> List[Sheet]:
    """The cells of all sheets of a workbook in their order, hidden ones too."""
    with _opened(content) as book:
        others = [sheet.title for sheet in book.workbook.chartsheets]
        made = [_sheet(book, sheet) for sheet in book.workbook.worksheets]
        return [sheet._replace(others=tuple(others)) for sheet in made]


class _Book(NamedTuple):
    """A workbook that openpyxl has opened."""

    workbook: Any
    titles: List[str]
    """Those of all its sheets, sheets of charts at the end."""
    part_of_strings: str
    strings: Strings
    recalculates: bool
    """Whether a spreadsheet calculates all formulas when it opens the workbook."""
    struck: AbstractSet[str]
    """The numbers of the formats of cells whose font is struck through."""


@contextmanager
def _opened(content: bytes) -> Iterator[_Book]:
    """A workbook, without what openpyxl warns of: it would not write that again."""
    _look_at_parts(content)
    with needed("openpyxl", "reading .xlsx (CSV needs no package)"):
        import openpyxl
    with warnings.catch_warnings():
        warnings.simplefilter("ignore")
        try:
            reader = _read_by(openpyxl.reader.excel.ExcelReader, content)
            book, named = reader.wb, len(reader.parser.sheets)
            _look_at_workbook(reader)
            struck = _struck_styles(reader.wb)
            part_of_strings, shared = _part_of_strings(reader), Strings(reader.shared_strings)
            recalculates = _recalculates(reader.archive.read(reader.parser.workbook_part_name))
        except Exception as error:
            raise _unreadable(error) from error
        for each in book.worksheets:
            each._shared_strings = shared
        titles = [each.title for each in (*book.worksheets, *book.chartsheets)]
        if len(titles) < named:
            raise TableError(f"{named - len(titles)} of its {named} sheets cannot be found in it: {SHORT_WAY_OUT}")
        _look_at_names("sheet", titles)
        yield _Book(book, titles, part_of_strings, shared, recalculates, struck)


def _sheet(book: _Book, sheet: Any) -> Sheet:
    """The cells of one sheet."""
    formulas, struck = _Formulas(book.recalculates, [], []), _Struck(book.struck, [])
    areas = _areas(_merged(sheet))
    rows = _cells(_rows(sheet, formulas, struck))
    made = Sheet("xlsx", "", rows, tuple(struck.notes()), sheet.title, merged=areas)
    return made._replace(not_calculated=formulas.not_calculated, recalculated=formulas.recalculated)


def _read_by(make: Callable[..., Any], content: bytes) -> Any:
    """The reader of openpyxl after it has read all but the cells."""
    reader = make(io.BytesIO(content), read_only=True, data_only=True, keep_links=False)
    reader.read_strings = partial(strings.read, reader)
    reader.read_chartsheet = partial(_read_chart_sheet, reader)
    reader.read()
    return reader


def _read_chart_sheet(reader: Any, sheet: Any, relation: Any) -> None:
    """Reads a chart sheet. At one without a chart openpyxl fails after it has put the sheet into the book."""
    from openpyxl.packaging.relationship import get_rels_path

    has_chart = get_rels_path(relation.target) in reader.valid_files
    with nullcontext() if has_chart else suppress(AttributeError):
        type(reader).read_chartsheet(reader, sheet, relation)


def _unreadable(error: Exception, row: Optional[int] = None) -> Exception:
    """The fault of a workbook in which openpyxl, or a reader of zips, has raised something."""
    if isinstance(error, (KitError, MemoryError)):
        return error
    row = None if isinstance(error, ParseError) else row  # (which names a line of the XML)
    return TableError(f"openpyxl cannot read it ({type(error).__name__}: {error}): {SHORT_WAY_OUT}", row)


def _look_at_parts(content: bytes) -> None:
    """TableError is raised for what is no workbook, or takes too long to read."""
    if content.startswith(OLD_WORKBOOK):
        raise TableError("it is an .xls, or protected by a password: save it as .xlsx or CSV")
    try:
        with zipfile.ZipFile(io.BytesIO(content)) as parts:
            members = parts.infolist()
            _look_at_ends(content, parts)
            _look_at_names("part", [part.filename for part in members])
            for part in members:
                _look_at_size(part)
            size = sum(part.file_size for part in members)
            if size > GREATEST:
                raise TableError(f"it has {size:,} bytes unpacked, more than {GREATEST:,}: {SHORT_WAY_OUT}")
            if CONTENTS not in parts.namelist():
                raise TableError("it is no .xlsx, but an .ods or another zip: save it as .xlsx or CSV")
            for part in members:
                _look_at_elements(part.filename, parts.read(part))
    except zipfile.BadZipFile as error:
        raise TableError(f"it is cut short or damaged ({error}): copy it again, or save it as CSV") from error
    except Exception as error:  # zipfile raises whatever its decompressors raise
        raise _unreadable(error) from error


def _look_at_ends(content: bytes, parts: zipfile.ZipFile) -> None:
    """TableError is raised for bytes in front of the zip or behind it: a zip is read from its end, and hides them."""
    begin = min((part.header_offset for part in parts.infolist()), default=0)
    end = content.rfind(END_OF_ZIP) + LENGTH_OF_END + len(parts.comment)
    if begin or end != len(content):
        where = f"in front of byte {begin}" if begin else f"behind byte {end}"
        raise TableError(f"it has another workbook or other bytes {where}: {SHORT_WAY_OUT}")


def _look_at_names(what: str, names: Sequence[str]) -> None:
    """TableError is raised if a name is there twice, in any case of its letters: readers differ in which they take."""
    folded = [name.casefold() for name in names]
    if len(set(folded)) < len(folded):
        twice = next(name for place, name in enumerate(names) if name.casefold() in folded[:place])
        raise TableError(f"it has the {what} {twice[:GREATEST_NAME]} twice: {SHORT_WAY_OUT}")


def _look_at_size(part: zipfile.ZipInfo) -> None:
    """A part is refused by its header, before it is unpacked."""
    if part.flag_bits & 1:
        raise TableError(f"{part.filename} in it is encrypted: save it without a password, or as CSV")
    if part.file_size > GREATEST_PART:
        what = f"{part.file_size:,} bytes unpacked, more than {GREATEST_PART:,}"
    elif part.file_size > max(SMALL_PART, GREATEST_RATIO * part.compress_size):
        what = f"{part.file_size:,} bytes unpacked, more than {GREATEST_RATIO} times its {part.compress_size:,} packed"
    else:
        return
    raise TableError(f"{part.filename} in it has {what}: {SHORT_WAY_OUT}")


def _look_at_elements(name: str, xml: bytes) -> None:
    """TableError is raised for a part with more than a spreadsheet writes, or with definitions of its own."""
    if name.endswith((".xml", ".rels")) and (b"\0" in xml[:4] or xml[:2] in (b"\xff\xfe", b"\xfe\xff")):
        raise TableError(f"{name} in it is not UTF-8: {SHORT_WAY_OUT}")
    if b"<!DOCTYPE" in xml:
        raise TableError(f"{name} in it has a document type definition: {SHORT_WAY_OUT}")
    if sum(1 for _ in _tag(b"si", xml).finditer(xml)) > GREATEST_STRINGS:
        raise TableError(f"{name} in it has more than {GREATEST_STRINGS:,} strings: {SHORT_WAY_OUT}")
    begins, cells = [row.start() for row in _tag(b"row", xml).finditer(xml)], _tag(b"c", xml)
    for number, (begin, end) in enumerate(zip(begins, [*begins[1:], len(xml)]), 1):
        _look_at_number(name, number)
        if xml.count(b"<", begin, end) > GREATEST_CELLS:
            if sum(1 for _ in cells.finditer(xml, begin, end)) > GREATEST_CELLS:
                what = f"more than {GREATEST_CELLS:,} cells: {SHORT_WAY_OUT}"
                raise TableError(f"row {number} of {name} in it has {what}")


def _look_at_number(name: str, number: int) -> None:
    if number > GREATEST_ROW:
        raise TableError(f"{name} in it has a row {number:,}, and the last possible row is {GREATEST_ROW:,}")


def _tag(name: bytes, xml: bytes) -> Pattern[bytes]:
    """Finds where elements of this name begin, whatever their prefix."""
    prefix = rb"(?:[^\s<>/:]+:)?" if b":" + name in xml else b""  # (which takes long to look for)
    return re.compile(b"<" + prefix + name + rb"(?=[\s/>])")


def _part_of_strings(reader: Any) -> str:
    """The part with the shared strings. openpyxl finds it by its kind, and a spreadsheet by its relationship."""
    from openpyxl.xml.constants import SHARED_STRINGS

    kind = reader.package.find(SHARED_STRINGS)
    part = kind.PartName[1:] if kind is not None else ""
    _look_at_part("shared strings are in", [one.target for one in reader.parser.rels.find(STRINGS)], part)
    return str(part)


def _look_at_workbook(reader: Any) -> None:
    """TableError is raised if the package names another part for its workbook than openpyxl has found by its kind."""
    if PACKAGE in reader.valid_files:
        named = [each for each in fromstring(reader.archive.read(PACKAGE)) if each.get("Type", "").endswith(DOCUMENT)]
        _look_at_part("workbook is", [each.get("Target", "") for each in named], reader.parser.workbook_part_name)


def _look_at_part(what: str, named: Iterable[str], part: str) -> None:
    """TableError is raised if one of the named parts is not this one. Letters of another case are the same."""
    for name in named:
        if normpath(name).lstrip("/").casefold() != part.casefold():
            raise TableError(f"its {what} {name[:40]}, which is not the part of this kind: {SHORT_WAY_OUT}")


def _recalculates(workbook: bytes) -> bool:
    """Whether spreadsheets calculate all formulas when they open the workbook, by its part of this name.

    Libraries that calculate none ask for that, or have not stated how formulas were calculated.
    """
    stated = next((each for each in fromstring(workbook) if each.tag == f"{NAMESPACE}calcPr"), None)
    if stated is None:
        return True
    return stated.get("fullCalcOnLoad") in ("1", "true") or stated.get("calcCompleted") in ("0", "false")


def _struck_styles(book: Any) -> AbstractSet[str]:
    """The numbers of the formats of cells whose font is struck through."""
    fonts = [bool(font.strike) for font in book._fonts]
    return {
        str(number) for number, style in enumerate(book._cell_styles) if any(fonts[style.fontId : style.fontId + 1])
    }


def _rows(sheet: Any, formulas: _Formulas, struck: _Struck = _Struck(frozenset(), [])) -> Iterator[List[Any]]:
    """The values of each row of a sheet, also of rows that it skips. TableError is raised for what openpyxl raises.

    `formulas` gets the cells whose values may not be those of their formulas, and `struck` the struck-through rows.
    """
    number = 0
    try:
        for row, parse_cell in _elements(sheet):
            before, number = number, _number(row.get("r", str(number + 1)))
            _look_at_number(sheet._worksheet_path, number)
            if number <= before:
                why = f"it follows row {before} in the workbook, which is damaged: save it again"
                raise TableError(why, row=number)
            yield from ([] for _ in range(before + 1, number))
            struck.look_at(row, number)
            yield _values(row, number, parse_cell, formulas)
    except Exception as error:
        raise _unreadable(error, number) from error


def _elements(sheet: Any) -> Iterator[Tuple[Element, ParseCell]]:
    """The elements of the rows of a sheet, each with what reads one of its cells."""
    from openpyxl.worksheet._reader import WorkSheetParser

    book = sheet.parent
    parser = WorkSheetParser(
        None, sheet._shared_strings, data_only=True, epoch=book.epoch, date_formats=book._date_formats
    )
    outside = 0
    with sheet._get_source() as part:
        for _, element in iterparse(part):
            if element.tag == f"{NAMESPACE}row":
                outside -= len(element.findall(f"{NAMESPACE}c"))
                yield element, parser.parse_cell
                element.clear()
            elif element.tag[-2:] in CELL_TAGS:
                outside += 1
    if outside:
        raise TableError(f"{sheet._worksheet_path} in it has cells that are in none of its rows: {SHORT_WAY_OUT}")


def _number(text: str) -> int:
    """The number of a row. What is no number is no row of a sheet, and the same as 0."""
    return int(text) if re.fullmatch(r"\s*-?[0-9]{1,20}\s*", text) else 0


def _values(row: Element, number: int, parse_cell: ParseCell, formulas: _Formulas) -> List[Any]:
    """The values of a row. Cells that have only a format are left out beyond the columns that a sheet can have."""
    from openpyxl.utils import column_index_from_string

    values: List[Any] = []
    at = -1
    for cell in row.iterfind(f"{NAMESPACE}c"):
        place = cell.get("r", "")
        column = place.rstrip("0123456789")
        if column and place[len(column) :] != str(number):
            raise TableError(f"its cell {place[:40]} belongs to another row: save the workbook again", row=number)
        before, at = at, column_index_from_string(column) - 1 if column else at + 1
        if at <= before:
            raise TableError("its cells are not in the order of their columns: save the workbook again", row=number)
        value = _value(cell, parse_cell)
        is_missing = _is_not_calculated(cell, value, formulas.recalculates)
        if is_missing:
            formulas.not_calculated.append((number, at))
        elif formulas.recalculates and value is not None and cell.find(FORMULA) is not None:
            formulas.recalculated.append((number, at))
        if at < GREATEST_COLUMNS or value is not None or is_missing:
            values += [*[None] * (at - len(values)), None if is_missing else value]
    return values


def _value(cell: Element, parse_cell: ParseCell) -> Any:
    """The value of a cell. A text in it is read without the objects of openpyxl, which take three times as long."""
    kind = cell.get("t", "n")
    child = cell.find(f"{NAMESPACE}is") if kind == "inlineStr" else None
    value = parse_cell(cell)["value"] if child is None else strings.text_of(child, f"cell {cell.get('r', '')}")
    if len(cell) > (value is not None) and _texts(cell) > (value is not None):
        raise TableError(f"its cell {cell.get('r', '')} {OTHER_TEXT}")
    if value is not None and not isinstance(value, str):
        _look_at_stored(cell)
    return strings.unescaped(value) if kind == "str" and value else value


def _look_at_stored(cell: Element) -> None:
    """TableError is raised for a number that Python reads and no spreadsheet does, such as 1_0."""
    stored = cell.findtext(f"{NAMESPACE}v", "")
    if "_" in stored or not stored.isascii():
        raise TableError(f"its cell {cell.get('r', '')} has {stored[:40]}, which is no number: save the workbook again")


def _texts(cell: Element) -> int:
    """How many elements of a cell have a text, except its formula."""
    return sum(any(map(str.strip, part.itertext())) for part in cell if part.tag != FORMULA)


def _is_not_calculated(cell: Element, value: Any, recalculates: bool) -> bool:
    """Whether a cell has a formula whose value is not stored. That of an empty text is stored as an empty one.

    If a spreadsheet recalculates it, 0 and "" are not taken for values.
    """
    if (value is not None and not recalculates) or cell.find(FORMULA) is None:
        return False
    kind, text = cell.get("t", "n"), cell.findtext(f"{NAMESPACE}v")
    if value is None:
        return recalculates or kind != "str" or text is None
    return kind == "n" and text is not None and float(text) == 0


def _chosen(book: Any, name: Optional[str], headings: Headings, fill_merged: bool) -> Tuple[Any, str]:
    """The sheet that is meant, and a note that names it."""
    if name is not None and name not in book.sheetnames:
        raise TableError(f"there is no sheet {name}: the sheets are {', '.join(book.sheetnames)}")
    sheets = [sheet for sheet in book.worksheets if name is None or sheet.title == name]
    if not sheets:
        raise TableError("the workbook has no sheet with cells")
    heads = {sheet.title: _head(sheet, fill_merged) for sheet in sheets} if len(sheets) > 1 else {}
    fits = [sheet for sheet in sheets if heads and headings.row_of(heads[sheet.title]) is not None]
    if len(fits) > 1:
        names = ", ".join(sheet.title for sheet in fits)
        remedy = "name one by --sheet" if headings.has_telegrams else "save the one that is meant as CSV"
        raise TableError(f"several sheets have the headings: {remedy}: {names}")
    likely = [sheet for sheet in sheets if any(map(is_data, heads.get(sheet.title, ())))]
    sheet = (fits or likely or sheets)[0]
    hidden = sheet.sheet_state != "visible"
    if hidden and name is None and (fits or headings.row_of(_head(sheet, fill_merged)) is not None):
        remedy = "name it by --sheet, or show it" if headings.has_telegrams else "show it"
        raise TableError(f"only the hidden sheet {sheet.title} has the headings: {remedy}")
    return sheet, f"the sheet is {sheet.title}{', which is hidden' * hidden}; hidden and filtered rows are read as well"


def _found_in_others(book: Any, chosen: Any, recalculates: bool) -> Dict[str, Found]:
    """What is found in the sheets that are not read, hidden ones among them."""
    found: Dict[str, Found] = {}
    for sheet in book.worksheets:
        try:
            found.update({sheet.title: _found(sheet, recalculates)} if sheet is not chosen else {})
        except Exception as error:
            fault = _unreadable(error)
            raise TableError(f"sheet {sheet.title}: {fault}") if isinstance(fault, TableError) else fault from error
    return found


def _found(sheet: Any, recalculates: bool) -> Found:
    """What is found in a sheet whose rows and cells may be in any order."""
    found, number = Found([], [], {}), 0
    rows: Dict[int, str] = {}
    for row, parse_cell in _elements(sheet):
        number, texts = _number(row.get("r", "")) or number + 1, []
        for cell in row.iterfind(f"{NAMESPACE}c"):
            value = _value(cell, parse_cell)
            texts.append(_text(value))
            found.formulas.extend([number] * _is_not_calculated(cell, value, recalculates))
        others = [text for text in texts if not is_telegram(text)]
        found.telegrams.extend([number] * (len(texts) - len(others)))
        rows[number] = " ".join(others)
        count = possible_digits(rows[number])
        found.possible.update({number: count} if count else {})
    numbers, below, known = list(rows), digits_in_rows([*rows.values()]), {*found.telegrams}
    found.possible.update({numbers[at]: count for at, count in below.items() if numbers[at] not in known})
    return found


def _head(sheet: Any, fill_merged: bool) -> List[List[str]]:
    """The first rows of a sheet, and one more."""
    values: List[List[Any]] = []
    try:
        values.extend(islice(_rows(sheet, _Formulas(False, [], [])), SEARCHED + 1))
    except TableError:  # (which is raised again if this sheet is read)
        pass
    rows = _cells(values, widest=None)
    if fill_merged:
        fill_heads(rows, _areas(_merged(sheet)))
    return rows


def _cells(values_of_rows: Iterable[List[Any]], widest: Optional[int] = GREATEST_COLUMNS) -> List[List[str]]:
    rows: List[List[str]] = []
    for number, values in enumerate(values_of_rows, 1):
        if widest is not None and len(values) > widest:
            raise TableError(f"it has more than {widest} columns: {SHORT_WAY_OUT}", row=number)
        rows.append([value if type(value) is str else _text(value) for value in values])
    return rows


def _merged(sheet: Any) -> List[str]:
    """The merged ranges of a sheet."""
    with sheet._get_source() as part:
        xml = part.read()
    ranges = re.findall(_tag(b"mergeCell", xml).pattern + REFERENCE, xml)
    return [area.decode("utf-8", "replace") for area in ranges]


def _notes(places: Sequence[str], what: str) -> List[str]:
    """A note on such places, if there are any."""
    return [what.format(count=len(places), first=places[0][:40])] if places else []


def _areas(references: Sequence[str]) -> Tuple[Area, ...]:
    """The merged areas of a sheet, as "C2:D5" names them."""
    from openpyxl.utils import range_boundaries

    areas: List[Area] = []
    for reference in references:
        try:
            left, top, right, bottom = range_boundaries(reference)
            areas.append((int(left), int(top), int(right), int(bottom)))
        except (TypeError, ValueError) as error:
            raise TableError(f"the merged range {reference[:40]} is invalid: save the workbook again") from error
    return tuple(areas)


def _text(value: Any) -> str:
    """A cell as text, with its kind if it is no text."""
    if isinstance(value, str):
        return value
    if value is None:
        return ""
    if isinstance(value, bool):
        return of_kind("truth value", str(value).upper())
    if isinstance(value, float) and math.isfinite(value):
        exact = Decimal(repr(value))
        whole = exact == exact.to_integral_value()
        return of_kind("number", str(int(exact)) if whole else f"{round(exact, PLACES).normalize():f}")
    if isinstance(value, (int, float)):
        return of_kind("number", str(value))
    return of_kind("date", str(value)) if isinstance(value, DATES) else str(value)

"""Cells of a CSV file, in the spellings that spreadsheets write."""
from __future__ import annotations

import csv
import io
import re
from itertools import islice
from typing import Callable, Iterator, List, Sequence, TextIO, Tuple

from balisekit.errors import TableError
from balisekit.expressions import expression
from balisekit.tables.cells import Sheet
from balisekit.tables.encoding import is_plain, text_of
from balisekit.tables.headings import SEARCHED, Headings

SEPARATORS = (";", "\t", ",")
OTHER_ENDS = "\v\f\x1c\x1d\x1e\x85\u2028\u2029"
GREATEST_CELL = 100_000
"""In characters."""
HEAD = 1 << 20
"""How many characters of a file that is read row by row are searched for its separator."""
SEPARATOR_LINE = expression("sep=.(?:\r\n|\r|\n)", re.IGNORECASE)


def read(content: bytes, headings: Headings = Headings()) -> Sheet:
    """The cells of a file, one of whose first rows has these headings."""
    text, encoding = text_of(content)
    notes = ("it is not UTF-8: it was read as Windows-1252",) if encoding == "windows-1252" else ()
    separator = ""
    if text[:4].lower() == "sep=" and text[5:6] in ("\r", "\n"):
        separator, text = text[4], text[5:].removeprefix("\r").removeprefix("\n")
    lines = _lines(text)
    separator = separator or _separator(lines, headings)
    return Sheet(encoding, separator, _rows(lines, separator), notes=notes)


def stream(content: bytes, headings: Headings) -> Tuple[Sheet, Callable[[], Iterator[List[str]]]]:
    """The first rows of a file, and a function that gives all its rows, which are read one by one."""
    if is_plain(content):
        encoding, text = "utf-8", ""
    else:
        text, encoding = text_of(content)

    def opened() -> TextIO:
        return io.StringIO(text, newline="") if text else io.TextIOWrapper(io.BytesIO(content), "utf-8-sig", newline="")

    head = opened().read(HEAD)
    named = re.match("sep=(.)\r?\n", head, re.IGNORECASE)
    separator = named[1] if named else _separator(_lines(head), headings)

    def rows() -> Iterator[List[str]]:
        file, number = opened(), 0
        if named:
            file.readline()
        try:
            for number, row in enumerate(csv.reader(file, delimiter=separator, strict=True), 1):
                yield row
        except csv.Error as error:
            raise TableError(_why(str(error)), row=number + 1) from error

    return Sheet(encoding, separator, list(islice(rows(), SEARCHED + 1))), rows


def lines_of_rows(content: bytes, separator: str) -> List[Tuple[int, int]]:
    """The first and the last line of each row of a file that has been read, counted from 1."""
    text, _ = text_of(content)
    file = io.StringIO(text, newline="")
    before = 0
    if SEPARATOR_LINE.match(text):
        file.readline()
        before = 1
    lines: List[Tuple[int, int]] = []
    rows, last = csv.reader(file, delimiter=separator, strict=True), before
    for _ in rows:
        lines.append((last + 1, before + rows.line_num))
        last = before + rows.line_num
    return lines


def _separator(lines: Sequence[str], headings: Headings) -> str:
    """The separator with which one of the first rows names all needed columns, or most columns, or has most cells."""
    best, most = ",", 0
    for separator in SEPARATORS:
        for row in _first_rows(lines, separator):
            found = headings.places(row).keys()
            known = len(found) + (len(headings.known) if found >= set(headings.needed) else 0)
            if known > most:
                best, most = separator, known
    return best if most else max((",", *SEPARATORS), key=lambda one: max(map(len, _first_rows(lines, one)), default=0))


def _first_rows(lines: Sequence[str], separator: str) -> Iterator[List[str]]:
    """The rows that may have the headings, up to one that this separator cannot read."""
    try:
        yield from islice(csv.reader(lines, delimiter=separator, strict=True), SEARCHED)
    except csv.Error:
        return


def _rows(lines: Sequence[str], separator: str) -> List[List[str]]:
    rows: List[List[str]] = []
    before = csv.field_size_limit(GREATEST_CELL)
    try:
        rows.extend(csv.reader(lines, delimiter=separator, strict=True))
    except csv.Error as error:
        raise TableError(_why(str(error)), row=len(rows) + 1) from error
    finally:
        csv.field_size_limit(before)
    return rows


def _lines(text: str) -> Sequence[str]:
    # (StringIO takes four bytes for each character, and splitlines ends lines at more characters than CSV does.)
    is_plain = not any(end in text for end in OTHER_ENDS)
    return text.splitlines(keepends=True) if is_plain else list(io.StringIO(text, newline=""))


def _why(error: str) -> str:
    """The words of the csv module, for a user."""
    if "unexpected end of data" in error:
        return "a quote is not closed"
    if "field limit" in error:
        return f"a cell has more than {GREATEST_CELL:,} characters"
    if "expected after" in error:
        return "a cell contains a quote: double it, and put the cell in quotes"
    return error

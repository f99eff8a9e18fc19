"""Counts the telegrams of a table in the plainest way: cell by cell, in all sheets. It uses nothing of balisekit."""
from __future__ import annotations

import csv
import io
import re
import unicodedata
from typing import Any, Dict, Iterator, List, NamedTuple, Optional, Set, Tuple

HEXADECIMAL = frozenset("0123456789abcdefABCDEF")
QUOTES = "\"'‘’“”„«»"
ZERO_WIDTH = "\u200b"
LARGE = "[0-9][eE][+]?[0-9]*[1-9][0-9]"
LEAST = 40
"""The fewest characters of a telegram."""
CHECKSUMS = (32, 40, 64, 96, 128)
"""How many digits usual checksums have."""
UUID = r"\b[0-9a-fA-F]{8}-[0-9a-fA-F]{4}-[0-9a-fA-F]{4}-[0-9a-fA-F]{4}-[0-9a-fA-F]{12}\b"
LINE_ENDS = frozenset("\n\r\v\f\x1c\x1d\x1e\x85\u2028\u2029")


class Place(NamedTuple):
    """A cell. A CSV file has no sheet. Rows are counted from 1, as in a spreadsheet, and columns from 0."""

    sheet: Optional[str]
    row: int
    column: int


Cells = Dict[Place, str]


class Known(NamedTuple):
    """Where a table has its telegrams, known by whoever has made it."""

    sheet: Optional[str]
    names: int
    """The row with the headings."""
    heading: int
    """The last row that merged headings cover."""
    column: int


def bare(text: str) -> str:
    """The text without blanks, quotes around it, 0x, a final h, and colons or hyphens between pairs."""
    rest = "".join(each for each in text if not each.isspace() and each not in ZERO_WIDTH).strip(QUOTES)
    rest = rest[2:] if rest[:2].lower() == "0x" else rest
    rest = rest[:-1] if rest[-1:].lower() == "h" else rest
    for separator, other in ((":", "-"), ("-", ":")):
        parts = rest.split(separator)
        if other not in rest and {len(part) for part in parts} == {2}:
            return "".join(parts)
    return rest


def is_telegram(text: str) -> bool:
    """Whether a cell has at least 40 characters of which nine of ten are hexadecimal digits, and is no number list.

    A UUID, and up to four checksums of one length, are dropped from it.
    """
    own = without_checksums(re.sub(UUID, "", text)).strip()
    has_letter = any(each.lower() in "abcdef" for each in bare(own))
    return are_digits(bare(own)) and (has_letter or own.isdecimal())


def without_checksums(text: str) -> str:
    """The text without words that have as many digits as checksums have, unless five have the same length.

    A word that looks like a telegram with fill, or like the first digits of one, stays.
    """
    words = re.findall(r"[^\W_]+", text)
    sums = [word for word in words if HEXADECIMAL.issuperset(word) and len(word) in CHECKSUMS]
    if any(sum(len(each) == len(word) for each in sums) > 4 for word in sums):
        return text
    parts = re.split(r"([^\W_]+)", text)
    rests = ("".join(parts[at + 1 :]) for at in range(len(parts)))
    return "".join("" if part in sums and not begins_telegram(part, rest) else part for part, rest in zip(parts, rests))


def begins_telegram(word: str, rest: str) -> bool:
    """Whether a word begins with a header of a telegram, and ends with fill or has ten digits with letters after it."""
    bits = f"{int(word, 16):0{4 * len(word)}b}"
    media, position, total, duplicate = bits[8], int(bits[9:12], 2), int(bits[12:15], 2), int(bits[15:17], 2)
    is_header = word[:2].lower() in ("a0", "a1", "90", "91") and media == "0" and position <= total and duplicate < 3
    after = sum(len(group) for group in groups_of(rest) if not group.isdecimal())
    return is_header and (word.lower().endswith(("ffff", "0000")) or after >= 10)


def are_digits(text: str) -> bool:
    """Whether a text has at least 40 characters of which nine of ten are hexadecimal digits."""
    return len(text) >= LEAST and 10 * sum(each in HEXADECIMAL for each in text) >= 9 * len(text)


def could_hold(text: str) -> bool:
    """Whether a text has a run of 13 digits with a letter, or groups with 40 digits, of which four are letters.

    A single digit counts as two, and a number counts if a group of its length has a letter.
    """
    rest = without_checksums(re.sub(UUID, "", unicodedata.normalize("NFKC", text)))
    runs = "".join(each if each in HEXADECIMAL else " " for each in re.sub("0[xX]", " ", rest)).split()
    if any(len(run) >= 13 and not run.isdecimal() for run in runs):
        return True
    groups = [group.rjust(2, "0") for group in groups_of(rest)]
    lengths = {len(group) for group in groups if not group.isdecimal()}
    digits = "".join(group for group in groups if len(group) in lengths)
    return len(digits) >= LEAST and sum(each.isalpha() for each in digits) >= 4


def groups_of(text: str) -> List[str]:
    """The hexadecimal digits between characters that are neither letters nor digits, without 0x, x, h and the like."""
    plain = text.replace("0x", " ").replace("0X", " ")
    groups = "".join(each if each.isalnum() else " " for each in plain).split()
    return [group for group in map(unmarked, groups) if group and HEXADECIMAL.issuperset(group)]


def unmarked(group: str) -> str:
    """A group without what tells that its digits are hexadecimal."""
    small = group.lower()
    for before, after in (("x", "h"), ("x", ""), ("h", ""), ("", "h")):
        digits = small[len(before) : len(small) - len(after)]
        if f"{before}{digits}{after}" == small and HEXADECIMAL.issuperset(digits):
            return digits
    return group


def cells_of_csv(content: bytes, encoding: str, separator: str) -> Cells:
    """All cells of a CSV file. A first line that names the separator is not a row."""
    text = content.decode(encoding)
    begin = io.StringIO(text, newline="")
    if text[:4].lower() == "sep=":
        begin.readline()
    rows = csv.reader(begin, delimiter=separator)
    return {Place(None, row, at): cell for row, cells in enumerate(rows, 1) for at, cell in enumerate(cells)}


def cells_of_workbook(content: bytes) -> Cells:
    """All cells of all sheets, whatever their state."""
    import openpyxl

    book = openpyxl.load_workbook(io.BytesIO(content), read_only=True, data_only=True)
    return {place: text for sheet in book.worksheets for place, text in _cells_of_sheet(sheet)}


def unknown_formulas(content: bytes) -> Set[Place]:
    """The formulas of a workbook whose values are not stored."""
    import openpyxl

    book = openpyxl.load_workbook(io.BytesIO(content), read_only=True)
    cells = {place: text for sheet in book.worksheets for place, text in _cells_of_sheet(sheet)}
    known = cells_of_workbook(content)
    return {place for place, text in cells.items() if text.startswith("=") and place not in known}


def _cells_of_sheet(sheet: Any) -> Iterator[Tuple[Place, str]]:
    sheet.reset_dimensions()  # (the size that a workbook states may be wrong)
    for number, row in enumerate(sheet.iter_rows(values_only=True), 1):
        for at, value in enumerate(row):
            if value is not None:
                yield Place(sheet.title, number, at), _text(value)


def _text(value: object) -> str:
    """A cell as text. A whole number has all its digits: it may be a telegram that the spreadsheet has changed."""
    return str(int(value)) if isinstance(value, float) and value.is_integer() else str(value)


def telegrams(cells: Cells, known: Known) -> Set[Place]:
    """The cells that are telegrams by their text, or in the column of telegrams of a row that is read."""
    by_text = {place for place, text in cells.items() if is_telegram(text)}
    return by_text | {Place(known.sheet, row, known.column) for row in rows_read(cells, known)}


def possible(cells: Cells, known: Known, joined: Set[int]) -> Set[Tuple[Optional[str], int]]:
    """The sheets and rows that could hold a telegram in cells that are none.

    Cells by themselves can hold one, and together those of a row of another sheet, or in these columns of the table.
    """
    rows: Dict[Tuple[Optional[str], int], List[str]] = {}
    found = set()
    for place, text in cells.items():
        is_own = place.sheet == known.sheet
        if is_telegram(text) or is_own and (place.row <= known.heading or place.column == known.column):
            continue
        if could_hold(text) or re.search(LARGE, without_checksums(text)):
            found.add((place.sheet, place.row))
        if not is_own or place.column in joined:
            rows.setdefault((place.sheet, place.row), []).append(text)
    return found | {row for row, texts in rows.items() if could_hold(" ".join(texts))}


def rows_read(cells: Cells, known: Known) -> List[int]:
    """The rows below the heading that are not empty."""
    filled = {
        place.row
        for place, text in cells.items()
        if place.sheet == known.sheet and place.row > known.heading and text.strip()
    }
    return sorted(filled)


def swallowed(cells: Cells) -> Set[Place]:
    """The cells that contain line ends and could hold telegrams: rows that a quote has swallowed."""
    with_ends = ((place, text) for place, text in cells.items() if not LINE_ENDS.isdisjoint(text))
    return {place for place, text in with_ends if is_telegram(text) or could_hold(text)}

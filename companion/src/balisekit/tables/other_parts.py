"""Telegrams in a workbook that are in no cell: in comments, text boxes, headers of pages, lists, embedded files."""
from __future__ import annotations

import html
import io
import re
import zipfile
from typing import Callable, Collection, Iterator, List, NamedTuple
from xml.etree.ElementTree import Element, ParseError, iterparse

from balisekit.errors import TableError
from balisekit.tables.unread_digits import could_hold_telegram

RUNS = frozenset("r t p fld font span div a b i u s".split())
"""The elements of a formatted text, in each of the formats that a workbook has."""
TAG = re.compile(rb"<[^>]*>")
ROWS = re.compile(rb"<(?:[^\s<>/:]+:)?sheetData(?=[\s>])")
END_OF_ROWS = re.compile(rb"</(?:[^\s<>/:]+:)?sheetData\s*>")
PHONETIC = re.compile(rb"<(?:[^\s<>/:]+:)?rPh[\s>].*?</(?:[^\s<>/:]+:)?rPh\s*>", re.DOTALL)
"""How a text is pronounced."""
FORMULA = re.compile(
    rb"<(?:[^\s<>/:]+:)?f(?:\s[^>]*)?>([^<]{40,})</(?:[^\s<>/:]+:)?f\s*>\s*(?:<(?:[^\s<>/:]+:)?v[^>]*>([^<]*))?"
)
"""A formula that has room for a telegram, and its value."""
WITHOUT_TEXT = re.compile(
    r".*\.rels|xl/(media|printerSettings|fonts)/.*|docProps/thumbnail\..*|_xmlsignatures/.*", re.IGNORECASE
)
"""Addresses of parts, pictures, the settings of printers, and signatures."""
NO_TEXTS = ("sqref",)
"""Attributes with names of cells, which have hexadecimal digits."""
CONTENT_TYPE = re.compile("0x01[0-9A-Fa-f]*")
"""What SharePoint calls a kind of documents. No telegram begins with 01, which would be version 0.1."""
LookAtParts = Callable[[bytes], None]
"""Raises TableError for an embedded workbook or document that takes too long to read."""


class Beside(NamedTuple):
    """What a workbook has beside its cells."""

    telegrams: List[str]
    """The part of each telegram."""
    not_searched: List[str]
    """The parts that are no XML, such as macros and embedded objects."""


def beside_cells(content: bytes, sheets: Collection[str], strings: str, look_at: LookAtParts) -> Beside:
    """The telegrams of a workbook that are in none of its cells. Its sheets and shared strings are in these parts."""
    found = Beside([], [])
    with zipfile.ZipFile(io.BytesIO(content)) as parts:
        for name in parts.namelist():
            if WITHOUT_TEXT.fullmatch(name):
                continue
            part = parts.read(name)
            if part.startswith(b"PK\x03\x04"):
                _add_embedded(found, name, part, look_at)
            elif part and not _is_xml(part):
                found.not_searched.append(name)
            else:
                texts = _beside_values(part, name in sheets) if name in (*sheets, strings) else _texts(part)
                found.telegrams.extend([name] * sum(map(_could_hold, texts)))
    return found


def _add_embedded(found: Beside, name: str, part: bytes, look_at: LookAtParts) -> None:
    """Adds what an embedded workbook or document has, with its cells."""
    try:
        look_at(part)
        embedded = beside_cells(part, (), "", _look_at_none)
    except (TableError, zipfile.BadZipFile):
        found.not_searched.append(name)
        return
    found.telegrams.extend([name] * len(embedded.telegrams))
    found.not_searched.extend([name] * bool(embedded.not_searched))


def _look_at_none(_: bytes) -> None:
    """Raises TableError: files in an embedded file are not read."""
    raise TableError("it is embedded in an embedded file")


def _could_hold(text: str) -> bool:
    return could_hold_telegram(text) and not CONTENT_TYPE.fullmatch(text.strip())


def _is_xml(part: bytes) -> bool:
    return part.lstrip(b"\xef\xbb\xbf\xff\xfe\0 \t\r\n").startswith(b"<")


def _beside_values(part: bytes, is_sheet: bool) -> Iterator[str]:
    """The texts of a sheet or of the shared strings that are no values of cells."""
    for phonetic in PHONETIC.findall(part) if b"rPh" in part else ():
        yield from _texts(phonetic)
    for formula, value in FORMULA.findall(part):
        yield _decoded(formula.replace(value, b"") if value else formula)
    begin, end = ROWS.search(part), END_OF_ROWS.search(part, max(0, part.rfind(b"sheetData") - 100))
    if is_sheet:
        yield from _texts(part[: begin.start()] + part[end.end() :] if begin and end else part)


def _texts(part: bytes) -> List[str]:
    """The texts of a part: each attribute, and each text with those of its runs joined."""
    texts: List[str] = []
    try:
        for _, element in iterparse(io.BytesIO(part)):
            texts += [value for name, value in element.attrib.items() if name not in NO_TEXTS]
            if _name(element) not in RUNS:
                texts.append("".join(_runs(element)))
                element.clear()
    except ParseError:  # (old drawings need not be well-formed)
        return [_decoded(TAG.sub(b"", part))]
    return texts


def _decoded(text: bytes) -> str:
    return html.unescape(text.decode("utf-8", "replace"))


def _runs(element: Element) -> Iterator[str]:
    """The text of an element, and those of its runs."""
    yield element.text or ""
    for child in element:
        if _name(child) in RUNS:
            yield from _runs(child)
        yield child.tail or ""


def _name(element: Element) -> str:
    return element.tag.rpartition("}")[2]

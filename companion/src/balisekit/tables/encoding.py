"""The text of a file whose encoding is not known."""
from __future__ import annotations

import codecs
from typing import Tuple

from balisekit.errors import TableError
from balisekit.expressions import expression

ZIPS = (b"PK\x03\x04", b"PK\x05\x06")
OLD_WORKBOOK = b"\xd0\xcf\x11\xe0"
WORKBOOKS = (*ZIPS, OLD_WORKBOOK)
"""The beginning of a zip, such as an .xlsx, and that of an .xls or of a workbook with a password."""
TWO_ENCODINGS = "it has two encodings"
PIECE = 1 << 20
ZEROS_WITHIN = 100
"""How many bytes are searched for the zeros that show UTF-16 without a mark."""
ONE_BYTE_EACH = expression(rb"(?:[\t\n\r -~]|\xc2?\xa0|\xe2\x80[\x80-\xaf]){40}")
"""What UTF-16 does not have, whose digits have a zero beside them: UTF-8 or Windows-1252, also with wide blanks."""
SWAPPED = expression("\ufffe|[" + "".join(f"\\u{each:02x}00" for each in (9, 10, 13, *range(32, 127), 160)) + "]{20}")
"""UTF-16 whose bytes are in the other order."""
UTF_8_WITHIN = expression(
    rb"\xc2[\xa0-\xbf]|\xc3[\x80-\xbf]|\xe2\x80[\x80-\xbf]|\xef\xbb\xbf|(?:[\xc4-\xdf][\x80-\xbf]){4}"
)
"""Letters and marks of UTF-8 that are no words in Windows-1252, such as "Ã¼"."""


def text_of(content: bytes) -> Tuple[str, str]:
    """The text, and the name of its encoding."""
    if content.startswith(ZIPS):
        raise TableError("it is a workbook or another zip: save it as text, such as CSV")
    text, encoding = _decoded(content)
    if "\0" in text:
        raise TableError(f"character {text.index(chr(0)) + 1} is NUL: this is no text file")
    return text, encoding


def is_plain(content: bytes) -> bool:
    """Whether it is UTF-8 without a NUL, which can be decoded piece by piece."""
    if b"\0" in content or content.startswith(ZIPS):
        return False
    decoder = codecs.getincrementaldecoder("utf-8")()
    try:
        for begin in range(0, len(content), PIECE):
            decoder.decode(content[begin : begin + PIECE])
        decoder.decode(b"", True)
    except UnicodeDecodeError:
        return False
    return True


def _decoded(content: bytes) -> Tuple[str, str]:
    if content.startswith((b"\xff\xfe\0\0", b"\0\0\xfe\xff")):
        raise TableError("it is UTF-32: save it as UTF-8")
    if content.startswith((b"\xff\xfe", b"\xfe\xff")):
        return _utf_16(content, "utf-16"), "utf-16"
    head = content[:ZEROS_WITHIN]
    if len(head) > 3 and not any(head[1::2]) and all(head[::2]):
        return _utf_16(content, "utf-16-le"), "utf-16"
    if len(head) > 3 and not any(head[::2]) and all(head[1::2]):
        return _utf_16(content, "utf-16-be"), "utf-16"
    try:
        return content.decode("utf-8-sig"), "utf-8"
    except UnicodeDecodeError as error:
        found = UTF_8_WITHIN.search(content)
        if found:
            at, other = sorted((found.start(), error.start))
            raise TableError(f"{TWO_ENCODINGS}, such as those of bytes {at} and {other}: save it as UTF-8") from error
        return _strict(content, "cp1252"), "windows-1252"


def _utf_16(content: bytes, encoding: str) -> str:
    """The text of a file that is UTF-16 to its end."""
    text = _strict(content, encoding)
    found, swapped = ONE_BYTE_EACH.search(content), SWAPPED.search(text)
    if found or swapped:
        at = found.start() if found else 2 * swapped.start() if swapped else 0
        raise TableError(f"{TWO_ENCODINGS}: it begins as UTF-16, and byte {at} is none: save it as UTF-8")
    return text


def _strict(content: bytes, encoding: str) -> str:
    try:
        return content.decode(encoding)
    except UnicodeDecodeError as error:
        byte = content[error.start]
        known = "it is neither UTF-8 nor Windows-1252" if encoding == "cp1252" else "it begins like UTF-16, but is not"
        raise TableError(f"{known}: byte {byte:02x} at {error.start}: save it as UTF-8") from error

"""The texts of a workbook: shared strings, and those that a cell has itself."""
from __future__ import annotations

import re
from typing import Any, Iterable, List, Match, Set
from xml.etree.ElementTree import Element, iterparse

from balisekit.errors import TableError
from balisekit.tables.unread_digits import could_hold_telegram

NAMESPACE = "{http://schemas.openxmlformats.org/spreadsheetml/2006/main}"
STRING, PLAIN, RUN, READ_ALOUD = (f"{NAMESPACE}{name}" for name in ("si", "t", "r", "rPh"))
"""The elements of a shared string, a plain text, a run with a format of its own, and how a text is pronounced."""
OTHER_TEXT = "has a text that is not its value: save the workbook again"
ESCAPED = re.compile("_x(00(?:0[1-9A-Fa-f]|1[0-9A-Fa-f]|5[Ff]))_")
"""A control character in a text, such as a carriage return, which XML lacks, or the `_` of a text like such a one."""


class Strings(List[str]):
    """Shared strings, of which none is counted from the end, and which of them a cell has."""

    def __init__(self, strings: Iterable[str]) -> None:
        super().__init__(strings)
        self.used: Set[int] = set()

    def __getitem__(self, index: Any) -> Any:
        if index < 0:
            raise IndexError(f"shared string {index}")
        self.used.add(index)
        return super().__getitem__(index)

    def telegrams_of_no_cell(self) -> int:
        """How many strings that no cell has could hold a telegram."""
        return sum(could_hold_telegram(text) for index, text in enumerate(self) if index not in self.used)


def read(reader: Any) -> None:
    """Reads the shared strings in place of openpyxl's reader, which drops a text that it does not expect in one."""
    from openpyxl.xml.constants import SHARED_STRINGS

    kind = reader.package.find(SHARED_STRINGS)
    if kind is None:
        return
    with reader.archive.open(kind.PartName[1:]) as part:
        for _, element in iterparse(part):
            if element.tag == STRING:
                reader.shared_strings.append(text_of(element, f"shared string {len(reader.shared_strings)}"))
                element.clear()


def text_of(element: Element, name: str) -> str:
    """The text of a string, plain or of several runs. TableError is raised if it has other texts beside that."""
    plain = element.find(PLAIN)
    runs = [run.find(PLAIN) for run in element.iterfind(RUN)] if plain is None else [plain]
    text = "".join(run.text or "" for run in runs if run is not None)
    is_simple = plain is not None and len(element) == 1 and not (len(plain) or plain.tail or element.text)
    if not is_simple and _all_texts(element) != "".join(text.split()):
        raise TableError(f"its {name} {OTHER_TEXT}")
    return unescaped(text)


def _all_texts(element: Element) -> str:
    """All texts of a string but how it is pronounced, without blanks."""
    texts = [element.text or ""]
    for part in element:
        texts += [*(() if part.tag == READ_ALOUD else part.itertext()), part.tail or ""]
    return "".join("".join(texts).split())


def unescaped(text: str) -> str:
    """A text with the control characters that a workbook has as their numbers."""
    return ESCAPED.sub(_character, text) if "_x00" in text else text


def _character(found: Match[str]) -> str:
    """The character that a workbook has as its number."""
    return chr(int(found[1], 16))

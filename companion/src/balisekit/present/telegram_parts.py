"""A telegram in words for a report, which does not repeat what an earlier telegram of the same balise contains."""
from __future__ import annotations

import re
from itertools import zip_longest
from typing import Collection, Dict, Hashable, List, Optional, Sequence, Tuple

from balisekit.drawing.svg import escaped
from balisekit.etcs.places import Here
from balisekit.etcs.variables import Around, Form, in_order, value_texts, words_of
from balisekit.present.telegram_text import LABEL_WIDTH, head_text, packet_text
from balisekit.tables.names import short_ordinal

LABELS = re.compile(f"^(.{{{LABEL_WIDTH - 1}}}) ", re.M)
"""The labels in front of a telegram's values, and the blanks after them."""
LINES, VALUES, NOTE = re.compile("\n(?!\t)"), re.compile("  |\n\t"), re.compile("(?:  |\n\t)(?== )")
"""What is between the lines of a packet, between the values of a line, which may be broken, and before its note."""
OTHER = 2
"""The most values of a header that can differ, if only these are shown."""


class Said:
    """What earlier telegrams of one balise contain. Packets are taken for equal if they are one object."""

    def __init__(self) -> None:
        self.first = ""
        """The row whose header was written out."""
        self._header: Form = {}
        self._telegrams: Dict[Hashable, str] = {}
        self._packets: Dict[int, Tuple[str, int]] = {}
        self._whole: Dict[int, Tuple[str, int, str]] = {}
        """By NID_PACKET, the first packet that was written out."""

    def header(self, row: str, form: Form) -> Optional[str]:
        """What follows a link that replaces the header: values that differ, else M_MCOUNT; None if many differ."""
        if not self.first:
            self.first, self._header = row, form
            return None
        known = self._header
        others = [key for key, value in form.items() if known.get(key) != value and key != "packets"]
        if form.keys() != known.keys() or len(others) > OTHER or not all(map(words_of, others)):
            return None
        but = " and ".join(value_texts(in_order(others), form, Around()))
        counter = [key for key in form if key == "m_mcount"]
        also = "".join(f", {words} too" for words in value_texts(counter, form, Around()))
        return f", but {but}\n" if but else f"{also}\n"

    def telegram(self, row: str, header: Optional[str], packets: Sequence[object]) -> str:
        """The earlier row whose telegram has this header and these packets, or nothing."""
        is_same = row == self.first or header is not None and " but " not in header
        first = self._telegrams.setdefault(("" if is_same else header or row, *map(id, packets)), row)
        return first if first != row else ""

    def packet(self, row: str, place: int, packet: Form, words: str) -> str:
        """A packet in words, or a link instead of several lines, if an earlier row has it or a similar one."""
        first, first_place = self._packets.setdefault(id(packet), (row, place))
        if words.count("\n") == 1:
            return words
        but = "\n"
        if first == row:
            first, first_place, known = self._whole.setdefault(packet["nid_packet"], (row, place, words))
            but = "" if first == row else changes(words, known)
        if not but or 3 * len(but) > 2 * len(words):
            return words
        label, _, values = words.partition("\t")
        name, which = VALUES.split(values, maxsplit=1)[0], f"the {short_ordinal(first_place)} packet of " * (
            place != first_place
        )
        return f"{label}\t{name}: as {which or 'in '}{link(first)}{but}"


def changes(words: str, known: str) -> str:
    """The values of a packet that differ from a known one, by lines: nothing unless it has all lines of the known one.

    Labels name the lines, so it is also nothing if two lines have the same label.
    """
    lines, others = ([_values(line) for line in LINES.split(each[:-1])] for each in (words, known))
    lines[0][0] = others[0][0] = ""
    names = list(map(_names, lines[: len(others)]))
    if names != list(map(_names, others)) or len({line[0] for line in lines}) < len(lines):
        return ""
    found, nothing = [", but\n"], [""]
    for (label, *values), before in zip_longest(lines, others, fillvalue=nothing):
        new = "  ".join(value for value, other in zip_longest(values, before[1:]) if value != other)
        found += [f"{label}\t{new}\n"] if new else []
    return "".join(found)


def _values(line: str) -> List[str]:
    """The label of a line, its values and its note."""
    label, _, rest = line.partition("\t")
    values, *note = NOTE.split(rest, maxsplit=1)
    return [label, *VALUES.split(values), *note]


def _names(values: Sequence[str]) -> List[str]:
    return [values[0], *(value.partition(" ")[0] for value in values[1:])]


def link(row: str) -> str:
    """A link to the telegram of a row."""
    return f"<a href=#r{row}>row {row}</a>"


def packet_id(telegram: str, packet: int) -> str:
    """The id of a packet in the page."""
    return f"{telegram}p{packet}"


def telegram_words(
    form: Form, here: Here, id: str, marked: Collection[int], row: str = "", said: Optional[Said] = None
) -> str:
    """A telegram or message in words for a page, with these packets marked.

    `said` has what earlier telegrams of its balise contain. Marked packets are always written out. So are packets
    whose notes are of some aspects only.
    """
    packets, said = form["packets"], said or Said()
    header = said.header(row, form)
    same = "" if marked or here.passages else said.telegram(row, header, packets)
    if same:
        return f"everything as in {link(same)}\n"
    found = [head_text(form, _in_page) if header is None else f"header\tas in {link(said.first)}{escaped(header)}"]
    for place, packet in enumerate(packets):
        words = packet_text(form, place, here, _in_page)
        if place in marked:
            found.append(f"<mark id={packet_id(id, place)}>{words}</mark>")
        else:
            found.append(words if place in here.passages else said.packet(row, place, packet, words))
    return "".join(found)


def _in_page(words: str) -> str:
    """Words with a tab before the values of each line: blanks would be a sixth of the page."""
    return LABELS.sub(lambda label: label[1].rstrip() + "\t", escaped(words))

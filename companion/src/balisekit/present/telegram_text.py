"""A telegram or radio message in words: each number of the program's JSON with its name, unit and raw value.

Lines are made from the JSON itself, so nothing of it is left out. What follows ` = ` is balisekit's own. So are the
variables of packets that the program keeps as bits.
"""
from __future__ import annotations

import textwrap
from functools import lru_cache
from typing import Callable, Dict, List, Mapping, NamedTuple, Sequence, Tuple, Union

from balisekit.etcs.geometry import Kilometres
from balisekit.etcs.holes import Holes, Kept, Pattern
from balisekit.etcs.places import Here
from balisekit.etcs.raw_packets import content_of, with_content
from balisekit.etcs.variables import Around, Form, Values, in_order, label_of, value_texts, words_of
from balisekit.tables.names import short_ordinal

WIDTH = 118
LABEL_WIDTH = 22
END_SECTION = "l_endsection"
"""What follows it in an authority belongs to its end section."""
KEPT: Kept[Pattern] = Kept(1 << 12)
"""Packets in words: many telegrams of a line have the same ones."""
LEGEND = (
    "Raw values are in square brackets. Packets and their items are counted from 0, as in the program's lines. "
    "What follows a = is worked out by balisekit: places are sums of distances, counted from the group."
)


class Shown(NamedTuple):
    """One value of the JSON."""

    path: str
    """Where the JSON has it: `/packets/1/q_dir`."""
    raw: Union[int, str]
    text: str
    """The standard's name of the variable, the value with its unit or name, and the number, if that isn't all."""


class TextLine(NamedTuple):
    """Some values under one label, and what balisekit works out of them."""

    depth: int
    label: str
    path: str
    """Where the JSON has the object of the values."""
    keys: Sequence[str]
    form: Values
    """The object."""
    texts: Sequence[str]
    anchor: str = ""
    """Where the JSON has what its note is about."""
    note: str = ""

    @property
    def values(self) -> List[Shown]:
        """The values one by one."""
        return [Shown(f"{self.path}/{key}", self.form[key], words) for key, words in zip(self.keys, self.texts)]


def form_lines(form: Form, here: Here = Here()) -> List[TextLine]:
    """The lines of a telegram, or of a radio message."""
    lines, from_track = _head_lines(form), form.get("nid_message") != 136
    for place, packet in enumerate(form["packets"]):
        found, notes = _packet_lines(place, packet, here, from_track)
        lines += [line._replace(note=notes[line.anchor]) if line.anchor in notes else line for line in found]
    return lines


def _head_lines(form: Form) -> List[TextLine]:
    """The lines of what is before the packets."""
    head = {key: value for key, value in form.items() if key != "packets"}
    lines = _Lines()
    lines.add("message" if "nid_message" in form else "header", 0, head, "", Around())
    return lines.found


def _packet_lines(place: int, packet: Form, here: Here, from_track: bool) -> Tuple[List[TextLine], Dict[str, str]]:
    """The lines of a packet, and notes by their anchors. Distances from train to track count from no group."""
    content, path = content_of(packet, from_track), f"/packets/{place}"
    notes = here.notes(place, packet) if from_track else {}
    notes.update({"/body": content.words} if content else {})
    lines = _Lines()
    label, around = f"packet {packet['nid_packet']}, {short_ordinal(place)}", Around(from_track=from_track)
    lines.add(label, 1, with_content(packet, from_track), path, around)
    return lines.found, {f"{path}{own}": note for own, note in notes.items()}


@lru_cache(maxsize=1024)
def _steps(keys: Tuple[str, ...]) -> List[Tuple[Tuple[str, ...], str]]:
    """The keys of an object in the order of the standard: those whose values share a line, or the key of a part.

    Objects have few sets of keys. The value of an unknown key can be anything, so the key is taken for a part.
    """
    steps: List[Tuple[Tuple[str, ...], str]] = []
    for key in in_order(keys):
        if words_of(key) is None:
            steps.append(((), key))
        elif key == END_SECTION or not steps or steps[-1][1]:
            steps.append(((key,), ""))
        else:
            steps[-1] = ((*steps[-1][0], key), "")
    return steps


class _Lines:
    """Goes through the objects of a telegram or message. One list is faster than nested generators."""

    def __init__(self) -> None:
        self.found: List[TextLine] = []

    def add(self, label: str, depth: int, form: Values, path: str, around: Around) -> None:
        """The lines of an object: its values up to its first part, that part, and so on."""
        inner, anchor = around.inside(form), path
        for keys, part in _steps(tuple(form)):
            if not keys:
                self.part(part, depth + 1, form, path, inner)
                continue
            if keys[0] == END_SECTION:
                label, anchor, depth = "end section", f"{path}/{END_SECTION}", depth + 1
            self.found.append(TextLine(depth, label, path, keys, form, value_texts(keys, form, inner), anchor))
            label, anchor = "", ""

    def part(self, part: str, depth: int, form: Values, path: str, around: Around) -> None:
        """The lines of a part of an object."""
        name, value, where = label_of(part), form[part], f"{path}/{part}"
        if isinstance(value, list):
            for place, item in enumerate(value):
                item = item if isinstance(item, dict) else {name: item}
                self.add(f"{name} {place}", depth, item, f"{where}/{place}", around)
        elif isinstance(value, dict):
            self.add(name, depth, value, where, around)
        else:
            self.found.append(TextLine(depth, "", path, (part,), form, value_texts((part,), form, around), where))


def _text_of(line: TextLine, note: str) -> str:
    """The line as text, broken if it is too long, but never between a name and its raw value."""
    words, length = _broken(line.depth, line.label, tuple(line.texts))
    if not note:
        return words
    note, indent = f"= {note}", " " * LABEL_WIDTH
    if length + 2 + len(note) <= WIDTH:
        return f"{words}  {note}"
    if LABEL_WIDTH + len(note) <= WIDTH:  # (textwrap is slow, and most notes need one line)
        return f"{words}\n{indent}{note}"
    lines = textwrap.wrap(note, WIDTH, initial_indent=indent, subsequent_indent=indent + "  ")
    return "\n".join([words, *lines])


@lru_cache(maxsize=1 << 12)
def _broken(depth: int, label: str, texts: Tuple[str, ...]) -> Tuple[str, int]:
    """Values after their label, and the length of their last line. Most are repeated, so they are kept."""
    lines, indent = [_label(depth, label) + "".join(texts[:1])], " " * LABEL_WIDTH
    for value in texts[1:]:
        if len(lines[-1]) + 2 + len(value) > WIDTH:
            lines.append(indent + value)
        else:
            lines[-1] += f"  {value}"
    return "\n".join(lines), len(lines[-1])


@lru_cache(maxsize=1024)
def _label(depth: int, label: str) -> str:
    """A label, indented and padded."""
    text = f"{'  ' * depth}{label}"
    return f"{text:<{LABEL_WIDTH}}" if len(text) < LABEL_WIDTH else f"{text} "


Finish = Callable[[str], str]
"""Makes what is kept of a packet's words. It must not change what is between the words of a line."""


def head_text(form: Form, finish: Finish = str) -> str:
    """The head of a telegram or radio message in words."""
    return finish(_text(_head_lines(form)))


def packet_text(form: Form, place: int, here: Here = Here(), finish: Finish = str) -> str:
    """The packet with this index in words. Packets that are one object are made once."""
    packet, from_track = form["packets"][place], form.get("nid_message") != 136
    if place in here.passages or isinstance(here.kilometres, Holes):
        return finish(_text(*_packet_lines(place, packet, here, from_track)))

    def make(holes: Kilometres) -> Pattern:
        return Pattern(finish(_text(*_packet_lines(place, packet, Here(holes), from_track))))

    pattern, kilometres = KEPT.of((place, id(packet), from_track, finish), packet, here.kilometres, make)
    return pattern.filled(kilometres)


def _text(lines: Sequence[TextLine], notes: Mapping[str, str] = {}) -> str:
    return "".join([f"{_text_of(line, notes.get(line.anchor, ''))}\n" for line in lines])


def text(form: Form, here: Here = Here()) -> str:
    """A telegram, or a radio message, as text of several lines."""
    packets = [packet_text(form, place, here) for place in range(len(form["packets"]))]
    return "".join([head_text(form), *packets])[:-1]

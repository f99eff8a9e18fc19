"""Packets that the program keeps as bits, read by balisekit's own layouts. No proof covers what is read here.

A packet whose layout is known gets the keys of its variables beside `nid_packet`, `q_dir`, `l_packet` and `body`, as
the program's JSON has them for packets that it reads: so they are shown, compared and written as all others are.
"""
from __future__ import annotations

from contextlib import suppress
from dataclasses import dataclass, field
from functools import lru_cache
from typing import Any, Dict, List, NamedTuple, Optional, Sequence, Union, cast

from balisekit.engine.records import BODIES, Form
from balisekit.etcs.raw_layouts import Layout, LayoutPart, Many, One, Rest, layout_of, variables

OWN = "balisekit's own layout: not proved, not compared with a print"
NOT_CERTAIN = "layout not certain: balisekit's own, not proved, not compared with a print"


class RawField(NamedTuple):
    """A variable in the body of a packet."""

    name: str
    """The standard's name."""
    path: str
    """Where the packet's object has it: `/elements/0/d_mamode`. A variable that is implied has none."""
    at: int
    """Its first bit, counted from 0 at the first bit of NID_PACKET."""
    width: int
    raw: Union[int, str]


class RawFault(NamedTuple):
    """Why a body does not fit the layout of its packet."""

    name: str
    """The variable; empty if it is about the bits after the last one."""
    path: str
    """Where the packet's object has it, or would have it."""
    at: int
    """Its first bit, counted from 0 at the first bit of NID_PACKET."""
    reason: str
    """In words that name the variable, its bits, and its number if it is spare."""


@dataclass
class Content:
    """What is in a body: all of it, or as much as fits the layout."""

    layout: Layout
    values: Dict[str, Any] = field(default_factory=dict)
    """The keys that the packet gets beside its own, in the order of the bits."""
    fields: List[RawField] = field(default_factory=list)
    fault: Optional[RawFault] = None
    """The first one."""
    misfit: Optional[RawFault] = None
    """Why the body is too short or too long, which is the first fault unless a number before it is spare."""
    left: int = 0
    """How many bits follow the last variable."""
    is_complete: bool = False
    """Whether the body has exactly the bits of the layout. Some number may be spare."""

    @property
    def words(self) -> str:
        """The layout that it was read by, and why it does not fit."""
        own = OWN if self.layout.is_certain else NOT_CERTAIN
        return f"{own}; {self.fault.reason}" if self.fault else own


class _End(Exception):
    """The body ends within a variable."""


def body_bits(count: int, body: str, from_track: bool) -> str:
    """The bits of a body, as a text of 0 and 1: as many as L_PACKET says, without those that fill up the last byte."""
    return f"{int(body, 16):0{4 * len(body)}b}"[: count - BODIES[from_track][0]] if body else ""


def content_of(packet: Form, from_track: bool = True) -> Optional[Content]:
    """What is in the body of a packet: None if the program reads the packet, or its layout is not known."""
    return _content(packet["nid_packet"], packet["l_packet"], packet["body"], from_track) if "body" in packet else None


@lru_cache(maxsize=1 << 12)
def _content(number: int, count: int, body: str, from_track: bool) -> Optional[Content]:
    """What is in a body. Notes, places and values of one packet need it, so it is kept."""
    layout = layout_of(number, from_track)
    return _Reader(layout, body_bits(count, body, from_track)).read() if layout else None


def layout_words(packet: Form, from_track: bool = True) -> str:
    """Which layout of balisekit reads a packet, in few words: none if the program reads the packet, or nobody."""
    layout = layout_of(packet["nid_packet"], from_track) if "body" in packet else None
    return "" if layout is None else "balisekit's own layout" if layout.is_certain else "layout not certain"


def with_content(packet: Form, from_track: bool = True, keeps_body: bool = True) -> Form:
    """The packet with the variables of its body, if its layout is known."""
    content = content_of(packet, from_track)
    if content is None:
        return packet
    own = {key: value for key, value in packet.items() if keeps_body or key != "body" or not content.is_complete}
    return cast(Form, {**own, **content.values})


def fields_of(packet: Form, from_track: bool = True) -> Optional[Form]:
    """A raw packet as a packet that the program reads: its head and its variables, lists as lists, without its body.

    It is for rules: None unless the layout is certain, and `fault_of` finds nothing. A packet that the program reads
    has none either: its own JSON is what is proved. Contents are kept, so nobody changes what is in the lists.
    """
    content = content_of(packet, from_track)
    if content is None or not content.layout.is_certain or content.fault:
        return None
    head = {key: value for key, value in packet.items() if key != "body"}
    return cast(Form, {**head, **content.values})


def fault_of(packet: Form, from_track: bool = True) -> Optional[RawFault]:
    """Why a raw packet does not have exactly the bits of its certain layout, or which spare number is in it.

    Only the first fault is given. A packet without a certain layout has none.
    """
    content = content_of(packet, from_track)
    return content.fault if content and content.layout.is_certain else None


class _Reader:
    """Goes through a body by a layout."""

    def __init__(self, layout: Layout, bits: str) -> None:
        self.content, self.bits, self.at = Content(layout), bits, 0
        self.head = BODIES[layout.from_track][0]

    def read(self) -> Content:
        """The content, as far as the body fits."""
        content = self.content
        with suppress(_End):
            self.object(content.layout.fields, content.values, {}, "")
            left = content.left = len(self.bits) - self.at
            content.is_complete = left == 0
            if left:
                many = f"{left} bit{'s' if left > 1 else ''} more than its layout"
                self.misfit("", "", f"the packet has {many}: {self.place(left)}")
        return content

    def fault(self, name: str, path: str, reason: str) -> RawFault:
        """Notes the first fault, here."""
        made = RawFault(name, path, self.head + self.at, reason)
        self.content.fault = self.content.fault or made
        return made

    def misfit(self, name: str, path: str, reason: str) -> None:
        """Notes why the body is too short or too long."""
        self.content.misfit = self.fault(name, path, reason)

    def place(self, width: int) -> str:
        """Bits of the packet in words."""
        first = self.head + self.at
        return f"bit {first} of it" if width == 1 else f"bits {first} to {first + width - 1} of it"

    def take(self, name: str, path: str, width: int) -> str:
        """The next bits."""
        left = len(self.bits) - self.at
        if width > left:
            needs = f"{width} bit{'s' if width > 1 else ''}"
            has = f"{left} {'is' if left == 1 else 'are'} left"
            at = self.head + self.at
            self.misfit(name, path, f"the packet ends within {name}, which needs {needs} from bit {at} on: {has}")
            raise _End
        return self.bits[self.at : self.at + width]

    def note(self, name: str, path: str, width: int, raw: Union[int, str]) -> None:
        """Notes what was taken."""
        self.content.fields.append(RawField(name, path, self.head + self.at, width, raw))
        self.at += width

    def number(self, name: str, path: str) -> int:
        """The number of a variable."""
        variable = variables()[name]
        number = int(self.take(name, path, variable.bits), 2)
        if variable.span_of(number) is None:
            place = self.place(variable.bits)
            self.fault(name, path, f"{name} has the spare number {number} in the packet, {place}")
        self.note(name, path, variable.bits, number)
        return number

    def object(self, parts: Sequence[LayoutPart], values: Dict[str, Any], numbers: Dict[str, int], path: str) -> None:
        """The fields of an object: into `values` by their keys, and into `numbers` by the names of variables."""
        for part in parts:
            if isinstance(part, Rest):
                self.rest(part, values, numbers, path)
            elif not part.when.holds(numbers):
                continue
            elif isinstance(part, One):
                name = part.variable.name
                numbers[name] = self.number(name, f"{path}/{part.key}" if part.key else "")
                values.update({part.key: numbers[name]} if part.key else {})
            elif part.key:
                values[part.key] = []
                self.items(part, values[part.key], numbers, f"{path}/{part.key}")
            else:
                self.object(part.fields, values, numbers, path)

    def items(self, part: Many, items: List[Any], numbers: Dict[str, int], path: str) -> None:
        """The items of a list: `part.least`, and N_ITER more."""
        for place in range(part.least):
            self.item(part, items, numbers, f"{path}/{place}")
        for place in range(part.least, part.least + self.number("N_ITER", "")):
            self.item(part, items, numbers, f"{path}/{place}")

    def item(self, part: Many, items: List[Any], numbers: Dict[str, int], path: str) -> None:
        items.append({})
        self.object(part.fields, items[-1], dict(numbers), path)

    def rest(self, part: Rest, values: Dict[str, Any], numbers: Dict[str, int], path: str) -> None:
        """Bits without a variable as the JSON has a body, or the characters of a text."""
        key, width = f"{path}/{part.key}", 8 * numbers[part.count] if part.count else len(self.bits) - self.at
        bits = self.take(part.name, key, width)
        whole = bits + "0" * (-len(bits) % 8)
        octets = bytes(int(whole[at : at + 8], 2) for at in range(0, len(whole), 8))
        values[part.key] = _text(octets) if part.count else octets.hex()
        self.note(part.name, key, width, values[part.key])


def _text(octets: bytes) -> str:
    """Characters of ISO 8859-1. Those that cannot be printed are written as their numbers."""
    return "".join(each if each.isprintable() else f"\\x{ord(each):02x}" for each in octets.decode("latin-1"))

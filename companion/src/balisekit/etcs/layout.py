"""The fields of a telegram or radio message with their bit places, as docs/variables.md has them.

The walk judges nothing. It continues through spare values and wrong lengths until the bits end, or no further field can
be distinguished. It names the field at which the program has refused a telegram. Only the program refuses.
"""
from __future__ import annotations

import re
from contextlib import suppress
from typing import Dict, List, NamedTuple, Optional, Tuple

from balisekit.engine.records import BODIES, FROM_TRACK, FROM_TRAIN, KEYS, ONLY_WITH, allowed, width
from balisekit.etcs.variables import NO_FORM, Values, variable_name

GROUPS = {"nid_c": "NID_LRBG", "prv_nid_c": "NID_PRVLRBG"}
"""Variables of NID_C and NID_BG, by the key of the first one."""


class Field(NamedTuple):
    """A variable among the bits."""

    name: str
    """The standard's name of the variable; `body` and `fill` are no variables."""
    at: int
    """Its first bit, counted from 0."""
    width: int
    """How many bits it has; more than are left if the bits end within it."""
    digits: str
    """Its bits, as far as they are there."""
    parts: Tuple[Tuple[str, int], ...] = ()
    """Its paths in the JSON with their bits. A field that the JSON does not write has none."""
    packet: Optional[int] = None
    """The index of its packet, counted from 0. A field of the header has None."""
    number: Optional[int] = None
    """The number of this packet, NID_PACKET."""

    @property
    def value(self) -> int:
        """The number in its bits."""
        return int(self.digits or "0", 2)

    @property
    def whole(self) -> bool:
        """Whether all of its bits are there."""
        return len(self.digits) == self.width


class _End(Exception):
    """The bits end within a field, or no further field can be distinguished."""


class _Walk:
    """Reads bits field by field."""

    def __init__(self, bits: str) -> None:
        self.bits, self.at = bits, 0
        self.fields: List[Field] = []
        self.packet: Optional[int] = None
        self.number: Optional[int] = None

    def read(self, name: str, width: int, *parts: Tuple[str, int]) -> int:
        """The number in the next field. `parts` are the paths that its bits have in the JSON."""
        digits = self.bits[self.at : self.at + width]
        field = Field(name, self.at, width, digits, parts, self.packet, self.number)
        self.fields.append(field)
        self.at += width
        if not field.whole:
            raise _End
        return field.value

    def value(self, key: str, path: str, parent: Values = NO_FORM) -> int:
        """The number in the next field, which the JSON has at `path` under this key."""
        return self.read(variable_name(key, parent), width(key), (f"{path}/{key}", width(key)))

    def object(self, keys: str, path: str) -> None:
        """The fields of an object with these keys, which the JSON has at this path."""
        values: Dict[str, int] = {}
        words = iter(keys.split())
        for word in words:
            key = word.rstrip("?")
            inner = KEYS.get(key) or KEYS.get(f"{key} of {self.number}")
            if key == "q_scale":
                self.read("L_PACKET", 13)
            if key != word and not self.is_present(key, values):
                continue
            if word in GROUPS:
                self.read(GROUPS[word], 24, (f"{path}/{key}", 10), (f"{path}/{next(words)}", 14))
            elif inner is None:
                values[key] = self.value(key, path, values)
            elif allowed(key):
                self.items(inner, allowed(key)[0], f"{path}/{key}")
            else:
                self.object(inner, f"{path}/{key}")

    def is_present(self, key: str, values: Values) -> bool:
        """Whether an object has a key that may be absent: by numbers before it, else by a flag that the JSON lacks."""
        if key in ONLY_WITH:
            return any(re.fullmatch(value, str(values.get(other))) for other, value in ONLY_WITH[key])
        flag = "NEWCOUNTRY" if key == "nid_c" else key.replace("_", "").upper()
        return self.read(f"Q_{flag}", 1) == 1

    def items(self, keys: str, least: int, path: str) -> None:
        """The items of a list: `least`, and N_ITER more."""
        for place in range(least):
            self.object(keys, f"{path}/{place}")
        for place in range(least, least + self.read("N_ITER", 5)):
            self.object(keys, f"{path}/{place}")

    def packets(self, from_track: bool) -> None:
        """Packets up to the end mark, or while enough bits for a packet are left."""
        index = 0
        while len(self.bits) - self.at >= 8:
            self.packet, self.number = index, int(self.bits[self.at : self.at + 8], 2)
            if self.number == 255:
                self.packet = None
                self.read("NID_PACKET", 8)
                break
            self.value("nid_packet", f"/packets/{index}")
            self.body(f"/packets/{index}", self.number, from_track)
            index += 1
        self.packet = self.number = None
        if self.at < len(self.bits):
            self.read("fill", len(self.bits) - self.at)

    def body(self, path: str, number: int, from_track: bool) -> None:
        """What a packet has after its number."""
        known = (FROM_TRACK if from_track else FROM_TRAIN).get(number)
        if known is not None:
            self.object(known, path)
            return
        if from_track:
            self.value("q_dir", path)
        bits = self.value("l_packet", path) - BODIES[from_track][0]
        if bits < 0:
            raise _End
        self.read("body", bits, (f"{path}/body", bits))


def telegram_fields(bits: str) -> List[Field]:
    """The fields of a telegram's user bits, a text of 0 and 1."""
    walk = _Walk(bits)
    with suppress(_End):
        walk.read("Q_UPDOWN", 1)
        walk.read("M_VERSION", 7, ("/m_version", 7))
        walk.read("Q_MEDIA", 1)
        for key in "n_pig n_total m_dup m_mcount nid_c nid_bg q_link".split():
            walk.value(key, "")
        walk.packets(True)
    return walk.fields


def message_fields(bits: str) -> List[Field]:
    """The fields of a radio message's bits, a text of 0 and 1."""
    walk = _Walk(bits)
    with suppress(_End):
        number = walk.value("nid_message", "")
        walk.read("L_MESSAGE", 10)
        walk.object("t_train nid_engine" if number == 136 else "t_train m_ack nid_c nid_bg", "")
        walk.packets(number != 136)
    return walk.fields


def bits_of(digits: str, count: Optional[int] = None) -> str:
    """The bits of hexadecimal digits: all of them, or the first `count`."""
    return "".join(f"{int(digit, 16):04b}" for digit in digits)[:count]


def user_bits(digits: str) -> str:
    """The user bits of a telegram's text: 210 of 54 digits, 830 of 208; all of another text."""
    return bits_of(digits, {54: 210, 208: 830}.get(len(digits)))

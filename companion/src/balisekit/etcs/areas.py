"""Where restrictions, conditions, modes and changes of level are: whole decimetres from the group that is counted from.

Packet 41 is read by the program, all others by balisekit's own layouts, and only if these are certain.
"""
from __future__ import annotations

from typing import Iterator, Mapping, NamedTuple, Optional, Tuple

from balisekit.etcs.raw_packets import OWN, fields_of
from balisekit.etcs.variables import Around, Form, Values, unit_dm, value_words

STRETCHES: Mapping[int, Tuple[str, str]] = {
    65: ("d_tsr", "l_tsr"),
    68: ("d_trackcond", "l_trackcond"),
    71: ("d_adhesion", "l_adhesion"),
    80: ("d_mamode", "l_mamode"),
    138: ("d_startreverse", "l_reversearea"),
}
"""The keys of distance and length of raw packets. Each element of 68 and 80 counts from where the one before begins."""
NOW_OR_INFINITE = 32_767
INFINITE = ("l_mamode",)
"""The keys of lengths for which this number is infinite."""
DRAWN: Mapping[int, Tuple[str, Tuple[str, ...]]] = {
    65: ("temporary speed restriction", ("v_tsr",)),
    80: ("mode", ("m_mamode", "v_mamode")),
    68: ("track condition", ("m_trackcond",)),
}
"""The raw packets that pictures have: what each stretch is, and the keys of its values."""


class Area(NamedTuple):
    """A part of the track, or one place of it, that a packet is about."""

    number: int
    """NID_PACKET."""
    kind: str
    words: str
    """Which one, such as "80 km/h"."""
    begin: int
    end: Optional[int]
    """Where it ends. An area without end has None, and a single place ends where it begins."""
    layout: str = ""
    """The source of the layout by which it was read, if the layout is not proved."""
    acknowledged: Optional[int] = None
    """From where on the driver acknowledges it, if it has to be acknowledged."""


def stretches(packet: Values) -> Iterator[Tuple[str, Values, int, Optional[int]]]:
    """From where to where each part of a packet of STRETCHES is: its path, its object, and both places."""
    distance, length = STRETCHES[packet["nid_packet"]]
    unit, begin = unit_dm(packet), 0
    for index, element in enumerate(packet.get("elements", [packet] if distance in packet else [])):
        begin += element[distance] * unit
        is_infinite = length in INFINITE and element[length] == NOW_OR_INFINITE
        path = f"/elements/{index}" if "elements" in packet else ""
        yield path, element, begin, None if is_infinite else begin + element[length] * unit


def areas(packet: Form) -> Iterator[Area]:
    """The areas of a packet that pictures have."""
    if packet["nid_packet"] == 41:
        at = 0 if packet["d_leveltr"] == NOW_OR_INFINITE else packet["d_leveltr"] * unit_dm(packet)
        before = max(choice["l_ackleveltr"] for choice in packet["transitions"]) * unit_dm(packet)
        yield Area(41, "change to", ", ".join(_levels(packet)), at, at, acknowledged=at - before if before else None)
    read = fields_of(packet) if packet["nid_packet"] in DRAWN else None
    if not read:
        return
    for _, element, begin, end in stretches(read):
        kind, keys = DRAWN[packet["nid_packet"]]
        words = ", ".join(value_words(key, element[key], Around(packet, element)) for key in keys)
        before = element.get("l_ackmamode", 0) * unit_dm(read)
        yield Area(packet["nid_packet"], kind, words, begin, end, OWN, begin - before if before else None)


def _levels(packet: Form) -> Iterator[str]:
    for choice in packet["transitions"]:
        system = f" {choice['nid_ntc']}" if "nid_ntc" in choice else ""
        yield value_words("m_leveltr", choice["m_leveltr"], Around()) + system

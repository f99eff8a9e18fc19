"""Track conditions at their places, by raw packets. For E29."""
from __future__ import annotations

from typing import AbstractSet, Any, Dict, Iterator, List, Mapping, NamedTuple, Sequence, Tuple

from balisekit.etcs.raw_packets import content_of
from balisekit.etcs.variables import UNITS
from balisekit.rules.decoded import Decoded
from balisekit.rules.meaning.along import Lane, lane_of
from balisekit.rules.passages import Passage
from balisekit.rules.telegrams import Packet

NEAR, FAR = 2_000, 20_000
"""How near in decimetres two places of one condition are, and of one that has an identity."""


class Layout(NamedTuple):
    """Which variables of a packet say where a condition is and what it is. A packet without a list has one."""

    begin: str
    length: str
    kind: Tuple[str, ...] = ()
    is_list: bool = False
    near: int = NEAR


LAYOUTS: Mapping[int, Layout] = {
    39: Layout("d_traction", "", ("m_voltage", "nid_ctraction"), near=FAR),
    40: Layout("d_current", "", ("m_current",)),
    67: Layout("d_trackcond", "l_trackcond", is_list=True),
    68: Layout("d_trackcond", "l_trackcond", ("m_trackcond",), is_list=True),
    69: Layout("d_trackcond", "l_trackcond", ("m_platform", "q_platform"), is_list=True),
    71: Layout("d_adhesion", "l_adhesion", ("m_adhesion",)),
    88: Layout("d_lx", "l_lx", ("nid_lx",), near=FAR),
    138: Layout("d_startreverse", "l_reversearea"),
}
Kind = Tuple[int, ...]
"""NID_PACKET, and what tells conditions of this packet from each other."""


class Condition(NamedTuple):
    """A track condition at its place."""

    place: int
    length: int
    passage: Passage
    packet: Packet
    distance: int
    """From the group."""

    @property
    def says(self) -> Tuple[int, int]:
        """What is compared."""
        return self[:2]

    @property
    def unit(self) -> int:
        """That of its distances in decimetres."""
        return _unit(self.packet)


def _unit(packet: Packet) -> int:
    """The unit of the distances of a raw packet in decimetres."""
    content = content_of(packet.form)
    return UNITS[content.values["q_scale"]] if content else 1


def conditions_of(decoded: Decoded, numbers: AbstractSet[int]) -> Mapping[Tuple[Lane, Kind], Sequence[Condition]]:
    """The conditions of these packets by their track, way and kind: each once."""
    found: Dict[Tuple[Lane, Kind], Dict[Tuple[int, str, int], Condition]] = {}
    for passage in decoded.passages:
        for packet in passage.said if passage.way is not None else ():
            for place, (kind, condition) in enumerate(of_packet(passage, packet) if packet.number in numbers else ()):
                own = found.setdefault((lane_of(passage), kind), {})
                own[id(packet), passage.direction, place] = condition
    return {key: list(own.values()) for key, own in found.items()}


def of_packet(passage: Passage, packet: Packet) -> Iterator[Tuple[Kind, Condition]]:
    """The conditions of a packet that fits its layout."""
    content, layout = content_of(packet.form), LAYOUTS[packet.number]
    if content is None or content.fault:
        return
    values: Any = content.values
    distance, unit = 0, UNITS[values["q_scale"]]
    for each in values.get("elements", ()) if layout.is_list else (values,):
        distance = (distance if layout.is_list else 0) + each[layout.begin] * unit
        place = passage.place(distance)
        if place is not None:
            kind = packet.number, *(each.get(key, -1) for key in layout.kind)
            length = each[layout.length] * unit if layout.length else 0
            yield kind, Condition(place, length, passage, packet, distance)


def of_messages(some: Sequence[Condition]) -> Sequence[Sequence[Condition]]:
    """The conditions of each message that has several: a packet of a fixed balise is in those of all aspects."""
    senders: Dict[int, List[Condition]] = {}
    for each in some:
        senders.setdefault(id(each.passage.message or each.passage.group), []).append(each)
    found: List[Sequence[Condition]] = []
    for own in senders.values():
        first = own[0].passage
        messages = [first] if first.message or not first.group else first.group.passages
        for said in ({id(packet) for packet in each.said} for each in messages if len(own) > 1):
            found.append([each for each in own if id(each.packet) in said])
    return found

"""Geographical positions of packets 79 beside the kilometres of the table. For E14."""
from __future__ import annotations

from collections import Counter
from decimal import Decimal
from typing import Any, Dict, Iterable, Iterator, List, NamedTuple, Sequence, Tuple

from balisekit.etcs.raw_packets import content_of
from balisekit.etcs.variables import UNITS, metres
from balisekit.rules.decoded import Decoded
from balisekit.rules.facts import counted, sender
from balisekit.rules.location import BaliseGroup
from balisekit.rules.meaning.words import source
from balisekit.rules.passages import Passage
from balisekit.rules.rule import Options, Remark
from balisekit.rules.telegrams import Packet
from balisekit.tables.names import ordinal

POSITIONS, NO_POSITION = 79, 16_777_215
"""NID_PACKET, and the M_POSITION that ends positions."""
GROUPS, OFTEN = 3, 4
"""How many groups must agree, and how many positions for each that differs."""


class Position(NamedTuple):
    """A position of a packet 79."""

    passage: Passage
    packet: Packet
    number: int
    """Its place in the packet, counted from 0."""
    unit: int
    sent: int
    """M_POSITION in metres."""
    group: BaliseGroup
    """The group from which it counts."""
    offset: int
    """By how many decimetres it exceeds the kilometre of the table."""


def unlike_positions(decoded: Decoded, options: Options) -> Tuple[Sequence[Remark], int]:
    """The positions that differ from the kilometres otherwise than all others, and how many are compared.

    Others prove the layout, too: positions that agree with kilometres by chance are unlikely.
    """
    some = list(_positions(decoded))
    if not some:
        return [], 0
    counts = Counter(each.offset for each in some)
    usual = max(counts, key=lambda offset: _near(counts, offset))
    allowed = max(decoded.tolerance(options.tolerance, each.unit) for each in some) + 10
    right = _each_once(each for each in some if abs(each.offset - usual) <= allowed)
    wrong = _each_once(each for each in some if abs(each.offset - usual) > allowed)
    is_shown = len({id(each.passage.group) for each in right}) >= GROUPS and len(right) >= OFTEN * len(wrong)
    if not is_shown or len({id(each.passage.group) for each in wrong}) > 1:
        return [], 0
    facts = [counted(sender(each.passage, each.packet) for each in right)]
    return [_remark(each, usual, right)._replace(facts=facts) for each in wrong], len(some)


def _each_once(some: Iterable[Position]) -> List[Position]:
    """The same. A packet for both directions states each position once."""
    found: Dict[Tuple[int, int], Position] = {}
    for each in some:
        found.setdefault((id(each.packet), each.number), each)
    return list(found.values())


def _near(counts: "Counter[int]", offset: int) -> int:
    """How many positions differ by this much, or up to 1 m more or less: M_POSITION is in metres."""
    return sum(count for other, count in counts.items() if abs(other - offset) <= 10)


def _positions(decoded: Decoded) -> Iterator[Position]:
    """The positions of all packets 79 that fit the layout, from groups with a kilometre."""
    found: Dict[Tuple[int, str], Tuple[Passage, Packet]] = {}
    for passage in decoded.passages:
        for packet in passage.of(POSITIONS) if passage.way is not None and passage.group else ():
            found.setdefault((id(packet), passage.direction), (passage, packet))
    for passage, packet in found.values():
        content = content_of(packet.form)
        if content is not None and content.fault is None and content.is_complete:
            yield from _of_packet(decoded, passage, packet, content.values)


def _of_packet(decoded: Decoded, passage: Passage, packet: Packet, values: Any) -> Iterator[Position]:
    """The positions of a packet."""
    own, unit = passage.group.group.identity if passage.group else None, UNITS[values["q_scale"]]
    country = own[0] if own else 0
    for number, each in enumerate(values["elements"]):
        country = each.get("nid_c", country)
        data = decoded.by_identity.get((country, each["nid_bg"]))
        if data is not None and data.group.km is not None and each["m_position"] != NO_POSITION:
            at = int(data.group.km * 10_000) + (passage.way or 1) * each["d_posoff"] * unit
            sent = each["m_position"]
            yield Position(passage, packet, number, unit, sent, data.group, sent * 10 - at)


def _remark(position: Position, usual: int, right: List[Position]) -> Remark:
    """A remark on a position."""
    apart, wanted = abs(position.offset - usual), position.sent - Decimal(position.offset - usual) / 10
    first = right[0]
    sentence = (
        f"M_POSITION of the {ordinal(position.number)} position, from {position.group}, is {position.sent} m: "
        f"{wanted:f} m would agree with the kilometres as {len(right)} others do, such as that of "
        f"{source(first.passage, first.packet)}. They differ by {metres(apart)}"
    )
    values = {"m_position_m": Decimal(position.sent), "by_kilometres_m": wanted}
    where, compared = position.passage.at(position.packet), [first.passage.at(first.packet)]
    return Remark("E14", where, sentence, position.group, values, compared=compared)

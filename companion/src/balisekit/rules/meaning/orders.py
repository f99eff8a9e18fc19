"""The orders of level transitions, packets 41 and 46, at their places."""
from __future__ import annotations

from collections import Counter
from decimal import Decimal
from sys import intern
from typing import Dict, Iterator, List, NamedTuple, Optional, Sequence, Tuple

from balisekit.etcs.geometry import NOMINAL
from balisekit.etcs.variables import Around, value_words
from balisekit.rules.decoded import Decoded
from balisekit.rules.location import NO_DIRECTION
from balisekit.rules.meaning.along import Lane
from balisekit.rules.passages import Passage
from balisekit.rules.telegrams import LEVELS, Packet
from balisekit.tables.decimals import whole

CONDITIONAL, BOTH_DIRECTIONS, NOW, NEAR = 46, 2, 32_767, 5000
"""NID_PACKET of a conditional order, Q_DIR, D_LEVELTR for at once, and in decimetres how near two announcements of one
transition are."""


class Order(NamedTuple):
    """A level transition order at its place."""

    place: int
    way: int
    passage: Passage
    packet: Packet

    @property
    def is_now(self) -> bool:
        """Whether it is for the place of its group."""
        return is_now(self.packet)

    @property
    def along(self) -> int:
        """Its place, counted along the way."""
        return self.place * self.way

    @property
    def levels(self) -> Sequence[Tuple[int, int]]:
        """M_LEVELTR and NID_NTC in their order."""
        return [(each["m_leveltr"], each.get("nid_ntc", -1)) for each in self.packet.form["transitions"]]

    def values(self, before: str = "") -> Dict[str, Decimal]:
        """Its place and levels, by names that begin so."""
        numbers = {f"m_leveltr_{place}": whole(level) for place, (level, _) in enumerate(self.levels, 1)}
        numbers.update({f"nid_ntc_{place}": whole(ntc) for place, (_, ntc) in enumerate(self.levels, 1) if ntc >= 0})
        own = {"place_m": Decimal(self.place) / 10, **numbers}
        return {intern(f"{before}{name}"): each for name, each in own.items()}

    @property
    def words(self) -> str:
        """The levels in words."""
        around = Around(self.packet.form)
        return ", ".join(
            value_words("m_leveltr", level, around) + (f" (NID_NTC {ntc})" if ntc >= 0 else "")
            for level, ntc in self.levels
        )


def is_now(packet: Packet) -> bool:
    """Whether a packet 41 is for the place of its group."""
    return packet.form["d_leveltr"] in (0, NOW)


def orders_of(decoded: Decoded) -> Dict[Lane, List[Order]]:
    """All orders of each track and way: what several aspects have in common once."""
    found: Dict[Lane, Dict[Tuple[int, str], Order]] = {}
    for passage in decoded.passages:
        for packet in passage.of(LEVELS):
            sent, is_both = packet.form["d_leveltr"], packet.form["q_dir"] == BOTH_DIRECTIONS
            way = passage.way or (is_both and (1 if passage.direction == NOMINAL else -1))
            place = passage.place(0 if sent == NOW else sent * packet.unit)
            if way and place is not None and (not is_both or sent in (0, NOW)):
                own = found.setdefault((passage.track, way), {})
                own[id(packet), passage.direction] = Order(place, way, passage, packet)
    return {lane: sorted(own.values(), key=lambda each: each.place) for lane, own in found.items()}


def conditional_orders(decoded: Decoded) -> Dict[Lane, List[Order]]:
    """The packets 46 of each track and way: each once. They are for the places of their groups."""
    found: Dict[Lane, Dict[Tuple[int, str], Order]] = {}
    for passage in decoded.passages:
        place = passage.place(0)
        for packet in passage.of(CONDITIONAL) if passage.way and place is not None else ():
            if "transitions" in packet.form:
                own = found.setdefault((passage.track, passage.way or 0), {})
                own[id(packet), passage.direction] = Order(place or 0, passage.way or 0, passage, packet)
    return {lane: list(own.values()) for lane, own in found.items()}


def unplaced_orders(decoded: Decoded) -> Counter[str]:
    """How many orders are in no lane because their place is not known, each once in each direction, by the reason.

    An order for both directions needs no direction of its group, and E5 reports it if it gives a distance.
    """
    lost: Dict[Tuple[int, str], str] = {}
    for passage in decoded.unplaced:
        for packet in passage.of(LEVELS):
            is_both = packet.form["q_dir"] == BOTH_DIRECTIONS
            if not is_both or passage.lacks != NO_DIRECTION and is_now(packet):
                lost[id(packet), passage.direction] = passage.lacks
    return Counter(lost.values())


def without_direction(decoded: Decoded) -> Iterator[Tuple[str, Optional[int]]]:
    """Tracks and places of groups that have an order at once, and a direction or place that the table does not show."""
    for passage in decoded.passages:
        group = passage.group.group if passage.group else None
        is_known = passage.way is not None and passage.place(0) is not None
        if group and not is_known and (group.linked or group.balises > 1):
            if any(map(is_now, passage.of(LEVELS))):
                yield passage.track, passage.place(0)

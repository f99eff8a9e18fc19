"""What a train gets that passes a balise group in one aspect and one direction, or that is sent a message 3.

Balises are passed in nominal order or in reverse. A balise that duplicates the one passed before it is silent. What
follows a packet 136 counts from the group that it names, and not from the group that sends it.
"""
from __future__ import annotations

from dataclasses import dataclass
from typing import Iterator, List, Mapping, Optional, Sequence

from balisekit.etcs.geometry import DIRECTIONS, in_order, until_infill
from balisekit.rules.location import IN_JUMP, NO_DIRECTION, NO_KILOMETRE, NOT_IN_TABLE, BaliseGroup, Location
from balisekit.rules.telegrams import (
    AUTHORITIES,
    LINKING,
    SAYS_NOTHING,
    WITHOUT_DIRECTION,
    Link,
    Packet,
    Telegram,
    holding,
)
from balisekit.tables.model import Message, Row


@dataclass(eq=False)
class Passage:
    """What a train gets that passes a group in one aspect and direction, or that is sent a message 3."""

    __slots__ = ("group", "aspect", "direction", "said", "reference", "infill", "message")
    group: Optional[GroupData]
    """The group from which its distances count. It is None for a message whose group is not in the table."""
    aspect: str
    """The name of the aspect. It is empty for a message, and for a group without aspects."""
    direction: str
    said: Sequence[Packet]
    """The packets before a packet 136, in the order of passing, without those of silent balises."""
    reference: Optional[Packet]
    """The first packet 136."""
    infill: Sequence[Packet]
    """The packets that follow it: their distances count from the group that it names."""
    message: Optional[Message]

    @property
    def way(self) -> Optional[int]:
        """1 if the passage goes towards greater kilometres, -1 if towards lower ones."""
        return self.group.group.along(self.direction) if self.group else None

    @property
    def lacks(self) -> str:
        """Why the places ahead of it are not known, or nothing."""
        if self.group is None:
            return NOT_IN_TABLE
        if self.group.place is None:
            return NO_KILOMETRE if self.group.group.km is None else IN_JUMP
        return NO_DIRECTION if self.way is None else ""

    @property
    def speaks(self) -> bool:
        """Whether a packet before a packet 136 says anything of the track."""
        return _says(self.said)

    @property
    def track(self) -> str:
        """The track of the group."""
        return self.group.group.track if self.group else ""

    def of(self, *numbers: int) -> List[Packet]:
        """The packets that are said with these NID_PACKET."""
        if len(numbers) == 1:  # (which is asked most often, and takes less time so)
            (number,) = numbers
            return [packet for packet in self.said if packet.number == number]
        return [packet for packet in self.said if packet.number in numbers]

    @property
    def authorities(self) -> List[Packet]:
        """The packets 12 and 15."""
        return self.of(*AUTHORITIES)

    @property
    def links(self) -> Iterator[Link]:
        """The links of the packets 5 that are said."""
        return (link for packet in self.said if packet.number == LINKING for link in packet.links)

    def place(self, distance: int) -> Optional[int]:
        """The place at this distance from the group, or None if that is not known."""
        group = self.group.group if self.group else None
        if group is None or group.place is None or distance == 0:
            return group.place if group else None
        way = group.along(self.direction)
        return None if way is None else group.place + way * distance

    def at(self, packet: Optional[Packet] = None, link: Optional[int] = None) -> Location:
        """Where a packet is, for a remark. Without a packet it is the group, or the message, in this direction."""
        group = None if self.message or not self.group else self.group.group
        if packet is None:
            return Location(group, None, self.message, None, self.direction)
        numbers = packet.place, self.direction, link, packet.number, packet.n_pig
        return Location(group, packet.row, self.message, *numbers)


@dataclass(eq=False)
class GroupData:
    """A balise group with its telegrams, and what they give a train."""

    group: BaliseGroup
    telegrams: Mapping[int, Telegram]
    """Those that the program has read, by their rows: each row once, in the order of the table."""
    passages: Sequence[Passage] = ()
    """Each aspect all telegrams of which were read, in both directions: those that give a train anything."""

    def __post_init__(self) -> None:
        own = {number: holding(telegram.packets) for number, telegram in self.telegrams.items() if telegram.packets}
        self.group.says = tuple(any(map(_says, packets)) for packets in zip(*own.values())) if own else (False, False)
        self.passages = tuple(self._passages(own)) if own else ()

    @property
    def place(self) -> Optional[int]:
        """The place of its first balise along the track, in decimetres."""
        return self.group.place

    @property
    def of_one_direction(self) -> Optional[Packet]:
        """The first packet that holds in one direction only, of those whose direction is compared."""
        for telegram in self.telegrams.values():
            for packet in telegram.packets:
                if packet.form.get("q_dir", 2) != 2 and packet.number not in WITHOUT_DIRECTION:
                    return packet
        return None

    def _passages(self, own: Mapping[int, Sequence[Sequence[Packet]]]) -> Iterator[Passage]:
        """What a train gets of each aspect in both directions, if that is anything.

        Of each row with packets `own` has those that hold in each of the DIRECTIONS.
        """
        for aspect in self.group.group.aspects:
            telegrams = [self.telegrams[row.number] for row in aspect.rows if row.number in self.telegrams]
            if len(telegrams) < len(aspect.rows):
                continue
            flags = [telegram.header.m_dup for telegram in telegrams]
            for index, direction in enumerate(DIRECTIONS):
                said = [own[row.number][index] if row.number in own else () for row in aspect.rows]
                packets = in_order(flags, said, direction)
                passage = passage_of(self, aspect.name, direction, packets)
                if passage.said or passage.infill:
                    yield passage

    def location(self, row: Optional[Row] = None) -> Location:
        """Where the group is, or one of its balises, for a remark."""
        n_pig = self.telegrams[row.number].header.n_pig if row and row.number in self.telegrams else None
        return Location(self.group, row, n_pig=n_pig)

    def of_packet(self, packet: Packet) -> Location:
        """Where one of its packets is, for a remark about no direction."""
        return Location(self.group, packet.row, None, packet.place, "", None, packet.number, packet.n_pig)


def _says(packets: Sequence[Packet]) -> bool:
    """Whether any of these says anything of the track. Packet 0 does not."""
    return any(packet.number not in SAYS_NOTHING for packet in packets)


def passage_of(
    group: Optional[GroupData],
    aspect: str,
    direction: str,
    packets: Sequence[Packet],
    message: Optional[Message] = None,
) -> Passage:
    """The passage with these packets, which are in the order of passing."""
    said, rest = until_infill(packets, [packet.number for packet in packets])
    return Passage(group, aspect, direction, said, rest[0] if rest else None, rest[1:], message)

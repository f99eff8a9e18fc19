"""The subject of a remark: a balise group on its track, a packet of a balise or message, or a link."""
from __future__ import annotations

from dataclasses import dataclass
from decimal import Decimal
from typing import NamedTuple, Optional, Tuple

from balisekit.etcs.geometry import NOMINAL, kilometre
from balisekit.etcs.packets import packet_name
from balisekit.tables import chainage
from balisekit.tables.model import Group, Message, Row
from balisekit.tables.names import clean, describe_balise, describe_group, describe_message, ordinal

NOT_KNOWN = 16_383
"""The NID_BG that says that an identity is not known."""
NOT_IN_TABLE = "not in the table"
ANOTHER_TRACK, NO_TRACK = chainage.ANOTHER_TRACK, chainage.NO_TRACK
NO_KILOMETRE, IN_JUMP = chainage.NO_KILOMETRE, chainage.IN_JUMP
NO_DIRECTION, BEHIND_POINT = "no direction along the kilometres", "behind a point of the plan"
"""Why rules do not compare a place."""
Identity = Tuple[int, int]
"""NID_C and NID_BG."""


@dataclass(eq=False)
class BaliseGroup:
    """A balise group on its track. What is not known of it is None."""

    number: int
    """Its place in the table, counted from 0."""
    group: Group
    balises: int
    """How many balises it has."""
    identity: Optional[Identity]
    linked: Optional[bool]
    """Whether Q_LINK is 1."""
    km: Optional[Decimal]
    rising: Optional[int]
    """1 if the kilometres rise in nominal direction, -1 if they fall."""
    track: str
    unread: Tuple[int, ...] = ()
    """The rows whose telegrams the program has not read."""
    by_links: bool = False
    """Whether `rising` is taken from links: those that name it, or its own ones if it has several balises."""
    by_own_links: bool = False
    """Whether it is taken from its own ones."""
    links_differ: bool = False
    """Whether these links disagree about it."""
    says: Tuple[bool, ...] = (True, True)
    """Whether it says anything of the track in nominal and in reverse direction."""
    place: Optional[int] = None
    """The place of its first balise along the track, in decimetres, by the jumps of the kilometres."""

    def speaks_to(self, way: Optional[int]) -> bool:
        """Whether it sends anything to a train that passes it in this way: 1 if the kilometres rise for the train.

        If its direction is not known, it must send something for both directions.
        """
        if way is None or self.rising is None:
            return all(self.says)
        return self.says[0 if self.rising == way else 1]

    def along(self, direction: str) -> Optional[int]:
        """1 if the kilometres rise for a train that passes in this direction, -1 if they fall."""
        return self.rising if direction == NOMINAL or self.rising is None else -self.rising

    def __str__(self) -> str:
        km = "" if self.km is None else f" (km {kilometre(self.km)})"
        return f"{clean(self.group.name)}{km}"


class Location(NamedTuple):
    """A group, a balise's packet or a message's, and the item of a linking packet."""

    group: Optional[BaliseGroup] = None
    row: Optional[Row] = None
    message: Optional[Message] = None
    packet: Optional[int] = None
    direction: str = ""
    link: Optional[int] = None
    number: Optional[int] = None
    """The NID_PACKET of the packet."""
    n_pig: Optional[int] = None
    """That of the balise."""
    listed: str = ""
    """What the track plan lists and the table does not have, by its name in the plan. Then there is no group."""

    @property
    def order(self) -> Tuple[int, ...]:
        """By which remarks are sorted: groups in the order of the table, then messages."""
        return (
            1 << 40 if self.group is None else self.group.number,
            -1 if self.message is None else self.message.number,
            -1 if self.row is None else self.row.number,
            -1 if self.packet is None else self.packet,
            int(self.direction != NOMINAL),
            -1 if self.link is None else self.link,
        )

    @property
    def packet_words(self) -> str:
        """The packet by its NID_PACKET and its place, and the link; nothing without a packet."""
        if self.packet is None or self.number is None:
            return ""
        where = "telegram" if self.message is None else "message"
        words = f"packet {self.number} ({packet_name(self.number)}), {ordinal(self.packet)} in the {where}"
        return words if self.link is None else f"{words}, {ordinal(self.link)} link"

    def __str__(self) -> str:
        parts = [self.listed] if self.listed else []
        if self.message is not None:
            parts.append(f"message of {describe_message(self.message)}")
        elif self.group is not None:
            group, row = self.group.group, self.row
            parts.append(describe_group(group) if row is None else describe_balise(group, row, self.n_pig))
        return "  ".join(filter(None, [*parts, self.direction, self.packet_words]))


def incomparable(one: Optional[BaliseGroup], other: Optional[BaliseGroup]) -> str:
    """Why the kilometres of two groups cannot be compared, or nothing."""
    if one is None or other is None:
        return NOT_IN_TABLE
    return chainage.incomparable(one.km, one.track, other.km, other.track)

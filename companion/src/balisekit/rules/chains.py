"""What rules L compare: the packets 5 that a train gets, and the profiles that it gets with an authority.

They are taken from the passages. What an aspect repeats of an earlier one is taken once.
"""
from __future__ import annotations

from dataclasses import dataclass, field
from itertools import groupby
from operator import attrgetter
from typing import Dict, List, NamedTuple, Optional, Sequence, Set, Tuple

from balisekit.etcs.geometry import NOMINAL
from balisekit.rules.location import BaliseGroup, Identity, Location
from balisekit.rules.passages import GroupData, Passage
from balisekit.rules.telegrams import AUTHORITIES, LINKING, Link, Packet

PROFILES = {21: "gradient profile", 27: "speed profile"}
Key = Tuple[int, int, str]
"""A packet in a direction: the row of its telegram or 0, its place in the telegram or message, and the direction."""


class Chain(NamedTuple):
    """A packet 5 in one direction."""

    location: Location
    sender: Optional[BaliseGroup]
    """The group from which the first distance counts. It is None for a message whose group is not in the table."""
    direction: str
    links: Sequence[Link]

    @property
    def identities(self) -> Set[Identity]:
        """All groups that it names, and the one that sends it."""
        sender = {self.sender.identity} if self.sender and self.sender.identity else set()
        return sender | {link.identity for link in self.links}

    def at(self, link: Link) -> Location:
        """Where one of its links is."""
        return self.location._replace(link=link.number)


class GivenProfile(NamedTuple):
    """A gradient or static speed profile that is given with a movement authority."""

    passage: Passage
    packet: Packet
    is_late: bool
    """Whether the track before it has no other profile of its kind, in an aspect at least."""

    @property
    def location(self) -> Location:
        """Where it is."""
        return self.passage.at(self.packet)


@dataclass
class Chains:
    """The chains of all groups in the order of the table, then those of messages; and the profiles likewise."""

    own: List[Chain] = field(default_factory=list)
    infill: List[Chain] = field(default_factory=list)
    """The packets 5 that are passed after a packet 136: they count from another group."""
    profiles: List[GivenProfile] = field(default_factory=list)

    def add(self, passages: Sequence[Passage]) -> None:
        """Takes the passages of one group, or of one message."""
        known: Set[Key] = set()
        profiles: Dict[Key, GivenProfile] = {}
        for passage in passages:
            for packets, chains in ((passage.said, self.own), (passage.infill, self.infill)):
                for packet in packets:
                    key = packet.row.number if packet.row else 0, packet.place, passage.direction
                    if packet.number == LINKING and key not in known:
                        known.add(key)
                        sender = passage.group.group if passage.group else None
                        chains.append(Chain(passage.at(packet), sender, passage.direction, packet.links))
                _add_profiles(profiles, passage, packets)
        self.profiles += profiles.values()


def _add_profiles(profiles: Dict[Key, GivenProfile], passage: Passage, packets: Sequence[Packet]) -> None:
    """Takes the profiles among packets that count from one group, if an authority is among them."""
    if not any(packet.number in AUTHORITIES for packet in packets):
        return
    own = [packet for packet in packets if packet.number in PROFILES]
    at_once = {packet.number for packet in own if packet.begin == 0}
    for packet in own:
        key = packet.row.number if packet.row else 0, packet.place, passage.direction
        is_late = packet.number not in at_once or key in profiles and profiles[key].is_late
        profiles[key] = GivenProfile(passage, packet, is_late)


Directions = Dict[int, Tuple[BaliseGroup, Set[int]]]
"""By the number of a group: the group, and each direction that links give it."""


def chains_of(groups: Sequence[GroupData], messages: Sequence[Passage]) -> Chains:
    """Those of all groups and messages of a table."""
    chains = Chains()
    for data in groups:
        chains.add(data.passages)
    for _, passages in groupby(messages, key=attrgetter("message")):
        chains.add(list(passages))
    return chains


def take_directions(chains: Sequence[Chain]) -> None:
    """Gives groups whose direction the table does not show that of links, all of which have to agree.

    A group of several balises has one kilometre then. Its direction leads to the groups that its own links name. A
    single balise has that of the links that name it, of groups whose direction is known so far.
    """
    _take_own(chains)
    directions: Directions = {}
    for chain in chains:
        sender = chain.sender
        along = sender.along(chain.direction) if sender else None
        if sender is None or along is None:
            continue
        for link in chain.links:
            group = link.target
            if group and group.rising is None and group.track == sender.track:
                directions.setdefault(group.number, (group, set()))[1].add(along if link.nominal else -along)
    _take(directions)


def _take_own(chains: Sequence[Chain]) -> None:
    """Gives groups of several balises the direction that leads to the groups that their own links name."""
    directions: Directions = {}
    for chain in chains:
        sender, sign = chain.sender, 1 if chain.direction == NOMINAL else -1
        if sender is None or sender.balises == 1 or sender.rising is not None or sender.place is None:
            continue
        for link in chain.links:
            place = link.target.place if link.target and link.target.track == sender.track else None
            if place is not None and place != sender.place:
                rising = sign if place > sender.place else -sign
                directions.setdefault(sender.number, (sender, set()))[1].add(rising)
    _take(directions)
    for group, _ in directions.values():
        group.by_own_links = group.by_links


def _take(directions: Directions) -> None:
    for group, found in directions.values():
        group.by_links, group.links_differ = len(found) == 1, len(found) > 1
        group.rising = found.pop() if group.by_links else None

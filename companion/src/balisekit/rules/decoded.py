"""All data of a table as a train gets them, made once for all rules, pictures and words.

The program's records become telegrams (`telegrams`), the telegrams of a group become passages (`passages`), and these
become what rules L compare (`chains`). A place is counted along the track in whole decimetres (`Chainage`). What a
train gets is what it gets if it misses nothing.
"""
from __future__ import annotations

from bisect import bisect_left
from collections import defaultdict
from dataclasses import dataclass, field
from decimal import Decimal
from functools import cached_property, wraps
from itertools import accumulate
from typing import Callable, Dict, Iterable, Iterator, List, Mapping, Optional, Sequence, Set, Tuple, TypeVar, Union
from weakref import WeakKeyDictionary

from balisekit.etcs.geometry import DIRECTIONS, place_and_direction
from balisekit.etcs.variables import Form, unit_dm
from balisekit.rules.chains import Chains, chains_of, take_directions
from balisekit.rules.location import NOT_KNOWN, BaliseGroup, Identity
from balisekit.rules.passages import GroupData, Passage, passage_of
from balisekit.rules.telegrams import LINKING, Link, Packet, Telegram, holding, packets_of_message
from balisekit.tables.chainage import Chainage, Jump, resolution_of, tolerance_of_lengths as tolerance_of_lengths
from balisekit.tables.model import Group, Message

Owner = Union[GroupData, Passage]
"""The group, or the message, that sends a packet."""
Made = TypeVar("Made")


@dataclass(eq=False)
class Decoded:
    """All data of a table."""

    groups: Sequence[GroupData]
    """In the order of the table."""
    messages: Sequence[Passage]
    """The messages 3, in both directions: those that give a train anything."""
    chainages: Mapping[str, Chainage]
    """Of each track."""
    resolution: int
    """One unit of the last decimal of the table's kilometres, at most 1 m, in decimetres, rounded up."""
    chains: Chains = field(default_factory=Chains)
    """The packets 5, and the profiles that are given with an authority."""

    @cached_property
    def speaking(self) -> Sequence[GroupData]:
        """The groups that give a train anything, in the order of the table."""
        return [data for data in self.groups if data.passages]

    @cached_property
    def controlled(self) -> Sequence[GroupData]:
        """The groups with several aspects, in the order of the table."""
        return [data for data in self.groups if len(data.group.group.aspects) > 1]

    @cached_property
    def passages(self) -> Sequence[Passage]:
        """All passages, those of groups in the order of the table, then the messages."""
        return [*(passage for data in self.speaking for passage in data.passages), *self.messages]

    @cached_property
    def first_passages(self) -> Mapping[int, Passage]:
        """By the id of each packet of a group: the first passage in which it counts from this group."""
        passages = [passage for data in self.speaking for passage in data.passages]
        return {id(packet): passage for passage in reversed(passages) for packet in passage.said}

    @cached_property
    def unplaced(self) -> Sequence[Passage]:
        """The passages that lack a place, or a direction along the kilometres."""
        return [passage for passage in self.passages if passage.lacks]

    @cached_property
    def senders(self) -> Mapping[int, Sequence[GroupData]]:
        """By NID_PACKET: the groups that send such packets."""
        found: Dict[int, List[GroupData]] = {}
        for data in self.groups:
            packets = (packet for telegram in data.telegrams.values() for packet in telegram.packets)
            for number in dict.fromkeys(packet.number for packet in packets):
                found.setdefault(number, []).append(data)
        return found

    def sent(self, number: int) -> Iterator[Tuple[Owner, Packet]]:
        """Each packet with this NID_PACKET once, and who sends it: those of groups, then those of messages."""
        for data in self.senders.get(number, ()):
            for telegram in data.telegrams.values():
                for packet in telegram.packets:
                    if packet.number == number:
                        yield data, packet
        seen: Set[int] = set()
        for passage in self.messages:
            reference = [passage.reference] if passage.reference else []
            for packet in (*passage.said, *reference, *passage.infill):
                if packet.number == number and id(packet) not in seen:
                    seen.add(id(packet))
                    yield passage, packet

    @cached_property
    def by_identity(self) -> Mapping[Identity, GroupData]:
        """The first group of each identity that is known."""
        found: Dict[Identity, GroupData] = {}
        for data in self.groups:
            if data.group.identity is not None and data.group.identity[1] != NOT_KNOWN:
                found.setdefault(data.group.identity, data)
        return found

    @cached_property
    def along(self) -> Mapping[str, Sequence[GroupData]]:
        """Of each track: the groups whose places are known, by their places."""
        found: Dict[str, List[GroupData]] = {}
        for data in self.groups:
            if data.place is not None:
                found.setdefault(data.group.track, []).append(data)
        return {track: sorted(groups, key=lambda each: each.place or 0) for track, groups in found.items()}

    @cached_property
    def places(self) -> Mapping[str, Sequence[int]]:
        """Of each track: the places of its groups, in their order."""
        return {track: [each.place or 0 for each in groups] for track, groups in self.along.items()}

    def between(self, track: str, low: int, high: int) -> Sequence[GroupData]:
        """The groups of a track from one place to another one, both included."""
        places = self.places.get(track, ())
        return self.along[track][bisect_left(places, low) : bisect_left(places, high + 1)] if places else ()

    def nearest(self, track: str, place: int) -> Optional[GroupData]:
        """The group of a track that is nearest to a place."""
        places = self.places.get(track, ())
        index = bisect_left(places, place)
        near = [self.along[track][each] for each in range(max(index - 1, 0), min(index + 1, len(places)))]
        return min(near, key=lambda each: abs((each.place or 0) - place)) if near else None

    def is_inside(self, track: str, place: int) -> bool:
        """Whether a place is between the first and the last group of a track."""
        places = self.places.get(track, ())
        return bool(places) and places[0] <= place <= places[-1]

    def km(self, track: str, place: int) -> str:
        """The kilometre of a place in words: `km 12.345`."""
        return f"km {self.chainages.get(track, Chainage()).words(place)}"

    def tolerance(self, options_tolerance: Decimal, *parts: int) -> int:
        """By how many decimetres places may differ: as lengths may, and by the kilometres' resolution."""
        return tolerance_of_lengths(options_tolerance, *parts) + self.resolution


def once(make: Callable[[Decoded], Made]) -> Callable[[Decoded], Made]:
    """The same function, which works out what several rules need once for the data of a table."""
    known: WeakKeyDictionary[Decoded, Made] = WeakKeyDictionary()

    @wraps(make)
    def made_once(decoded: Decoded) -> Made:
        if decoded not in known:
            known[decoded] = make(decoded)
        return known[decoded]

    return made_once


def decode(
    groups: Sequence[Group],
    telegrams: Iterable[Telegram],
    messages: Iterable[Tuple[Message, Form]] = (),
    jumps: Sequence[Jump] = (),
) -> Decoded:
    """The data of these groups, and of the messages 3 among these messages."""
    by_group: Dict[str, Dict[int, Telegram]] = defaultdict(dict)
    for telegram in telegrams:
        by_group[telegram.row.group][telegram.row.number] = telegram
    chainages: Dict[str, Chainage] = {}
    made = []
    for number, group in enumerate(groups):
        own = by_group[group.name]
        known = _balise_group(number, group, own)
        chainage = chainages.get(known.track) or chainages.setdefault(known.track, Chainage.of(jumps, known.track))
        known.place = chainage.place(known.km)
        made.append(GroupData(known, own))
    decoded = Decoded(
        made, [], chainages, resolution_of(row.km for each in groups for row in each.each_row if row.km is not None)
    )
    links = _Links(decoded)
    for telegram in (telegram for own in by_group.values() for telegram in own.values() if telegram.packets):
        links.put_into(telegram.packets, telegram.header.nid_c)
    decoded.messages = [passage for message, form in messages for passage in _of_message(decoded, links, message, form)]
    decoded.chains = chains_of(decoded.speaking, decoded.messages)
    take_directions(decoded.chains.own)
    return decoded


def _balise_group(number: int, group: Group, telegrams: Mapping[int, Telegram]) -> BaliseGroup:
    rows, (km, rising) = group.each_row, place_and_direction(group)
    balises, track = len(group.aspects[0].rows), rows[0].track or next((row.track for row in rows if row.track), "")
    is_read = len(telegrams) == len(rows)
    read = rows if is_read else [row for row in rows if row.number in telegrams]
    unread = () if is_read else tuple(sorted({row.number for row in rows} - telegrams.keys()))
    first = telegrams[read[0].number] if read else None
    identity, linked = (first.identity, bool(first.header.q_link)) if first else (None, None)
    return BaliseGroup(number, group, balises, identity, linked, km, rising, track, unread)


class _Links:
    """The links of packets 5, with the groups of the table that they name. A link inherits NID_C."""

    def __init__(self, decoded: Decoded) -> None:
        self._by_identity = decoded.by_identity
        self._known: Dict[Tuple[int, int], Sequence[Link]] = {}

    def put_into(self, packets: Sequence[Packet], country: int) -> None:
        """Gives packets of a telegram or message with this NID_C their links. Equal packets share them."""
        for packet in packets:
            if packet.number == LINKING:
                key = id(packet.form), country
                if key not in self._known:
                    self._known[key] = list(self._of(packet.form, country))
                packet.links = self._known[key]

    def _of(self, form: Form, country: int) -> Iterator[Link]:
        unit, links = unit_dm(form), form["links"]
        for number, (link, total) in enumerate(zip(links, accumulate(link["d_link"] * unit for link in links))):
            country = link.get("nid_c", country)
            identity = country, link["nid_bg"]
            target = self._by_identity.get(identity)
            yield Link(
                number,
                identity,
                link["d_link"] * unit,
                total,
                link["q_linkorientation"] == 1,
                link["q_linkreaction"],
                link["q_locacc"],
                unit,
                target.group if target else None,
            )


def _of_message(decoded: Decoded, links: _Links, message: Message, form: Form) -> Iterator[Passage]:
    """What a message 3 gives a train, in each direction."""
    if form["nid_message"] != 3:
        return
    group = decoded.by_identity.get((form["nid_c"], form["nid_bg"]))
    packets = packets_of_message(form)
    links.put_into(packets, form["nid_c"])
    for direction, own in zip(DIRECTIONS, holding(packets)):
        if own:
            yield passage_of(group, "", direction, own, message)

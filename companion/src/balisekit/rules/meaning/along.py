"""What several rules E compare along a track: ends of authority, profiles as places, and where trains may leave it."""
from __future__ import annotations

from bisect import bisect_left
from collections import Counter
from typing import (
    Callable,
    Dict,
    Iterable,
    Iterator,
    List,
    Mapping,
    NamedTuple,
    Optional,
    Protocol,
    Sequence,
    Set,
    Tuple,
    TypeVar,
)

from balisekit.rules.decoded import Decoded, once
from balisekit.rules.line import Line
from balisekit.rules.passages import Passage
from balisekit.rules.rule import Options
from balisekit.rules.telegrams import Packet, allowance
from balisekit.tables.chainage import apart

Lane = Tuple[str, int]
"""A track, and 1 if the trains go towards greater kilometres, else -1."""
Extent = Tuple[int, int]
"""The least and the greatest place."""
NEAR = 500
"""In decimetres: how near to a group an authority is that ends at it."""
FAR = 100_000
"""In decimetres: how far in rear a refused packet 5 may be that leads to a place."""
REPOSITIONED = 5000
"""In decimetres: how near to its link a balise with repositioning information is."""


class HasPlace(Protocol):
    """What is at a place of the track."""

    @property
    def place(self) -> int:
        """In decimetres."""


Thing = TypeVar("Thing", bound=HasPlace)


class End(NamedTuple):
    """Where an authority ends."""

    place: int
    passage: Passage
    packet: Packet

    @property
    def distance(self) -> int:
        """From the group to it."""
        return abs(self.place - (self.passage.place(0) or 0))

    @property
    def key(self) -> Tuple[int, str]:
        """The packet and its direction."""
        return id(self.packet), self.passage.direction

    def differs(self, other: End, decoded: Decoded, options: Options) -> bool:
        """Whether this is another place."""
        if self.place == other.place:
            return False
        parts = (allowance(each.packet, each.packet.lengths) for each in (self, other))
        return abs(self.place - other.place) > decoded.tolerance(options.tolerance_of_places, *parts)


@once
def ends_of(decoded: Decoded) -> Sequence[End]:
    """The ends of packets 12 with a V_MAIN above 0, and of packets 15, if their places are known."""
    return list(_ends(decoded))


def _ends(decoded: Decoded) -> Iterator[End]:
    """Each packet once in each direction: aspects share those of fixed balises."""
    known: Set[Tuple[int, str]] = set()
    for passage in decoded.passages:
        for packet in passage.said:
            if passage.way is not None and is_authority(packet):
                key = id(packet), passage.direction
                place = passage.place(packet.end) if key not in known else None
                if place is not None:
                    known.add(key)
                    yield End(place, passage, packet)


def is_named(decoded: Decoded, options: Options, end: End, within: int) -> bool:
    """Whether packets 5 name a group at an end of authority whose place on the track the table does not show."""
    within += decoded.tolerance(options.tolerance_of_places, allowance(end.packet, end.packet.lengths))
    near = (link.target for link in end.passage.links if abs(link.total - end.distance) <= within)
    return any(each is None or each.place is None or each.track != end.passage.track for each in near)


def passed_over(decoded: Decoded, is_meant: Callable[[Packet], bool]) -> Counter[str]:
    """How many packets have no known place, each once in each direction, by the reason."""
    unplaced = ((packet, passage) for passage in decoded.unplaced for packet in passage.said if is_meant(packet))
    return Counter({(id(packet), passage.direction): passage.lacks for packet, passage in unplaced}.values())


def beyond(last: str) -> str:
    """Why an authority is not compared that ends beyond the last group of a kind."""
    return f"beyond the last {last}"


def counted_beyond(last: str, apart: Sequence[int], longest: int) -> Counter[str]:
    """How many authorities end beyond the last group of a kind, and so far beyond it.

    Sound lines have such ends too, but none that is farther beyond it than the longest other authority is long.
    """
    far = f"farther {beyond(last)} than any other authority is long"
    return Counter(beyond(last) if each <= longest else far for each in apart)


def is_authority(packet: Packet) -> bool:
    """Whether it is a packet 12 with a V_MAIN above 0, or a packet 15."""
    return packet.number == 15 or packet.number == 12 and bool(packet.form["v_main"])


def lane_of(passage: Passage) -> Lane:
    """The track and the way of a passage whose way is known."""
    return passage.track, passage.way or 0


def extents_of(decoded: Decoded) -> Mapping[Lane, Extent]:
    """From which place to which one the groups are that give an authority."""
    places: Dict[Lane, List[int]] = {}
    for data in decoded.speaking:
        own = {passage.way for passage in data.passages if passage.authorities}
        for way in own - {None} if data.place is not None else ():
            places.setdefault((data.group.track, way or 0), []).append(data.place or 0)
    return {lane: (min(some), max(some)) for lane, some in places.items()}


def ends_the_line(decoded: Decoded, end: End) -> bool:
    """Whether an authority ends at the last group of its track and way, without a signal in between."""
    lane = lane_of(end.passage)
    begin, at = ((place or 0) * lane[1] for place in (end.passage.place(0), end.place))
    last, signals = _lasts_and_signals(decoded)[lane]
    ahead = bisect_left(signals, begin + 1)
    return abs(last - at) <= NEAR and not (ahead < len(signals) and signals[ahead] < at - NEAR)


@once
def _lasts_and_signals(decoded: Decoded) -> Dict[Lane, Tuple[int, List[int]]]:
    """Of each track and way, along it: the last group that says something, and all that give an authority.

    Groups of which the direction is not known, or a telegram, count for both ways.
    """
    lasts: Dict[Lane, int] = {}
    signals: Dict[Lane, Set[int]] = {}
    for track, place in unread_of(decoded):
        for way in (1, -1) if place is not None else ():
            at, lane = (place or 0) * way, (track, way)
            lasts[lane] = max(lasts.get(lane, at), at)
            signals.setdefault(lane, set()).add(at)
    for passage in decoded.passages:
        place = passage.place(0)
        speaks = place is not None and passage.speaks
        for way in ((passage.way,) if passage.way else (1, -1)) if speaks else ():
            at, lane = (place or 0) * way, (passage.track, way)
            lasts[lane] = max(lasts.get(lane, at), at)
            signals.setdefault(lane, set()).update([at] if passage.authorities else [])
    return {lane: (last, sorted(signals[lane])) for lane, last in lasts.items()}


def unread_of(decoded: Decoded) -> Iterator[Tuple[str, Optional[int]]]:
    """Tracks and places of groups with a refused telegram."""
    return ((data.group.track, data.place) for data in decoded.groups if data.group.unread)


def parts(some: Iterable[Thing], most: int) -> Iterator[List[Thing]]:
    """Things in the order of their places, those together that are at most so far from the one before."""
    part: List[Thing] = []
    for each in some:
        if part and each.place - part[-1].place > most:
            yield part
            part = []
        part.append(each)
    if part:
        yield part


def rear(place: int, way: int, length: int) -> Extent:
    """The places in rear of a place up to a distance."""
    return (place - length, place) if way == 1 else (place, place + length)


def leaves(options: Options, decoded: Decoded, passage: Passage, place: int) -> bool:
    """Whether trains may leave the track before a place, by a `point` of the track plan."""
    group = passage.group.group if passage.group else None
    if options.plan is None or group is None or group.km is None or not options.plan.of_kind("point"):
        return False
    km = decoded.chainages[group.track].kilometre(place)
    return bool(options.plan.points_between(group.track, group.km, km, passage.way or 0))


def leads_elsewhere(decoded: Decoded, passage: Passage, packet: Packet, place: int) -> str:
    """Why packets 5 of an aspect with a packet lead to another track before a place ahead of its group, or nothing."""
    data, distance = passage.group, abs(place - (passage.place(0) or 0))
    if not distance or data is None:
        return ""
    own = (each for each in data.passages if each.direction == passage.direction)
    links = (link for each in own if packet in each.said for link in each.links)
    tracks = {link.target.track for link in links if link.target and link.total <= distance}
    return next(filter(None, (apart(data.group.track, track) for track in sorted(tracks))), "")


class Passed:
    """Over which kilometres packets 5 lead, by track and way. Places count along the way."""

    def __init__(self, line: Line) -> None:
        self._spans: Dict[Tuple[str, int], List[Tuple[int, int]]] = {}
        self._unknown: List[Tuple[str, Optional[int]]] = []
        for chain in line.chains:
            sender = chain.sender
            way, place = (sender.along(chain.direction), sender.place) if sender else (None, None)
            if sender and way is not None and place is not None:
                end = place * way + chain.links[-1].total
                if not chain.links[-1].known:
                    self._unknown.append((sender.track, end * way))
                self._spans.setdefault((sender.track, way), []).append((place * way, end))
            elif sender and not chain.links[-1].known:
                self._unknown.append((sender.track, None))
        for spans in self._spans.values():
            spans.sort()
            farthest = -(10**12)
            for index, (begin, end) in enumerate(spans):
                farthest = max(farthest, end)
                spans[index] = begin, farthest

    def is_passed(self, track: str, place: int, way: int) -> bool:
        """Whether a packet 5 that holds in this way leads past a place."""
        spans = self._spans.get((track, way), [])
        index = bisect_left(spans, (place * way,))
        return index > 0 and spans[index - 1][1] > place * way

    def leads_to_repositioning(self, track: str, place: int) -> bool:
        """Whether a last link with NID_BG 16,383 leads near a place, or may do so: on another track places differ."""
        return any(own != track or at is None or abs(at - place) <= REPOSITIONED for own, at in self._unknown)

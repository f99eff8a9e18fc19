"""Profiles of groups along a track, as rules E13 and E19 compare them.

Places count in the direction of passage: those of trains towards lower kilometres are below 0.
"""
from __future__ import annotations

from typing import Dict, Iterable, Iterator, List, Mapping, NamedTuple, Optional, Sequence, Tuple

from balisekit.etcs.geometry import ELEMENT_KEYS
from balisekit.rules.decoded import Decoded, once
from balisekit.rules.facts import sender
from balisekit.rules.passages import GroupData, Passage
from balisekit.rules.rule import Options
from balisekit.rules.telegrams import GRADIENTS, LINKING, SPEEDS, Packet, allowance
from balisekit.rules.touching import longer

APART = 5
"""By how many per mille gradients of two groups may differ."""
FACTORS = (10, 100)
"""Between two numbers of Q_SCALE."""
Step = Tuple[int, int, int]
"""From a place to another one, a value."""
Lanes = Mapping[Tuple[str, int], Sequence["Profiles"]]


class Aspect:
    """A profile that a group gives in one of its aspects."""

    __slots__ = ("passage", "packet", "origin", "stretches")

    def __init__(self, passage: Passage, packet: Packet, origin: int, up: int = 1, down: int = 1) -> None:
        """`origin` is the place of the group. Distances are multiplied and divided, to try another Q_SCALE."""
        self.passage, self.packet, self.origin = passage, packet, origin
        self.stretches = _stretches(packet, origin, up, down)
        """Its stretches with an end, by their places."""

    def step_at(self, place: int) -> Optional[int]:
        """The value at a place, or None if it gives none there."""
        return next((value for begin, end, value in self.stretches if begin <= place < end), None)

    def steps_at(self, places: Sequence[int]) -> Sequence[Optional[int]]:
        """The value at each of these places, which rise, or None."""
        found: List[Optional[int]] = []
        index, stretches = 0, self.stretches
        for place in places:
            while index < len(stretches) and stretches[index][1] <= place:
                index += 1
            is_covered = index < len(stretches) and stretches[index][0] <= place
            found.append(stretches[index][2] if is_covered else None)
        return found

    def value_at(self, place: int) -> int:
        """The value at a place that it covers."""
        return self.step_at(place) or 0

    def scale_of(self, other: Aspect) -> str:
        """By which factor its distances have to be changed to say what another profile says, in words."""
        for factor in FACTORS:
            if Aspect(self.passage, self.packet, self.origin, factor).agrees_with(other):
                return f"{factor} times too small"
            if Aspect(self.passage, self.packet, self.origin, 1, factor).agrees_with(other):
                return f"{factor} times too large"
        return ""

    def agrees_with(self, other: Aspect) -> bool:
        """Whether both say the same over the stretch that both cover, of which one stretch ends within it."""
        if not self.stretches or not other.stretches:
            return False
        low = max(self.stretches[0][0], other.stretches[0][0])
        high = min(self.stretches[-1][1], other.stretches[-1][1])
        return any(low < begin < high for begin, _, _ in self.stretches) and agree(self, other, low, high)


def _stretches(packet: Packet, origin: int, up: int, down: int) -> Sequence[Step]:
    own = [(begin, end, value) for begin, end, value, _ in packet.stretches if end is not None]
    return [(origin + begin * up // down, origin + end * up // down, value) for begin, end, value in own]


class Profiles:
    """All profiles of one kind that a group gives to trains of one way."""

    __slots__ = ("data", "track", "way", "begin", "reach", "first", "_longest", "_sayings", "_differ")

    def __init__(self, data: GroupData, way: int, sayings: Sequence[Tuple[Passage, Packet]], differ: bool) -> None:
        """`sayings` has each profile, and `differ` says whether its aspects have different packets 5."""
        self.data, self.track, self.way = data, data.group.track, way
        self.begin = way * (data.place or 0)
        """The place of the group."""
        self._longest = sayings[0] if len(sayings) == 1 else max(sayings, key=_length)
        stretches = self.longest.stretches
        self.reach = stretches[-1][1] if stretches else self.begin
        self.first = stretches[0][0] if stretches else self.begin
        """From where on that profile holds."""
        self._sayings, self._differ = sayings, differ

    @property
    def is_of_message(self) -> bool:
        """Whether a radio message gives them."""
        return self.longest.passage.message is not None

    @property
    def unit(self) -> int:
        """The least unit of their distances, in decimetres."""
        return min([packet.unit for _, packet in self._sayings])

    @property
    def longest(self) -> Aspect:
        """The profile that reaches farthest. (It is made when it is asked for: those of a large table take memory.)"""
        return Aspect(*self._longest, self.begin)

    @property
    def aspects(self) -> Sequence[Aspect]:
        """All of them."""
        longest = self.longest
        return [
            longest if packet is longest.packet else Aspect(one, packet, self.begin) for one, packet in self._sayings
        ]

    def naming(self, ahead: Profiles, decoded: Decoded) -> Sequence[Aspect]:
        """The aspects whose packets 5 name a group, or all if none does."""
        aspects = self.aspects
        return [each for each in aspects if _names(decoded, each.passage, ahead.data)] or aspects

    def names(self, ahead: Profiles, decoded: Decoded) -> bool:
        """Whether the longest aspect is one of those that are compared with the group."""
        return not self._differ or any(each.packet is self._longest[1] for each in self.naming(ahead, decoded))


def _length(saying: Tuple[Passage, Packet]) -> int:
    """How far a profile reaches, if its end mark is the last element."""
    packet = saying[1]
    key = ELEMENT_KEYS[packet.number][0]
    return sum([each[key] for each in packet.form["elements"]]) * packet.unit


class Piece(NamedTuple):
    """A stretch on which a group and one ahead of it differ, with an aspect of each that covers it."""

    low: int
    high: int
    rear: Aspect
    ahead: Aspect
    all: Sequence[Aspect]
    """All aspects of both groups that cover it."""

    def alike(self, aspect: Aspect) -> Iterator[Aspect]:
        """The aspects of the same group that give the same value there."""
        value = aspect.value_at(self.low)
        for each in self.all:
            if each.passage.group is aspect.passage.group and each.value_at(self.low) == value:
                yield each

    def fact(self, decoded: Decoded, track: str, way: int) -> str:
        """The stretch with all that is said of it."""
        ends = [decoded.km(track, place * way) for place in (self.low, self.high)]
        return f"{ends} {sorted(f'{sender(each.passage, each.packet)} {each.value_at(self.low)}' for each in self.all)}"


@once
def lanes_of(decoded: Decoded) -> Mapping[int, Lanes]:
    """By NID_PACKET: the profiles by track and way, in the order of passing."""
    made: Dict[int, Dict[Tuple[str, int], List[Profiles]]] = {SPEEDS: {}, GRADIENTS: {}}
    for data in decoded.speaking:
        for kind, profiles in _of_group(data) if data.place is not None and not data.group.unread else ():
            made[kind].setdefault((profiles.track, profiles.way), []).append(profiles)
    for lanes in made.values():
        for lane in lanes.values():
            lane.sort(key=lambda each: each.begin)
    return made


def unplaced_of(decoded: Decoded, *numbers: int) -> Mapping[Tuple[int, GroupData, str], str]:
    """Why profiles of groups are in no lane: by NID_PACKET, group and direction."""
    own = ((number, passage) for passage in decoded.unplaced for number in numbers if passage.of(number))
    groups = ((number, passage.group, passage) for number, passage in own if not passage.message)
    return {(number, data, passage.direction): passage.lacks for number, data, passage in groups if data}


def _of_group(data: GroupData) -> Iterator[Tuple[int, Profiles]]:
    """The profiles of a group with their NID_PACKET."""
    sayings: Dict[Tuple[int, int], List[Tuple[Passage, Packet]]] = {}
    linking: Dict[int, List[List[Packet]]] = {}
    for passage in data.passages:
        way = passage.way
        if way is not None:
            links = []
            for packet in passage.said:
                number = packet.number
                if number == SPEEDS or number == GRADIENTS:
                    sayings.setdefault((number, way), []).append((passage, packet))
                elif number == LINKING:
                    links.append(packet)
            linking.setdefault(way, []).append(links)
    for (number, way), some in sayings.items():
        first, *others = linking[way]
        yield number, Profiles(data, way, some, any(each != first for each in others))


def pairs(lane: Sequence[Profiles]) -> Iterator[Tuple[Profiles, Profiles, int]]:
    """Each group with the next ones ahead, and from where on: where no group between them has a profile."""
    for index, rear in enumerate(lane):
        covered = rear.begin
        for ahead in lane[index + 1 : index + 9]:
            if ahead.begin >= rear.reach or covered >= rear.reach:
                break
            if ahead.begin > rear.begin and ahead.reach > covered:
                yield rear, ahead, covered
                covered = ahead.reach


def agree(one: Aspect, other: Aspect, low: int, high: int) -> bool:
    """Whether two profiles agree from one place to another one, as far as both cover it."""
    return longest_difference(one, other, low, high) == 0


def longest_difference(one: Aspect, other: Aspect, low: int, high: int) -> int:
    """How long the longest stretch between two places is on which two profiles never agree, as far as both cover it."""
    apart, some, others = 0 if one.packet.number == SPEEDS else APART, one.stretches, other.stretches
    first = second = longest = 0
    since, until = low, low - 1
    while first < len(some) and second < len(others):
        begin, end, value = some[first]
        other_begin, other_end, other_value = others[second]
        if abs(value - other_value) > apart:
            start, stop = max(begin, other_begin, low), min(end, other_end, high)
            if start < stop:
                since, until = since if start == until else start, stop
                longest = max(longest, until - since)
        first, second = first + (end <= other_end), second + (other_end <= end)
    return longest


def pieces_of(rear: Sequence[Aspect], ahead: Sequence[Aspect], low: int, high: int) -> Iterator[Piece]:
    """The stretches on which no aspect of one group says what some aspect of the other one says."""
    cuts = {low, high, *(place for each in (*rear, *ahead) for step in each.stretches for place in step[:2])}
    places = sorted(place for place in cuts if low <= place <= high)
    own, other = (zip(*(each.steps_at(places) for each in aspects)) for aspects in (rear, ahead))
    open_piece: Optional[Piece] = None
    for begin, end, *values in zip(places, places[1:], own, other):
        some, others = (
            [(each, value) for each, value in zip(aspects, steps) if value is not None]
            for aspects, steps in zip((rear, ahead), values)
        )
        piece = _piece(begin, end, some, others)
        if open_piece and piece and _continues(open_piece, piece):
            open_piece = open_piece._replace(high=end)
            continue
        if open_piece:
            yield open_piece
        open_piece = piece
    if open_piece:
        yield open_piece


def long_pieces(decoded: Decoded, options: Options, pieces: Iterable[Piece]) -> List[Piece]:
    """Those that are longer than `--tolerance` and rounding, together with those that touch them."""

    def allowed(piece: Piece) -> int:
        parts = (allowance(each.packet, len(each.stretches)) for each in (piece.rear, piece.ahead))
        return decoded.tolerance(options.tolerance_of_places, *parts)

    return [piece for some in longer(pieces, lambda each: (each.low, each.high), allowed) for piece in some]


def _piece(
    begin: int, end: int, some: Sequence[Tuple[Aspect, int]], others: Sequence[Tuple[Aspect, int]]
) -> Optional[Piece]:
    if not some or not others:
        return None
    apart = 0 if some[0][0].packet.number == SPEEDS else APART
    if any(abs(value - other) <= apart for _, value in some for _, other in others):
        return None
    return Piece(begin, end, some[0][0], others[0][0], [each for each, _ in (*some, *others)])


def _continues(before: Piece, piece: Piece) -> bool:
    """Whether the values on both sides of a cut are the same."""
    return before.high == piece.low and all(
        one.value_at(before.low) == other.value_at(piece.low)
        for one, other in ((before.rear, piece.rear), (before.ahead, piece.ahead))
    )


def cause_of(own: Profiles, other: Profiles, piece: Piece, is_rear: bool) -> str:
    """What looks like the cause, if the first group is the wrong one."""
    aspects = (piece.rear, piece.ahead) if is_rear else (piece.ahead, piece.rear)
    value, other_value = (each.value_at(piece.low) for each in aspects)
    if aspects[0].packet.number == SPEEDS and value == 5 * other_value:
        return ": is V_STATIC in km/h instead of steps of 5 km/h?"
    if aspects[0].packet.number == GRADIENTS and value == -other_value:
        return ": is Q_GDIR wrong?"
    factor = own.longest.scale_of(other.longest)
    return f": are its distances {factor}, by Q_SCALE?" if factor else ""


def _names(decoded: Decoded, passage: Passage, data: GroupData) -> bool:
    """Whether a packet 5 of a passage names a group."""
    return any(link.target is data.group for link in passage.links)

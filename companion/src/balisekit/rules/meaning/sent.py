"""What several rules E need: each packet of a table once, what is wrong with it, and values in words."""
from __future__ import annotations

from decimal import Decimal
from functools import lru_cache
from typing import Callable, Dict, Iterable, Iterator, List, Mapping, NamedTuple, Optional, Sequence, Tuple, TypeVar

from balisekit.etcs.geometry import ELEMENT_KEYS
from balisekit.rules.decoded import Decoded, Owner, tolerance_of_lengths
from balisekit.rules.line import Line
from balisekit.rules.location import Location
from balisekit.rules.passages import GroupData, Passage
from balisekit.rules.rule import Field, Options, Remark, Result
from balisekit.rules.telegrams import Packet, Stretch, allowance

Key = TypeVar("Key")
FAR = 10**12
"""The end of a profile without an end, beyond all others."""


class Fault(NamedTuple):
    """What is wrong with a packet: a sentence, and the values that it has."""

    words: str
    values: Mapping[str, Decimal]
    fields: Sequence[Tuple[str, Optional[int]]] = ()
    """The keys of the fields that look wrong, and of which element each is, counted from 0."""


def sent(decoded: Decoded, *numbers: int) -> Iterator[Tuple[Owner, Packet]]:
    """Each packet with these NID_PACKET once, and who sends it: those of groups, then those of messages."""
    for number in numbers:
        yield from decoded.sent(number)


def located(owner: Owner, packet: Packet) -> Location:
    """Where a packet is, for a remark about no direction."""
    if isinstance(owner, GroupData):
        return owner.of_packet(packet)
    return owner.at(packet)._replace(direction="")


def of_packets(rule: str, line: Line, numbers: Sequence[int], look_at: Callable[[Packet], List[Fault]]) -> Result:
    """Looks at each packet with these numbers. All faults of a packet are one remark."""
    found, count = [], 0
    for owner, packet in sent(line.decoded, *numbers):
        count += 1
        faults = look_at(packet)
        if faults:
            passage = _passage(line.decoded, owner, packet)
            places = [_place(passage, packet, fault) for fault in faults]
            placed = [_with_km(line.decoded, fault, at) for fault, at in zip(faults, places)]
            marks = [(packet.row, at[0].direction, at[1]) for at in places if at]
            found.append(remark(rule, located(owner, packet), placed)._replace(marks=marks))
    return Result(found, count)


def _place(passage: Optional[Passage], packet: Packet, fault: Fault) -> Optional[Tuple[Passage, int]]:
    """In which direction a fault is, and how far from the group, if it is about a field in one direction."""
    if passage is None or not fault.fields or packet.form.get("q_dir") == 2:
        return None
    element, keys = fault.fields[0][1], ELEMENT_KEYS.get(packet.number)
    if element is None:
        return passage, 0
    if keys is None:
        return None
    return passage, sum(each[keys[0]] for each in packet.form["elements"][: element + 1]) * packet.unit


def _passage(decoded: Decoded, owner: Owner, packet: Packet) -> Optional[Passage]:
    """The first passage in which a packet counts from the group that sends it, or from the group of its message."""
    if isinstance(owner, GroupData):
        return decoded.first_passages.get(id(packet))
    return owner if packet in owner.said else None


def _with_km(decoded: Decoded, fault: Fault, at: Optional[Tuple[Passage, int]]) -> Fault:
    """The same fault with the kilometre of its element, if that is known."""
    place = at[0].place(at[1]) if at and fault.fields[0][1] is not None else None
    if at is None or place is None:
        return fault
    return fault._replace(words=f"at {decoded.km(at[0].track, place)}, {fault.words}")


def remark(rule: str, location: Location, faults: Sequence[Fault]) -> Remark:
    """One remark about these faults."""
    values: Dict[str, Decimal] = {}
    for fault in faults:
        for name, value in fault.values.items():
            values[name if name not in values else f"{name}_{len(values)}"] = value
    keys = [key for fault in faults for key in fault.fields]
    blamed = [(location.row.number, location.packet or 0, *key) for key in keys] if location.row else []
    return Remark(rule, location, "; ".join(fault.words for fault in faults), values=values, blamed=blamed)


def field_at(packet: Packet, distance: int) -> List[Field]:
    """The speed or gradient of a profile at a distance. One of a message is in no row."""
    place = sum(each.begin <= distance for each in packet.stretches) - 1
    return [(packet.row.number, packet.place, ELEMENT_KEYS[packet.number][1], place)] if packet.row else []


def tolerance(options: Options, *parts: Tuple[Packet, int]) -> int:
    """By how many decimetres sums of lengths of these packets may differ. Each packet has the number of its lengths.

    They count from one group, so that the kilometres do not matter.
    """
    return tolerance_of_lengths(options.tolerance_of_places, *(allowance(packet, lengths) for packet, lengths in parts))


def speed(value: int) -> str:
    """A speed, and how it is sent: `500 km/h [100]`."""
    return f"{value * 5} km/h [{value}]"


@lru_cache(maxsize=None)
def kmh(value: int) -> Decimal:
    """A speed in km/h, as a value of a remark."""
    return Decimal(value * 5)


def distance(decimetres: int) -> Decimal:
    """A distance in metres, as a value of a remark."""
    return Decimal(decimetres) / 10


def by_culprit(pairs: Sequence[Tuple[Key, Key]]) -> Iterator[Tuple[Key, List[Key]]]:
    """Of things that disagree in pairs: the one that most others disagree with, these others, and so on with the rest.

    One thing that is wrong disagrees with all others, and that is one remark.
    """
    of: Dict[Key, Dict[int, Tuple[Key, Key]]] = {}
    """The pairs that are left of each thing, by their places."""
    for place, pair in enumerate(pairs):
        for each in pair:
            of.setdefault(each, {})[place] = pair
    while of:
        culprit = max(of, key=lambda each: (len(of[each]), *_first(each, of[each])))
        own = of.pop(culprit)
        others = [(place, other) for place, pair in own.items() for other in pair if other != culprit]
        yield culprit, [other for _, other in others]
        for place, other in others:
            del of[other][place]
        of = {each: left for each, left in of.items() if left}


def _first(each: Key, left: Mapping[int, Tuple[Key, Key]]) -> Tuple[int, bool]:
    """Of things that are in equally many pairs the one with the first pair counts, and in that the second one."""
    place, pair = next(iter(left.items()))
    return -place, pair[1] == each


def contrary(
    some: Sequence[Stretch], others: Sequence[Stretch], reach: int, apart: int
) -> Iterator[Tuple[int, int, int, int]]:
    """The stretches up to a distance on which two profiles differ by more than `apart`, with both values."""
    place = 0
    for begin, end, value, _ in some:
        if begin >= reach:
            break
        end = reach if end is None or end > reach else end
        while place < len(others):
            other_begin, other_end, other_value, _ = others[place]
            other_end = reach if other_end is None or other_end > reach else other_end
            if abs(value - other_value) > apart and max(begin, other_begin) < min(end, other_end):
                yield max(begin, other_begin), min(end, other_end), value, other_value
            if other_end >= end:
                break
            place += 1


def are_contrary(packets: Iterable[Packet], apart: int) -> bool:
    """Whether any two of these profiles differ by more than `apart` anywhere. Profiles of one track do not."""
    by_value: Dict[int, List[Tuple[int, int]]] = {}
    for packet in packets:
        for begin, end, value, _ in packet.stretches:
            by_value.setdefault(value, []).append((begin, FAR if end is None else end))
    spans = sorted((*span, value) for value, own in by_value.items() for span in _united(own))
    for place, (_, end, value) in enumerate(spans):
        for begin, _, other in spans[place + 1 :]:
            if begin >= end:
                break
            if abs(value - other) > apart:
                return True
    return False


def _united(spans: List[Tuple[int, int]]) -> Iterator[Tuple[int, int]]:
    """The stretches that these cover, in their order."""
    first, last = 0, -1
    for begin, end in sorted(spans):
        if begin > last and last > first:
            yield first, last
        first, last = (begin, end) if begin > last else (first, max(last, end))
    if last > first:
        yield first, last

"""The one signal of a table that has no packet 5, although trains meet a linked group within its authority. For E17."""
from __future__ import annotations

from decimal import Decimal
from typing import AbstractSet, Dict, Iterator, Mapping, NamedTuple, Sequence, Tuple

from balisekit.rules.decoded import Decoded
from balisekit.rules.facts import counted, group_words, sender
from balisekit.rules.line import Line
from balisekit.rules.location import BaliseGroup
from balisekit.rules.meaning.along import End, Lane, lane_of
from balisekit.rules.meaning.reach import LESS, Reach
from balisekit.rules.rule import Remark
from balisekit.rules.telegrams import LINKING

LEAST, REAR = 4, 20_000
"""How many other signals must have a packet 5, and how far in rear in decimetres other groups may have its links."""
OF_OTHERS = (1, 2, 3)
"""What the program finds if a telegram of the group is missing, in a wrong place, or another group's."""
Key = Tuple[int, str]
"""A group, and the direction of its trains."""


class Signal(NamedTuple):
    """A group that lets trains pass a linked group ahead of it."""

    end: End
    ahead: BaliseGroup
    """The first linked group that such trains meet."""
    is_linking: bool
    """Whether it has a packet 5 for this direction, in any aspect."""


def signal_without_links(
    line: Line, lanes: Mapping[Lane, Reach], ends: Sequence[End], named: AbstractSet[int]
) -> Iterator[Remark]:
    """The signal without a packet 5, if all others have one, and it is not among the groups that are named already."""
    decoded = line.decoded
    signals = _signals(decoded, lanes, ends)
    without = [each for each in signals.values() if not each.is_linking]
    if len(without) != 1 or len(signals) <= LEAST or id(without[0].end.passage.group) in named:
        return
    (signal,) = without
    data = signal.end.passage.group
    if data is None or _has_others(decoded, signal.end, signals):
        return
    if any(line.has(rule, data.group) for rule in OF_OTHERS):
        return
    count = len(signals) - 1
    words = (
        f"this group has no packet 5 for {signal.end.passage.direction} direction, although its authorities lead past "
        f"{signal.ahead}: all {count} other groups with such authorities have one"
    )
    others = (each for each in signals.values() if each.is_linking)
    facts = [group_words(signal.ahead), counted(sender(each.end.passage, each.end.packet) for each in others)]
    rows = sorted({row.number for row in data.group.group.rows()})
    values = {"others_with_packet_5": Decimal(count)}
    yield Remark("E17", data.location(), words, values=values, rows=tuple(rows), facts=facts)


def _signals(decoded: Decoded, lanes: Mapping[Lane, Reach], ends: Sequence[End]) -> Dict[Key, Signal]:
    """The groups whose authorities lead past a linked group, by the farthest end of each."""
    farthest: Dict[Key, End] = {}
    for end in ends:
        data = end.passage.group
        if data is not None and end.passage.message is None and not data.group.unread:
            key = id(data), end.passage.direction
            farthest[key] = max(farthest.get(key, end), end, key=lambda each: each.distance)
    return {key: signal for key, end in farthest.items() for signal in _of_end(decoded, lanes, end)}


def _of_end(decoded: Decoded, lanes: Mapping[Lane, Reach], end: End) -> Iterator[Signal]:
    """The signal with this end of authority."""
    data, (track, way) = end.passage.group, lane_of(end.passage)
    begin = (end.passage.place(0) or 0) * way
    places = lanes[track, way].groups_between(begin, end.place * way + LESS)
    if data is not None and places:
        groups = decoded.between(track, places[0] * way, places[0] * way)
        ahead = next((each.group for each in groups if each.group.linked), None)
        passages = [each for each in data.passages if each.direction == end.passage.direction]
        if ahead is not None:
            yield Signal(end, ahead, any(passage.of(LINKING) for passage in passages))


def _has_others(decoded: Decoded, end: End, signals: Mapping[Key, Signal]) -> bool:
    """Whether groups that are no signals have packets 5 near a signal, or at places that are not known."""
    begin, way = end.passage.place(0) or 0, end.passage.way or 0
    for passage in decoded.passages:
        if passage.of(LINKING) and (id(passage.group), passage.direction) not in signals:
            place = passage.place(0)
            if place is None or passage.way is None:
                return True
            if lane_of(passage) == lane_of(end.passage) and -REAR <= (place - begin) * way <= end.distance:
                return True
    return False

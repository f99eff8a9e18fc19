"""The speeds and gradients of a line as its telegrams imply them: from where to where each value holds.

Telegrams that round by other units of Q_SCALE place one change apart. It is where the finest of them place it, if the
others may mean this place.
"""
from __future__ import annotations

from bisect import bisect_left, insort
from collections import Counter
from typing import Dict, Iterable, Iterator, List, Mapping, NamedTuple, Optional, Sequence, Set, Tuple

from balisekit.rules.passages import Passage
from balisekit.rules.telegrams import Packet, allowance
from balisekit.rules.track_plan.covered import Covered
from balisekit.rules.track_plan.placed import PlacedPlan, Saying
from balisekit.rules.track_plan.stretches import span

Lane = Tuple[str, int]
"""A track, and a way."""
Held = Tuple[int, int, int]
"""From one place to another one, and the value."""


class End(NamedTuple):
    """Where an element begins or ends."""

    place: int
    tolerance: int
    """By how much rounding may have moved it, in decimetres."""
    is_change: bool
    """Whether another element of the profile is on its other side."""


class Said(NamedTuple):
    """A value from one place to another one, by one group."""

    low: End
    high: End
    value: int
    group: int
    """The group's place in the table."""
    rear: int
    """How far the group is along its way: the greatest is the nearest one in rear."""
    leaves: bool
    """Whether the train may have left the track there, by the groups that its packets 5 name."""


def profiles(placed: PlacedPlan, number: int, skipped: Counter[str]) -> Mapping[Lane, Sequence[Held]]:
    """What profiles with this NID_PACKET say of each way of each track, in the order of the kilometres."""
    lanes: Dict[Lane, List[Said]] = {}
    for saying in placed.sayings(number):
        passage = saying.passage
        found = list(_said(placed, passage, saying.packet, skipped))
        if found:
            lanes.setdefault((passage.track, passage.way or 0), []).extend(found)
    return {lane: list(_merged(_of_the_track(_at_finest(some)))) for lane, some in lanes.items()}


def on_track_up_to(placed: PlacedPlan, passage: Passage) -> Optional[int]:
    """The last place at which the train is certainly on its track, if it may leave the track. Else it is None.

    It may if a packet 5 leads to another track: then it is on its own one up to the last group of it that is named
    before. It also may if no packet 5 names a group, and the track has no group ahead.
    """
    way, sure, is_linked = passage.way, passage.place(0), False
    if way is None or sure is None:
        return None
    for link in passage.links:
        if link.target and link.target.track != passage.track:
            return sure
        if link.target and link.target.place is not None:
            sure, is_linked = way * max(way * sure, way * link.target.place), True
    places = placed.decoded.places.get(passage.track, (sure,))
    return None if is_linked or way * places[-1 if way > 0 else 0] > way * sure else sure


def _said(placed: PlacedPlan, passage: Passage, packet: Packet, skipped: Counter[str]) -> Iterator[Said]:
    """The elements of a profile with their places. Reasons why others have none are counted, each once."""
    found = [span(Saying(passage, packet), element) for element in packet.stretches]
    skipped.update({why: 1 for _, why in found if why})
    sure, group, last = on_track_up_to(placed, passage), passage.group, len(found) - 1
    for place, ((ends, _), element) in enumerate(zip(found, packet.stretches)):
        if ends and group and passage.way:
            begin, end = (
                End(each, allowance(packet, place + 1 + later) + placed.decoded.resolution, is_change)
                for later, (each, is_change) in enumerate(zip(ends, (place > 0, place < last)))
            )
            leaves = sure is not None and passage.way * end.place > passage.way * sure
            rear = passage.way * (group.place or 0)
            low, high = min(begin, end), max(begin, end)
            yield Said(low, high, element.value, group.group.number, rear, leaves)


def _at_finest(some: Iterable[Said]) -> Sequence[Said]:
    """The same with each end at the place of a change that others give more finely, if there is one near enough."""
    some = list(some)
    ends = [end for said in some for end in (said.low, said.high) if end.is_change]
    counts, finest = Counter(end.place for end in ends), {end.place: end.tolerance for end in ends}
    for end in ends:
        finest[end.place] = min(finest[end.place], end.tolerance)
    chosen: List[int] = []
    for place in sorted(counts, key=lambda place: (finest[place], -counts[place], place)):
        near = _nearest(chosen, place)
        if near is None or abs(near - place) > finest[place]:
            insort(chosen, place)
    return [said._replace(low=_moved(said.low, chosen), high=_moved(said.high, chosen)) for said in some]


def _moved(end: End, chosen: Sequence[int]) -> End:
    near = _nearest(chosen, end.place)
    return end if near is None or abs(near - end.place) > end.tolerance else end._replace(place=near)


def _nearest(chosen: Sequence[int], place: int) -> Optional[int]:
    """The one of some sorted places that is nearest."""
    index = bisect_left(chosen, place)
    some = sorted(chosen[max(index - 1, 0) : index + 1], key=lambda other: abs(place - other))
    return some[0] if some else None


def _of_the_track(some: Sequence[Said]) -> Sequence[Said]:
    """The same without what trains are told that may have left the track, wherever others are told something too."""
    own = [said for said in some if not said.leaves]
    covered = Covered((said.low.place, said.high.place) for said in own)
    leaving = (said for said in some if said.leaves)
    parts = ((said, part) for said in leaving for part in covered.gaps(said.low.place, said.high.place))
    return [*own, *(_part(said, *part) for said, part in parts)]


def _part(said: Said, low: int, high: int) -> Said:
    """What is said between two places."""
    return said._replace(low=said.low._replace(place=low), high=said.high._replace(place=high))


def _merged(some: Sequence[Said]) -> Iterator[Held]:
    """What is said of each stretch of a track: what most groups say, and of equally many the nearest one in rear."""
    waiting = sorted(some, key=lambda said: said.low.place, reverse=True)
    active: List[Said] = []
    last: Optional[Held] = None
    places = sorted({place for said in some for place in (said.low.place, said.high.place)})
    for low, high in zip(places, places[1:]):
        while waiting and waiting[-1].low.place <= low:
            active.append(waiting.pop())
        active = [said for said in active if said.high.place > low]
        if not active:
            continue
        value = _most_said(active)
        if last and last[1:] == (low, value):
            last = last[0], high, value
        else:
            yield from [last] if last else []
            last = low, high, value
    yield from [last] if last else []


def _most_said(active: Sequence[Said]) -> int:
    groups: Dict[int, Set[int]] = {}
    rear: Dict[int, int] = {}
    for said in active:
        groups.setdefault(said.value, set()).add(said.group)
        rear[said.value] = max(rear.get(said.value, said.rear), said.rear)
    return max(groups, key=lambda value: (len(groups[value]), rear[value]))

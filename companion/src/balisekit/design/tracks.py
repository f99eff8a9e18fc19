"""What a design says of its tracks, place by place: from where to where speeds and gradients hold, and what is where.

A row whose kilometre is in a gap of the kilometres, or is there twice, has no place, and nothing is expected of it.
"""
from __future__ import annotations

from bisect import bisect_left, bisect_right
from decimal import Decimal
from typing import Dict, Iterator, NamedTuple, Optional, Sequence, Tuple

from balisekit.tables.chainage import Chainage, Jump
from balisekit.tables.names import clean
from balisekit.tables.plan import Lane, Plan, PlanRow


class Start(NamedTuple):
    """Where a train is that passes a group, from which the distances of its telegrams count."""

    track: str
    way: int
    """1 if the train runs towards greater kilometres, -1 if towards lower ones."""
    place: int
    """In decimetres along the track, as all places."""

    def at(self, distance: int) -> int:
        """The place at this distance."""
        return self.place + self.way * distance


class PlanStretch(NamedTuple):
    """A speed or gradient of the plan for trains of one way, from one place to another one."""

    row: PlanRow
    begin: int
    end: Optional[int]
    """Without it there is no end."""
    value: int


class Spot(NamedTuple):
    """A row of the plan with its one place."""

    row: PlanRow
    place: int


class Area(NamedTuple):
    """What a row of the plan states between two distances from a group, as its trains pass it."""

    row: PlanRow
    begin: int
    end: int
    """The same as the beginning for a row with one place."""


class Placed(NamedTuple):
    """A row of the plan from one place to another one."""

    row: PlanRow
    low: int
    high: int


class Element(NamedTuple):
    """What a profile of a group has to say between two distances from it, and the row of the design that says so."""

    begin: int
    end: int
    value: int
    row: PlanRow


class Tracks:
    """The tracks of a design."""

    def __init__(self, plan: Plan, jumps: Sequence[Jump]) -> None:
        self._plan, self._jumps = plan, jumps
        self._chainages: Dict[str, Chainage] = {}
        self._stretches: Dict[Lane, Sequence[PlanStretch]] = {}
        self._begins: Dict[Lane, Sequence[int]] = {}
        self._spots: Dict[Lane, Sequence[Spot]] = {}
        self._lost: Dict[Lane, Sequence[int]] = {}
        self._areas: Dict[Lane, Tuple[Sequence[Placed], Sequence[int], int]] = {}

    def chainage(self, track: str) -> Chainage:
        """The kilometres of a track."""
        name = clean(track)
        if name not in self._chainages:
            self._chainages[name] = Chainage.of(self._jumps, name)
        return self._chainages[name]

    def place(self, track: str, km: Optional[Decimal]) -> Optional[int]:
        """The place of a kilometre, if it has one."""
        return self.chainage(track).place(km)

    def stretches(self, kind: str, track: str, way: int) -> Sequence[PlanStretch]:
        """The speeds or gradients for trains of one way of a track, in the order of the kilometres."""
        lane = kind, track, way
        if lane not in self._stretches:
            ends = (
                (each, self.place(track, each.begin), self.place(track, each.end))
                for each in self._plan.stretches(kind, track, way)
            )
            found = [
                PlanStretch(each.row, begin, end, each.value)
                for each, begin, end in ends
                if begin is not None and (each.end is None or end is not None)
            ]
            self._stretches[lane] = sorted(found, key=lambda part: part.begin)
            self._begins[lane] = [part.begin for part in self._stretches[lane]]
        return self._stretches[lane]

    def profile(self, kind: str, start: Start, begin: int, end: int) -> Iterator[Element]:
        """The speeds or gradients that a profile has to say between two distances, in the order of passing."""
        stretches = self.stretches(kind, start.track, start.way)
        begins = self._begins[kind, start.track, start.way]
        low, high = sorted((start.at(begin), start.at(end)))
        first = max(bisect_right(begins, low) - 1, 0)
        for each in stretches[first : bisect_left(begins, high)][:: start.way]:
            ends = max(low, each.begin), high if each.end is None else min(high, each.end)
            if ends[0] < ends[1]:
                near, far = (start.way * (place - start.place) for place in ends[:: start.way])
                yield Element(near, far, each.value, each.row)

    def spots(self, kind: str, track: str, way: int) -> Sequence[Spot]:
        """The rows of a kind that have one place, for trains of one way of a track, in the order of the kilometres."""
        lane = kind, track, way
        if lane not in self._spots:
            found = [
                Spot(row, place) for row in self._plan.places(kind, track, way) for place in self._places(row, kind)
            ]
            self._spots[lane] = sorted(found, key=lambda spot: spot.place)
        return self._spots[lane]

    def _places(self, row: PlanRow, kind: str) -> Sequence[int]:
        """The place of a row, if it has one. A point where the kilometres are repeated may be at each of its places."""
        if kind == "point":
            return self.chainage(row.track).places(row.km)
        place = self.place(row.track, row.km)
        return [] if place is None else [place]

    def areas(self, kind: str, start: Start, begin: int, end: int) -> Iterator[Area]:
        """What the rows of a kind state for the trains that pass a group, if any of it is between two distances."""
        lane = kind, start.track, start.way
        if lane not in self._areas:
            self._areas[lane] = self._all_areas(lane)
        found, lows, longest = self._areas[lane]
        low, high = sorted((start.at(begin), start.at(end)))
        for each in found[bisect_left(lows, low - longest) : bisect_right(lows, high)]:
            if each.high >= low:
                yield Area(each.row, *sorted(start.way * (place - start.place) for place in each[1:]))

    def _all_areas(self, lane: Lane) -> Tuple[Sequence[Placed], Sequence[int], int]:
        """The rows of a lane from place to place, in their order, where each begins, and the greatest length."""
        found = []
        for row in self._plan.places(*lane):
            ends = self.place(row.track, row.km), self.place(row.track, row.km if row.km_to is None else row.km_to)
            if ends[0] is not None and ends[1] is not None:
                found.append(Placed(row, ends[0], ends[1]))
        found.sort(key=lambda each: each.low)
        return found, [each.low for each in found], max((each.high - each.low for each in found), default=0)

    def is_lost(self, kind: str, start: Start, place: int, tolerance: int) -> bool:
        """Whether a row without one place may be at this place: a jump repeats its kilometre."""
        lane = kind, start.track, start.way
        if lane not in self._lost:
            chainage = self.chainage(start.track)
            lost = [row for row in self._plan.places(*lane) if chainage.place(row.km) is None]
            self._lost[lane] = [each for row in lost for each in chainage.places(row.km)]
        return any(abs(each - place) <= tolerance for each in self._lost[lane])


def nearest(spots: Sequence[Spot], place: int) -> Spot:
    """The one of some rows, in the order of their places, that is nearest to a place."""
    low, high = 0, len(spots) - 1
    while low < high:
        middle = (low + high) // 2
        low, high = (middle + 1, high) if spots[middle].place < place else (low, middle)
    return min(spots[max(low - 1, 0) : low + 1], key=lambda spot: abs(spot.place - place))

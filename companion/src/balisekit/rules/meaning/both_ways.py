"""Gradients of the trains of both ways of a track, on the stretches that both cover."""
from __future__ import annotations

from typing import Dict, Iterator, List, NamedTuple, Optional, Sequence, Tuple

from balisekit.rules.meaning.profiles import Aspect, Profiles
from balisekit.rules.touching import touching

UP, DOWN = 1, -3
"""In per mille: above which sum both ways go up, and up to which gradient a way goes down."""


class Step(NamedTuple):
    """A stretch of a profile: places along the kilometres."""

    low: int
    high: int
    value: int
    aspect: Aspect


class Both(NamedTuple):
    """A stretch that both ways cover, with the values that count."""

    low: int
    high: int
    rising: Step
    falling: Step

    @property
    def values(self) -> Tuple[int, int]:
        """The gradients of both ways."""
        return self.rising.value, self.falling.value


def may_differ(rising: Sequence[Profiles], falling: Sequence[Profiles]) -> bool:
    """Whether the nearest groups of both ways differ, or some groups give nothing as far as the next one."""
    lanes: List[List[Tuple[int, int, int]]] = []
    for lane in (rising, falling):
        steps: List[Tuple[int, int, int]] = []
        for each, after in zip(lane, [*lane[1:], None]):
            until = each.reach if after is None else after.begin
            if each.reach < until:
                return True
            steps += [(low, min(high, until), value) for low, high, value in each.longest.stretches if low < until]
        lanes.append(steps)
    one, other = lanes[0], [(-high, -low, value) for low, high, value in reversed(lanes[1])]
    first = second = 0
    while first < len(one) and second < len(other):
        low, high, value = one[first]
        other_low, other_high, other_value = other[second]
        is_apart = value + other_value > UP or max(value, other_value) <= DOWN
        if is_apart and max(low, other_low) < min(high, other_high):
            return True
        first, second = first + (high <= other_high), second + (other_high <= high)
    return False


def steps(aspect: Aspect, way: int) -> Iterator[Step]:
    """The stretches of a profile along the track. An element whose distance is 0 has none."""
    for begin, end, value in aspect.stretches:
        if begin < end:
            yield Step(min(begin * way, end * way), max(begin * way, end * way), value, aspect)


def least(rising: Sequence[Step], falling: Sequence[Step], is_least: bool) -> Iterator[Both]:
    """Each stretch that both ways cover, with the profiles that go up least, or most."""
    events: List[Tuple[int, int, int, Step]] = []
    for lane, steps in enumerate((rising, falling)):
        for step in steps:
            events += [(step.low, 1, lane, step), (step.high, 0, lane, step)]
    events.sort(key=lambda each: each[:2])
    active: Tuple[Dict[int, Step], Dict[int, Step]] = ({}, {})
    before: Optional[int] = None
    for place, is_begin, lane, step in events:
        if before is not None and place > before and all(active):
            one, other = ((min if is_least else max)(some.values(), key=lambda each: each.value) for some in active)
            yield Both(before, place, one, other)
        if is_begin:
            active[lane][id(step)] = step
        else:
            del active[lane][id(step)]
        before = place


def joined(stretches: Sequence[Both]) -> Iterator[Tuple[Both, int, Sequence[Both]]]:
    """Neighbouring stretches as one: the first one as far as its values go, the end of the last one, and all of them.

    Those that say the same are one there too.
    """
    for touched in touching(stretches, lambda each: (each.low, each.high)):
        some: List[Both] = []
        for each in touched:
            if some and some[-1].values == each.values:
                some[-1] = some[-1]._replace(high=each.high)
            else:
                some.append(each)
        yield some[0], some[-1].high, some

"""Track conditions that look like one, although their places are far apart. For E29."""
from __future__ import annotations

from typing import Callable, Dict, Iterator, List, NamedTuple, Sequence, Tuple

from balisekit.rules.decoded import Decoded, once
from balisekit.rules.meaning.along import Lane, lane_of
from balisekit.rules.meaning.conditions import FAR, LAYOUTS, Condition, Kind

REPEATED = frozenset({(67,), (68, 2)})
"""Big metal masses, and places at which the driver sounds the horn: a track may have several that are alike."""
Agree = Callable[[Condition, Condition], bool]
HasBoth = Callable[[Condition, Condition], bool]


class Place(NamedTuple):
    """What groups and messages state as one condition."""

    conditions: Sequence[Condition]

    @property
    def first(self) -> Condition:
        """The first of them."""
        return self.conditions[0]

    @property
    def senders(self) -> Sequence[int]:
        """Where they are said, along the way."""
        way = self.first.passage.way or 1
        return sorted({(each.passage.place(0) or 0) * way for each in self.conditions})

    def is_far_from(self, other: Place, kind: Kind) -> bool:
        """Whether they are not compared as conditions near each other."""
        return abs(self.first.place - other.first.place) > LAYOUTS[kind[0]].near


def far_places(
    decoded: Decoded, kind: Kind, some: Sequence[Condition], agree: Agree, has_both: HasBoth
) -> Iterator[Tuple[Condition, Condition]]:
    """The conditions that one group has at a place of its own, and the condition that they seem to be.

    All are of one kind, track and way. Of two places that one group each has, that at the lowest kilometre counts.
    """
    places = _places(some, agree) if kind not in REPEATED else []
    for index, place in enumerate(places):
        others = [each for each in places if each is not place and len(each.senders) > 1]
        others += [each for each in places[:index] if len(each.senders) == 1]
        for other in others if len(place.senders) == 1 else ():
            if place.is_far_from(other, kind) and _is_one(decoded, place, other):
                if not has_both(place.first, other.first):
                    yield place.first, other.first
                    break


def _places(some: Sequence[Condition], agree: Agree) -> List[Place]:
    """The conditions by what they state, those at the lowest kilometre first."""
    found: List[List[Condition]] = []
    for each in sorted(some, key=lambda one: one.place):
        same = next((own for own in found if agree(own[0], each)), None)
        if same is None:
            found.append([each])
        else:
            same.append(each)
    return [Place(own) for own in found]


def _is_one(decoded: Decoded, place: Place, other: Place) -> bool:
    """Whether both look like one condition: equally long, and ahead of all groups that state them.

    The group with a place of its own passes over the other place, which several groups have from one in rear of it on.
    Or both places are in one section.
    """
    lane = lane_of(place.first.passage)
    own, its = (each.first.place * lane[1] for each in (place, other))
    (sender,) = place.senders
    if place.first.length != other.first.length or max(sender, *other.senders) > min(own, its):
        return False
    passes_over = len(other.senders) > 1 and sender > other.senders[0] and sender not in other.senders
    groups = _speaking(decoded).get(lane, ())
    between = any(min(own, its) <= each <= max(own, its) for each in groups)
    return passes_over or not between and abs(own - its) <= FAR and sender not in other.senders


@once
def _speaking(decoded: Decoded) -> Dict[Lane, List[int]]:
    """Of each track and way, along it: the groups that say anything to these trains."""
    found: Dict[Lane, List[int]] = {}
    for passage in decoded.passages:
        place = passage.place(0) if passage.way is not None and passage.message is None else None
        if place is not None and passage.speaks:
            found.setdefault(lane_of(passage), []).append(place * (passage.way or 1))
    return found

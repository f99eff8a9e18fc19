"""The ends of authority of a table by the groups to which they lead. For E12."""
from __future__ import annotations

from collections import Counter
from typing import Dict, Iterator, List, NamedTuple, Optional, Sequence, Tuple

from balisekit.rules.decoded import Decoded
from balisekit.rules.location import BEHIND_POINT, BaliseGroup
from balisekit.rules.meaning.along import End, Lane, ends_of, is_named, lane_of, leaves, parts
from balisekit.rules.meaning.ends_between import Key
from balisekit.rules.rule import Options

NEAR, STANDS, ALONE = 2000, 500, 200
"""In decimetres: how near a group is to its end, how near one has to be, and how near ends without links are."""


class Ends(NamedTuple):
    """The ends of authority whose places are known."""

    linked: Dict[Tuple[Lane, BaliseGroup], List[End]]
    """Those that lead to a group."""
    unlinked: Dict[Lane, List[End]]
    """Those of messages without a packet 5."""
    away: List[Tuple[Lane, End]]
    """Those that are not at the group to which they lead."""
    lengths: Dict[Key, int]
    """How long the authorities are."""
    left: Counter[str]
    """How many others there are, by the reason."""


def ends_by_target(decoded: Decoded, options: Options) -> Ends:
    """Where the authorities end, and where they lead."""
    ends = Ends({}, {}, [], {}, Counter())
    for end in ends_of(decoded):
        if leaves(options, decoded, end.passage, end.place):
            ends.left[BEHIND_POINT] += 1
            continue
        lane, target = lane_of(end.passage), _target(end)
        ends.lengths[end.key] = end.distance
        is_at = target is not None and target.place is not None and abs(target.place - end.place) <= STANDS
        if not is_at and not is_named(decoded, options, end, STANDS):
            ends.away.append((lane, end))
        if target is not None:
            ends.linked.setdefault((lane, target), []).append(end)
        elif not end.passage.of(5):
            ends.unlinked.setdefault(lane, []).append(end)
    return ends


def together(ends: Ends) -> Iterator[Tuple[Optional[BaliseGroup], Sequence[End]]]:
    """The ends that are compared with each other, and the group to which they lead."""
    yield from ((target, some) for (_, target), some in ends.linked.items())
    for some in ends.unlinked.values():
        yield from ((None, part) for part in parts(sorted(some, key=lambda each: each.place), ALONE))


def _target(end: End) -> Optional[BaliseGroup]:
    """The group to which the authority leads, by its packets 5. One that is elsewhere by the kilometres is none."""
    links = list(end.passage.links)
    if not links:
        return None
    distance = end.distance
    link = min(links, key=lambda each: abs(each.total - distance))
    if abs(link.total - distance) > NEAR:
        before = [each for each in links if each.total <= distance]
        if not before or len(before) == len(links):
            return None
        link = before[-1]
    by_links, target = end.passage.place(link.total), link.target
    if target is None or target.place is None or by_links is None or abs(by_links - target.place) > NEAR:
        return None
    return target

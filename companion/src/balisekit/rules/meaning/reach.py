"""How far packets 5 lead along a track."""
from __future__ import annotations

from bisect import bisect_left
from collections import defaultdict
from typing import Dict, List, Mapping, Optional, Sequence, Tuple

from balisekit.rules.decoded import Decoded
from balisekit.rules.location import BaliseGroup
from balisekit.rules.meaning.along import Lane
from balisekit.rules.passages import GroupData, Passage
from balisekit.rules.telegrams import LINKING, Packet

LESS = 500
"""In decimetres."""


class Reach:
    """How far the links go, from each place of a track and way on, and where the groups are.

    Places count along the way.
    """

    def __init__(self) -> None:
        self.links: List[Tuple[int, int]] = []
        self.groups: List[int] = []
        self._begins: List[int] = []
        self._farthest: List[int] = []

    def sort(self) -> None:
        """Makes it ready to be asked."""
        self.groups.sort()
        farthest = -(10**12)
        for begin, end in sorted(self.links):
            farthest = max(farthest, end)
            self._begins.append(begin)
            self._farthest.append(farthest)

    def at(self, place: int) -> int:
        """How far the links of all groups up to a place go, or that place."""
        index = bisect_left(self._begins, place + 1)
        return max(self._farthest[index - 1], place) if index else place

    def groups_between(self, low: int, high: int) -> Sequence[int]:
        """The places of the groups beyond the first place, and not beyond the second one."""
        return self.groups[bisect_left(self.groups, low + 1) : bisect_left(self.groups, high + 1)]


def lanes_of_links(decoded: Decoded) -> Dict[Lane, Reach]:
    """The links and groups of each track and way."""
    lanes: Dict[Lane, Reach] = defaultdict(Reach)
    known = set()
    last: Dict[Tuple[GroupData, int], Sequence[Packet]] = {}  # (aspects share the packets 5 of fixed balises)
    unplaced: Dict[int, List[Tuple[Lane, int]]] = {}
    for passage in decoded.passages:
        data, linking = passage.group, passage.of(LINKING)
        way = passage.way or _shown_by(passage)
        if way is None or data is None or data.place is None:
            continue
        lane = lanes[passage.track, way]
        is_new = (data, way) not in known and not passage.message and passage.way is not None
        if is_new and data.group.linked and passage.speaks:
            known.add((data, way))
            lane.groups.append(data.place * way)
        if linking and last.get((data, way)) != linking:
            last[data, way] = linking
            begin = data.place * way
            own = [
                (begin + link.total, link.target if link.target and link.target.track == passage.track else None)
                for link in passage.links
            ]
            lane.links.append((begin, max(_linked(each, way, at) for at, each in own)))
            for at, each in own:
                if each and each.place is None:
                    unplaced.setdefault(each.number, []).append(((passage.track, way), at))
    _continue(decoded, lanes, unplaced)
    for lane in lanes.values():
        lane.sort()
    return lanes


def _continue(decoded: Decoded, lanes: Dict[Lane, Reach], unplaced: Mapping[int, Sequence[Tuple[Lane, int]]]) -> None:
    """Adds the links of groups without a kilometre that are named by others: D_LINK shows where these are."""
    for number, places in unplaced.items():
        for passage in decoded.groups[number].passages:
            reach = max((link.total for link in passage.links), default=None)
            for lane, begin in places if reach is not None else ():
                if passage.way in (None, lane[1]):
                    lanes[lane].links.append((begin, begin + (reach or 0)))


def _shown_by(passage: Passage) -> Optional[int]:
    """The way of a passage by the first group that its packets 5 name and whose place on the track is known."""
    begin = passage.group.place if passage.group else None
    places = (link.target.place for link in passage.links if link.target and link.target.track == passage.track)
    place = next((each for each in places if each is not None), begin)
    return None if begin is None or place is None else (place > begin) - (place < begin) or None


def _linked(target: Optional[BaliseGroup], way: int, place: int) -> int:
    """Where a link leads: to the kilometre of its group too, which may be rounded to a place beyond that of D_LINK."""
    by_kilometre = place if target is None or target.place is None else target.place * way
    return by_kilometre if 0 < by_kilometre - place <= LESS else place

"""The steps from one linked group of the table to the next one: by D_LINK, and by the kilometres.

A step ends at a group of the table, and the next one begins there, as a train counts. Distances are whole decimetres.
"""
from __future__ import annotations

from bisect import bisect_left, insort
from collections import Counter
from typing import Dict, Iterator, List, NamedTuple, Optional, Sequence, Tuple

from balisekit.etcs.geometry import NOMINAL, REVERSE
from balisekit.rules.chainage import Chainage
from balisekit.rules.chains import Chain
from balisekit.rules.facts import group_words
from balisekit.rules.line import Line
from balisekit.rules.location import NO_DIRECTION, BaliseGroup, Location
from balisekit.rules.telegrams import Link


class Step(NamedTuple):
    """From a group, or from the linked group before, to a linked group."""

    chains: Sequence[Chain]
    """Those that say the same: the step is of the first one."""
    link: Link
    base: BaliseGroup
    here: BaliseGroup
    way: int
    """1 if the step goes towards greater kilometres, else -1."""
    lengths: int
    """Of how many D_LINK it is the sum."""
    distance: int
    by_kilometres: int
    """Below 0 if the linked group is behind."""
    low: int
    high: int
    """The places that it goes from and to, the lower one first."""

    @property
    def difference(self) -> int:
        """How much longer the way by D_LINK is."""
        return self.distance - self.by_kilometres

    @property
    def fact(self) -> str:
        """Both distances, and between which groups."""
        return f"{group_words(self.base)} {group_words(self.here)} {self.distance} {self.by_kilometres}"

    @property
    def row(self) -> int:
        """The row of its telegram, or 0 for a message."""
        row = self.chains[0].location.row
        return row.number if row else 0


class Jump(NamedTuple):
    """What looks as if the kilometres jumped: all steps over a stretch differ by one amount."""

    low: int
    high: int
    difference: int
    steps: Sequence[Step]
    track: str

    def explains(self, track: str, low: int, high: int, difference: int, tolerance: int) -> bool:
        """Whether a difference on the way from one place to another one is that of the jump."""
        covers = track == self.track and low <= self.low and high >= self.high
        return covers and abs(difference - self.difference) <= tolerance

    @property
    def locations(self) -> Sequence[Location]:
        """All links over it."""
        return [chain.at(step.link) for step in self.steps for chain in step.chains]

    @property
    def facts(self) -> Sequence[str]:
        """The distances of all links over it."""
        return [step.fact for step in self.steps]

    def words(self, chainage: Chainage) -> str:
        """What it looks like."""
        metres, rows = abs(self.difference) / 10, len({step.row for step in self.steps})
        return (
            f"kilometre jump? All links over the stretch from km {chainage.words(self.low)} to km "
            f"{chainage.words(self.high)}, those of {rows} rows, are {metres:g} m "
            f"{'longer' if self.difference > 0 else 'shorter'} by D_LINK than by the kilometres"
        )


class Counted(NamedTuple):
    """From where the distance of a link counts, and where it leads."""

    base: Optional[BaliseGroup]
    """The last group before it that is in the table and has a place, or has led to another track."""
    at: Optional[int]
    """The place to which it leads on the track of that group, if the way of the train there is known."""
    lengths: int
    """Of how many D_LINK the distance is the sum."""


def counted(chain: Chain) -> Iterator[Tuple[Link, Counted]]:
    """The links of a chain. On another track Q_LINKORIENTATION shows the way of the train."""
    base, summed, lengths = chain.sender, 0, 0
    along = base.along(chain.direction) if base else None
    for link in chain.links:
        summed, lengths, here = summed + link.distance, lengths + 1, link.target
        begin = base.place if base else None
        yield link, Counted(base, None if begin is None or along is None else begin + along * summed, lengths)
        stays = base is not None and here is not None and base.track == here.track
        if here is not None and not (stays and here.place is None):
            if along is None or not stays:
                along = here.along(NOMINAL if link.nominal else REVERSE)
            base, summed, lengths = here, 0, 0


def steps_of(line: Line, skipped: Optional[Counter[str]] = None) -> Iterator[Step]:
    """All steps between groups of one track whose places are known. `skipped` gets why there is none to a link."""
    skipped = Counter[str]() if skipped is None else skipped
    for chains in line.alike:
        chain = chains[0]
        base, distance, lengths = chain.sender, 0, 0
        way = base.along(chain.direction) if base else None
        for link in chain.links:
            distance, lengths, here = distance + link.distance, lengths + 1, link.target
            why = line.incomparable(base, here)
            if base is None or here is None or why:
                skipped[why] += len(chains) * link.known
                continue
            begin, end = base.place or 0, here.place or 0
            if way is None:
                way = (end > begin) - (end < begin) or None
            skipped[NO_DIRECTION] += len(chains) if way is None else 0
            if way is not None:
                low, high = min(begin, end), max(begin, end)
                yield Step(chains, link, base, here, way, lengths, distance, (end - begin) * way, low, high)
                base, distance, lengths = here, 0, 0


def jumps_of(steps: Sequence[Step], tolerance: int) -> Iterator[Jump]:
    """The stretches all steps over which, of two senders at least, differ by one amount that is above the tolerance."""
    tracks: Dict[str, List[Step]] = {}
    for step in steps:
        tracks.setdefault(step.here.track, []).append(step)
    for track, own in tracks.items():
        found: List[Jump] = []
        for low, high, active in _stretches(own, tolerance):
            differences = [difference for difference, _ in active]
            senders = {own[index].chains[0].location.group for _, index in active}
            if len(senders) > 1 and differences[-1] - differences[0] <= tolerance:
                middle = differences[len(differences) // 2]
                jump = Jump(low, high, middle, [own[index] for _, index in active], track)
                if found and found[-1].high == low and abs(found[-1].difference - middle) <= tolerance:
                    jump = found.pop()._replace(high=high)
                found.append(jump)
        yield from found


def _stretches(steps: Sequence[Step], tolerance: int) -> Iterator[Tuple[int, int, List[Tuple[int, int]]]]:
    """Each stretch between two ends of steps with the steps over it, by their differences, if none is right."""
    begins: Dict[int, List[Tuple[int, int]]] = {}
    ends: Dict[int, List[Tuple[int, int]]] = {}
    for index, step in enumerate(steps):
        if step.low < step.high:
            begins.setdefault(step.low, []).append((step.difference, index))
            ends.setdefault(step.high, []).append((step.difference, index))
    active: List[Tuple[int, int]] = []
    places = sorted({*begins, *ends})
    for place, after in zip(places, places[1:]):
        for each in ends.get(place, ()):
            del active[bisect_left(active, each)]
        for each in begins.get(place, ()):
            insort(active, each)
        if active and (active[0][0] > tolerance or active[-1][0] < -tolerance):
            yield place, after, active

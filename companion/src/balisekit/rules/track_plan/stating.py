"""Which rows of a plan telegrams state at all, for the rule X6: whatever they state there, other rules compare it."""
from __future__ import annotations

from bisect import bisect_right
from dataclasses import dataclass, field
from typing import Dict, Iterator, List, Mapping, Optional, Sequence, Set, Tuple

from balisekit.design.tracks import Spot, Start
from balisekit.rules.location import IN_JUMP
from balisekit.rules.meaning.along import unread_of
from balisekit.rules.telegrams import AUTHORITIES
from balisekit.rules.track_plan.covered import Covered, Part
from balisekit.rules.track_plan.placed import BEHIND_POINT, BEYOND, PlacedPlan
from balisekit.rules.track_plan.stretches import KINDS, extent, known
from balisekit.rules.track_plan.x3_ends import end_of, gives_way
from balisekit.tables.names import clean
from balisekit.tables.plan import PlanRow

NEAR = 500
"""In decimetres: what is as near to the first group may be at it, so that no other group states it."""
REFUSED, OTHER_LEVEL = "a refused telegram on the track", "another level by the plan"
ONE_WAY = "stated for one way only, although groups send such packets for both"
Lane = Tuple[str, int]
"""A track as a plan has it, and a way."""
RowPart = Tuple[int, int, Optional[int]]
"""The way of a row, and from where to where it is. Without the last place it has no end."""


@dataclass
class Said:
    """What packets of one kind state, as they are read."""

    parts: Dict[Lane, List[Part]] = field(default_factory=dict)
    """From where to where they certainly state anything."""
    named: Set[int] = field(default_factory=set)
    """The rows that they are compared with, of a kind with one place."""
    leaving: Dict[int, List[Part]] = field(default_factory=dict)
    """By way: from where to where they state something of a track that is not known."""
    lacks: Dict[str, str] = field(default_factory=dict)
    """Why it is not known where some of them state something, by track. That of a message may be any track."""
    senders: Dict[Lane, List[int]] = field(default_factory=dict)
    """The places of those that send such packets."""

    def by(self, start: Optional[Start]) -> None:
        """A packet is read whose distances count from here."""
        if start:
            self.senders.setdefault((clean(start.track), start.way), []).append(start.place)

    def leaves(self, way: int, one: int, other: int) -> None:
        """A packet states something beyond a point, from one place to another one."""
        self.leaving.setdefault(way, []).append((min(one, other), max(one, other)))


class Stating:
    """What packets state of the rows of one kind."""

    def __init__(self, placed: PlacedPlan, kind: str, said: Said) -> None:
        self._placed, self._kind, self._said = placed, kind, said
        self._covered = {lane: Covered(parts) for lane, parts in said.parts.items()}
        self._beyond = {way: Covered(parts) for way, parts in said.leaving.items()}
        self._along = {clean(track): places for track, places in placed.decoded.places.items()}
        self._lacks = {**{clean(track): REFUSED for track, _ in unread_of(placed.decoded)}, **said.lacks}
        lanes = {(row.track, way) for row in placed.plan.of_kind(kind) for way in (1, -1)}
        self._rows: Mapping[Tuple[int, int], RowPart] = {
            (number, way): (way, begin, end) for track, way in lanes for number, begin, end in self._parts(track, way)
        }

    def why_not(self, row: PlanRow) -> Optional[str]:
        """Nothing if a telegram states a row, None if none does and one should, or why that is not known."""
        found = (self._rows.get((row.number, way)) for way in ([row.way] if row.way else [1, -1]))
        parts = [part for part in found if part]
        if not parts:
            return IN_JUMP
        states = [self._states(row.track, *part) for part in parts]
        if row.number in self._said.named or any(states):
            silent = [part for part, is_stated in zip(parts, states) if not is_stated]
            return ONE_WAY if any(self._has_silent_senders(row.track, *part) for part in silent) else ""
        within = [part for part in parts if self._is_within(row.track, *part)]
        if not within:
            return BEYOND
        if any(way in self._beyond and self._beyond[way].has_any_of(low, high) for way, low, high in within):
            return BEHIND_POINT
        why = self._lacks.get(row.track) or self._lacks.get("*")
        return why or (OTHER_LEVEL if all(self._has_other_level(row.track, *part) for part in within) else None)

    def _parts(self, track: str, way: int) -> Iterator[Tuple[int, int, Optional[int]]]:
        """The rows of a track that have a place, by their numbers."""
        if self._kind == "signal":
            spots: Sequence[Spot] = self._placed.tracks.spots(self._kind, track, way)
            yield from ((spot.row.number, spot.place, spot.place + 1) for spot in spots)
        else:
            parts = self._placed.tracks.stretches(self._kind, track, way)
            yield from ((part.row.number, part.begin, part.end) for part in parts)

    def _states(self, track: str, way: int, low: int, high: Optional[int]) -> bool:
        return self._kind != "signal" and self._covered.get((track, way), Covered()).has_any_of(low, high)

    def _has_silent_senders(self, track: str, way: int, low: int, high: Optional[int]) -> bool:
        """Whether groups that send such packets for a way are before a part of which none of them states anything."""
        senders = self._said.senders.get((track, way), ())
        begin = low if way > 0 or high is None else high
        is_before = any(way * place <= way * begin for place in senders)
        return self._kind != "signal" and is_before and self._is_within(track, way, low, high)

    def _is_within(self, track: str, way: int, low: int, high: Optional[int]) -> bool:
        """Whether more than a few metres of a row are between the first and the last group of its track, or all of it.

        All of a short row must be a few metres from both groups.
        """
        places = self._along.get(track)
        if not places:
            return False
        if self._kind != "signal":
            is_inside = high is not None and places[0] + NEAR <= low and high <= places[-1] - NEAR
            return is_inside or min(places[-1], places[-1] if high is None else high) - max(places[0], low) > NEAR
        senders = self._said.senders.get((track, way), places)
        first = min(senders) if way > 0 else max(senders)
        return way * (low - first) > NEAR and places[0] <= low <= places[-1]

    def _has_other_level(self, track: str, way: int, low: int, high: Optional[int]) -> bool:
        """Whether the plan states levels without level 1 where a row begins."""
        spots = self._placed.tracks.spots("level", track, way)
        index = bisect_right([way * spot.place for spot in (spots if way > 0 else spots[::-1])], way * low)
        ordered = spots if way > 0 else spots[::-1]
        return index > 0 and "1" not in ordered[index - 1].row.text_value.split()


def profiles_of(placed: PlacedPlan, kind: str) -> Stating:
    """What profiles state of the speeds or gradients of the plan."""
    said = Said()
    for saying in placed.sayings(*(number for number, name in KINDS.items() if name == kind)):
        passage, start = saying.passage, placed.start(saying.passage)
        said.by(start)
        for element in saying.packet.stretches:
            whole, why = extent(saying, element, start)
            own, _ = known(placed, saying, (whole, why))
            if own and start:
                low, high = sorted(map(start.at, own))
                said.parts.setdefault((clean(start.track), start.way), []).append((low, high))
            if whole and start and own != whole:
                said.leaves(start.way, start.at(own[1] if own else whole[0]), start.at(whole[1]))
            elif why:
                said.lacks.setdefault(clean(passage.track) if passage.group else "*", why)
    return Stating(placed, kind, said)


def ends_of(placed: PlacedPlan) -> Stating:
    """At which signals of the plan authorities end."""
    said = Said()
    for saying in placed.sayings(*AUTHORITIES):
        passage, start = saying.passage, placed.start(saying.passage)
        said.by(start)
        if gives_way(saying.packet):
            end, why = end_of(placed, saying)
            place, limit = placed.at(passage, saying.packet.authority.end), placed.known_to(passage)
            if end:
                spots = placed.tracks.spots("signal", end.start.track, end.start.way)
                said.named.update(spot.row.number for spot in spots if spot.place == end.signal.place)
            elif why == BEHIND_POINT and place is not None and limit is not None and start:
                said.leaves(start.way, limit, place + start.way * NEAR)
            elif start is None:
                said.lacks.setdefault(clean(passage.track) if passage.group else "*", why)
    return Stating(placed, "signal", said)

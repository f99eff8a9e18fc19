"""What telegrams and messages say, at their places on the tracks of the plan.

A row of the plan whose kilometre is in a gap of the kilometres, or is there twice, has no place: a note names it, and
no rule compares it.
"""
from __future__ import annotations

from decimal import Decimal
from itertools import takewhile
from typing import Dict, Iterable, Iterator, Mapping, NamedTuple, Optional, Sequence, Set, Tuple

from balisekit.design.groups import DesignedGroups
from balisekit.design.tracks import Start, Tracks
from balisekit.etcs.geometry import NOMINAL
from balisekit.rules.decoded import Decoded, once
from balisekit.rules.line import Line
from balisekit.rules.location import BEHIND_POINT
from balisekit.rules.passages import Passage
from balisekit.rules.rule import Options, Remark, Result, Urgency
from balisekit.rules.telegrams import Packet
from balisekit.rules.track_plan.confirmed import Confirmed, Path
from balisekit.tables import plan_things
from balisekit.tables.chainage import Chainage
from balisekit.tables.names import clean, kilometre, rows_words
from balisekit.tables.plan import WITHOUT_PLACE, Plan, PlanRow, rows_named

__all__ = ["BEHIND_POINT", "PlacedPlan", "Saying", "cells_of", "plan_words", "remark"]
COMPARED = ("speed", "gradient", "signal", "aspect", "level", "rbc", "group", "radio", *plan_things.KEYS)
"""The kinds of rows that rules compare."""
SAYS_NOTHING = "the plan says nothing"
NO_PLACE = "no kilometre or direction"
BEYOND = "beyond the table"
"""Why rows of the plan are not compared that are beyond the first or the last group of their track."""
Values = Mapping[str, Decimal]
Counts = Dict[str, int]
"""How many things were compared, by no reason, and how many were not, by the reason."""


class Saying(NamedTuple):
    """A packet in one direction."""

    passage: Passage
    packet: Packet


@once
def bits_known(decoded: Decoded) -> Dict[int, Mapping[Path, int]]:
    """The bits of the variables of packets that some rule has needed, by the ids of the forms of these packets."""
    return {}


class PlacedPlan:
    """A plan beside the decoded data of a table."""

    def __init__(self, line: Line, options: Options) -> None:
        self.decoded, self.plan = line.decoded, options.plan or Plan()
        self.tracks = Tracks(self.plan, options.jumps)
        self.groups = DesignedGroups(self.plan, options.jumps)
        self._starts: Dict[Passage, Optional[Start]] = {}
        self._limits: Dict[Passage, Optional[int]] = {}
        self.confirmed = Confirmed(bits_known(self.decoded))
        """What is compared with the plan, and how it comes out."""

    def start(self, passage: Passage) -> Optional[Start]:
        """From where the distances of a passage count: where the plan has its group, or else the table."""
        if passage not in self._starts:
            self._starts[passage] = self._start(passage)
        return self._starts[passage]

    def _start(self, passage: Passage) -> Optional[Start]:
        own = start_of(passage)
        name = clean(passage.group.group.group.name) if own and passage.group else ""
        group = self.groups.by_name.get(name) if own else None
        if group is None or group.place is None or not group.nominal:
            return own
        return Start(group.row.track, group.nominal * (1 if passage.direction == NOMINAL else -1), group.place)

    def at(self, passage: Passage, distance: int) -> Optional[int]:
        """The place at this distance from the group, if its place and direction are known."""
        start = self.start(passage)
        return start.at(distance) if start else None

    def place(self, track: str, km: Optional[Decimal]) -> Optional[int]:
        """The place of a kilometre, if it has one."""
        return self.tracks.place(track, km)

    def known_to(self, passage: Passage) -> Optional[int]:
        """The first point at which the train may leave its track, or None if there is none.

        It is on the track up to the last group of it that a packet 5 of the passage names before one of another track.
        """
        if passage not in self._limits:
            self._limits[passage] = self._known_to(passage)
        return self._limits[passage]

    def _known_to(self, passage: Passage) -> Optional[int]:
        start = self.start(passage)
        points = self.tracks.spots("point", start.track, start.way) if start else ()
        if not points or start is None:
            return None
        targets = (link.target for link in passage.links)
        own = takewhile(lambda each: each is None or each.track == passage.track, targets)
        places = (each.place for each in own if each)
        way = start.way
        sure = max([way * start.place, *(way * place for place in places if place is not None)])
        ahead = [way * spot.place for spot in points if way * spot.place > sure]
        return way * min(ahead) if ahead else None

    def is_behind_point(self, passage: Passage, place: int) -> bool:
        """Whether the train may be on another track at this place."""
        limit, start = self.known_to(passage), self.start(passage)
        return limit is not None and start is not None and (place - limit) * start.way > 0

    def sayings(self, *numbers: int, beside: Sequence[int] = ()) -> Iterator[Saying]:
        """What is said by packets with these NID_PACKET: each packet once in each direction.

        It is there once more for each set of packets `beside` it, such as those of another aspect.
        """
        known: Set[Tuple[object, ...]] = set()
        for passage in self.decoded.passages:
            for packet in passage.of(*numbers):
                key = packet, passage.direction, *(passage.of(*beside) if beside else ())
                if key not in known:
                    known.add(key)
                    yield Saying(passage, packet)

    def result(
        self, kinds: Sequence[str], found: Sequence[Remark], counts: Counts, notes: Iterable[str] = ()
    ) -> Result:
        """The result of a rule for these kinds of rows. A plan may have none of them if it has others."""
        has_own = any(self.plan.of_kind(kind) for kind in kinds)
        has_others = any(self.plan.of_kind(kind) for kind in COMPARED)
        looked_at = counts.pop("", 0)
        if not self.decoded.along and not counts and not {*kinds} <= {"group", *WITHOUT_PLACE}:
            counts[NO_PLACE] = sum(len(self.plan.of_kind(kind)) for kind in kinds)
        made = Result(found, looked_at, counts, [*self._notes(kinds), *notes], has_others and not has_own)
        return made._replace(confirmed=self.confirmed)

    def _notes(self, kinds: Sequence[str]) -> Iterator[str]:
        """The rows of these kinds that no rule can compare."""
        tracks = {clean(data.group.track) for data in self.decoded.groups}
        rows = [row for kind in kinds for row in self.plan.of_kind(kind) if kind not in WITHOUT_PLACE]
        ends = [(row, km) for row in rows if row.track in tracks for km in (row.km, row.km_to) if km is not None]
        lost = [row for row, km in ends if self.place(row.track, km) is None]
        if lost:
            yield f"{self.named(lost)}: not compared: a jump leaves out or repeats the kilometre"

    def named(self, rows: Sequence[PlanRow]) -> str:
        """Rows in a note: after the path of their file if the design has only one sheet."""
        is_one = len({row.source for row in self.plan.rows}) == 1
        return f"{self.plan.path}: {rows_words([row.shown for row in rows])}" if is_one else rows_named(rows)

    def km(self, passage: Passage, place: int) -> str:
        """The kilometre of a place in words."""
        return f"km {self._chainage(passage).words(place)}"

    def km_value(self, passage: Passage, place: int) -> Decimal:
        """The kilometre of a place."""
        return self._chainage(passage).kilometre(place)

    def _chainage(self, passage: Passage) -> Chainage:
        start = self.start(passage)
        return self.tracks.chainage(start.track if start else passage.track)

    def kilometre(self, track: str, place: int) -> Decimal:
        """The kilometre of a place of a track."""
        return self.tracks.chainage(track).kilometre(place)


def start_of(passage: Passage) -> Optional[Start]:
    """From where the distances of a passage count by the table."""
    place, way = passage.place(0), passage.way
    return None if place is None or way is None else Start(passage.track, way, place)


def remark(
    rule: str,
    sayings: Sequence[Saying],
    sentence: str,
    values: Values,
    facts: Sequence[str],
    urgency: Optional[Urgency] = None,
) -> Remark:
    """One remark on what several packets say, at the first of them."""
    where, *also = dict.fromkeys(each.passage.at(each.packet) for each in sayings)
    rows = {each.row.number: each.row for each in (where, *also) if each.row and each.group is where.group}
    groups = {each.passage.group.group.number: each.passage.group.group for each in sayings if each.passage.group}
    first = sayings[0].passage.group
    return Remark(
        rule,
        where,
        sentence,
        values=values,
        named=[group for group in groups.values() if not first or group is not first.group],
        urgency=urgency,
        rows=tuple(sorted(rows)),
        aspects=tuple(dict.fromkeys(row.aspect for _, row in sorted(rows.items()) if row.aspect not in ("", "*"))),
        also=also,
        facts=facts,
    )


def cells_of(row: PlanRow) -> str:
    """What a row of the plan says, wherever it is in the file."""
    terms = sorted(row.value.items()) if isinstance(row.value, dict) else row.value
    return f"plan {row.kind} {row.km} {row.km_to} {row.track} {row.way} {terms} {row.name}"


def plan_words(row: PlanRow, with_km: bool = True) -> str:
    """A row of the plan in a sentence."""
    return f"{rows_named([row])}{f', km {kilometre(row.km)}' if with_km else ''}"

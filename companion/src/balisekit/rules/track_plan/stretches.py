"""What profiles say beside the speeds or gradients of the plan, for the rules X1 and X2."""
from __future__ import annotations

from collections import Counter
from dataclasses import dataclass, field
from typing import Dict, List, NamedTuple, Optional, Sequence, Tuple

from balisekit.design.tracks import Element, Start
from balisekit.rules.facts import sender
from balisekit.rules.track_plan.confirmed import Path
from balisekit.rules.track_plan.placed import (
    BEHIND_POINT,
    NO_PLACE,
    SAYS_NOTHING,
    Counts,
    PlacedPlan,
    Saying,
    cells_of,
    start_of,
)
from balisekit.rules.rule import Options
from balisekit.rules.telegrams import GRADIENTS, SPEEDS, Stretch, allowance
from balisekit.rules.touching import longer
from balisekit.tables.names import rows_words
from balisekit.tables.plan import PlanRow, rows_named

KINDS = {SPEEDS: "speed", GRADIENTS: "gradient"}
"""The kinds of rows of the plan, by NID_PACKET of the profiles that are compared with them."""
KEYS = {SPEEDS: ("d_static", "v_static"), GRADIENTS: ("d_gradient", "q_gdir", "g_a")}
"""The variables of an element that are compared."""
NO_END = "an open profile without authority"
Span = Tuple[int, int]
"""The first and the last place of a stretch, in the direction of passage."""


class Difference(NamedTuple):
    """A stretch of the track of which a profile and the plan say two things."""

    saying: Saying
    begin: int
    """Its first place in the direction of passage."""
    end: int
    said: int
    part: Element
    allowed: int
    """By how much its places may differ."""
    whole: Optional[Span] = None
    """From where to where it differs together with those that touch it, if there are any."""
    rows: Tuple[PlanRow, ...] = ()
    """The rows of the plan that these differ from."""
    element: int = 0
    """Which element of the profile it is."""

    def fact(self, placed: PlacedPlan) -> str:
        """The stretch with both values, and who says one of them."""
        ends = [placed.km(self.saying.passage, place) for place in (self.begin, self.end)]
        return f"{sender(*self.saying)} {ends} {self.said} {cells_of(self.part.row)}"


def whole_words(placed: PlacedPlan, difference: Difference) -> str:
    """From where to where a short stretch differs with those that touch it, and from which rows of the plan."""
    if difference.whole is None or _length(difference) > difference.allowed:
        return ""
    begin, end = (placed.km(difference.saying.passage, place) for place in difference.whole)
    return f"; with the stretches that touch it, it differs from {begin} to {end}, by {_rows_words(difference)}"


def _rows_words(difference: Difference) -> str:
    """The rows of a whole stretch, after its longest part has named the sheet of its own row."""
    rows, own = difference.rows, difference.part.row.source
    is_own = all(row.source == own for row in rows)
    return f"{rows_words(row.shown for row in rows)} of it" if is_own else rows_named(rows)


@dataclass
class Compared:
    """All differences of one table and one plan, and what was compared."""

    differences: List[List[Difference]] = field(default_factory=list)
    """Those of one row of the plan and one other value together, the longest one first."""
    counts: Counts = field(default_factory=Counter)
    """How many elements are compared from their beginning to their end, and how many are not."""


def compare(placed: PlacedPlan, number: int, options: Options) -> Compared:
    """Compares each element of these profiles with the plan."""
    compared = Compared()
    known: Dict[Tuple[int, int, int], List[Difference]] = {}
    for saying in placed.sayings(number):
        for some in longer(_differing(placed, saying, options, compared.counts), _along, _allowed):
            longest = max(some, key=_length)
            for each in some:
                placed.confirmed.contradict([each.part.row], saying.packet, _variables(number, each.element))
                named = each if _length(each) > each.allowed else longest
                key = named.part.row.number, named.said, saying.passage.way or 0
                known.setdefault(key, []).append(_with_touching(each, some))
    compared.differences = [sorted(found, key=lambda each: -_length(each)) for found in known.values()]
    return compared


def _with_touching(one: Difference, some: Sequence[Difference]) -> Difference:
    """A stretch with all that touch each other."""
    if len(some) == 1:
        return one
    return one._replace(whole=(some[0].begin, some[-1].end), rows=tuple(each.part.row for each in some))


def _differing(placed: PlacedPlan, saying: Saying, options: Options, counts: Counts) -> List[Difference]:
    """Where a profile differs from the plan, in the direction of passage, however short that is."""
    found: List[Difference] = []
    kind = KINDS[saying.packet.number]
    start = placed.start(saying.passage)
    rows: List[PlanRow] = []
    paths: List[Path] = []
    for place, element in enumerate(saying.packet.stretches):
        tolerance = placed.decoded.tolerance(options.tolerance_of_places, allowance(saying.packet, place + 2))
        ends, why = known(placed, saying, extent(saying, element, start))
        if ends is not None and start is not None:
            wanted = list(placed.tracks.profile(kind, start, *ends))
            for part in wanted:
                if part.value != element.value:
                    places = start.at(part.begin), start.at(part.end)
                    found.append(Difference(saying, *places, element.value, part, tolerance, element=place))
            covered = sum(part.end - part.begin for part in wanted)
            if not wanted or ends[1] - ends[0] - covered > tolerance:
                why = SAYS_NOTHING
            rows += [part.row for part in wanted if part.value == element.value]
            paths += () if why else _variables(saying.packet.number, place)
        placed.confirmed.pass_over(saying.packet, why)
        counts[why] += 1
    placed.confirmed.confirm(rows, saying.packet, paths)
    return found


def _variables(number: int, element: int) -> Sequence[Path]:
    """The variables of an element of a profile: how far it is from the one before it, and what holds from there."""
    return [("elements", element, key) for key in KEYS[number]]


def _along(difference: Difference) -> Span:
    way = 1 if difference.begin <= difference.end else -1
    return difference.begin * way, difference.end * way


def _allowed(difference: Difference) -> int:
    return difference.allowed


def _length(difference: Difference) -> int:
    return abs(difference.end - difference.begin)


def extent(saying: Saying, element: Stretch, start: Optional[Start]) -> Tuple[Optional[Span], str]:
    """The distances of an element, or why they are not known. An open profile ends as the authority beside it does."""
    reach = element.end
    if reach is None:
        reach = max((each.authority.supervised for each in saying.passage.authorities), default=0)
        if reach <= element.begin:
            return None, NO_END
    return ((element.begin, reach), "") if start else (None, NO_PLACE)


def span(saying: Saying, element: Stretch) -> Tuple[Optional[Span], str]:
    """The places of an element by the table, or why they are not known."""
    start = start_of(saying.passage)
    found, why = extent(saying, element, start)
    return ((start.at(found[0]), start.at(found[1])), "") if found and start else (None, why)


def known(placed: PlacedPlan, saying: Saying, found: Tuple[Optional[Span], str]) -> Tuple[Optional[Span], str]:
    """The same distances up to the point at which the train may leave the track."""
    ends, limit, start = found[0], placed.known_to(saying.passage), placed.start(saying.passage)
    if ends is None or limit is None or start is None:
        return found
    distance = start.way * (limit - start.place)
    if distance >= ends[1]:
        return found
    return (None if distance <= ends[0] else (ends[0], distance)), BEHIND_POINT

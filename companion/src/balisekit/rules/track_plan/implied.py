"""A track plan as the telegrams of a table imply it, so that a team starts by correcting one.

Where telegrams say several things of one place, the plan has what most groups say, and of equally many the nearest one
in rear. The rules X then name the others.
"""
from __future__ import annotations

from bisect import bisect_left, insort
from collections import Counter
from decimal import Decimal
from typing import Callable, Dict, Iterator, List, NamedTuple, Sequence, Tuple

from balisekit.rules.line import Line
from balisekit.rules.passages import GroupData, Passage
from balisekit.rules.rule import Options
from balisekit.rules.telegrams import AUTHORITIES, Packet, allowance
from balisekit.rules.track_plan import things
from balisekit.rules.track_plan.borders import NOT_DECODED, NUMBERS, Border, border_of
from balisekit.rules.track_plan.implied_profiles import Lane, on_track_up_to, profiles
from balisekit.rules.track_plan.placed import NO_PLACE, PlacedPlan, Saying
from balisekit.rules.track_plan.stretches import KINDS, compare
from balisekit.rules.track_plan.x3_ends import gives_way
from balisekit.rules.track_plan.aspect_terms import AUTHORITY, all_terms_of, terms_of
from balisekit.tables.chainage import rounding
from balisekit.tables.plan import BORDERS, Plan, PlanRow, aspect_name
from balisekit.tables.plan_things import ENDING
from balisekit.tables.plan_values import GroupTerms, Terms, Value

NEAR = 500
"""In decimetres: a signal has the name of a group that is as near."""
NEARBY = 10_000
"""In decimetres: rows are looked for in parts of a track that are as long."""
RADIO = ("2", "3")
"""The levels with an RBC."""


class At(NamedTuple):
    """A place at which something is, and what it is."""

    place: int
    tolerance: int
    value: Value


class Made(NamedTuple):
    """Rows of a plan, numbered as in a file with one row of headings, and notes."""

    rows: Sequence[PlanRow]
    notes: Sequence[str]


def implied(line: Line, options: Options, in_full: bool = False) -> Made:
    """The plan of a table. With `in_full` aspects have every key that a plan can have."""
    placed, skipped = PlacedPlan(line, options), Counter[str]()
    jumps = [PlanRow(0, "jump", jump.before, jump.after, jump.track) for jump in options.jumps]
    stretches = [row for number in KINDS for row in _stretches(placed, number, skipped)]
    points = list(_points(line, options, [*jumps, *stretches]))
    placed = PlacedPlan(line, options._replace(plan=Plan(rows=tuple(points))))
    borders = list(_borders(placed, options, skipped))
    rows = [
        *jumps,
        *stretches,
        *_signals(placed, options, skipped),
        *_aspects(placed, all_terms_of if in_full else terms_of),
        *borders,
        *points,
        *_groups(placed),
        *(
            row
            for kind in things.KINDS
            if things.is_compared(kind, options)
            for row in _things(line, options, kind, points, skipped)
        ),
    ]
    numbered = [row._replace(number=number) for number, row in enumerate(rows, 2)]
    return Made(numbered, [f"{count} packets are not in the plan: {why}" for why, count in skipped.items()])


def _stretches(placed: PlacedPlan, number: int, skipped: Counter[str]) -> Iterator[PlanRow]:
    """The speeds or gradients of each way of each track."""
    for lane, held in profiles(placed, number, skipped).items():
        for (low, high, value), after in zip(held, [*held[1:], None]):
            row = _row(placed, KINDS[number], lane, low, value)
            goes_on = after is not None and after[0] == high
            yield row if goes_on else row._replace(km_to=placed.kilometre(lane[0], high))


def _points(line: Line, options: Options, rows: Sequence[PlanRow]) -> Iterator[PlanRow]:
    """Where trains leave a track: they are told other things from there on, and their packets 5 lead to another track.

    Such a train is on its track up to the last group that a packet 5 names of it, so the point is beyond this group.
    """
    made = Plan(rows=tuple(row._replace(number=number) for number, row in enumerate(rows, 2)))
    placed = PlacedPlan(line, options._replace(plan=made))
    first: Dict[Passage, int] = {}
    for number in KINDS:
        differences = compare(placed, number, options).differences
        for passage, begin in ((each.saying.passage, each.begin) for some in differences for each in some):
            way, sure = passage.way or 0, on_track_up_to(placed, passage)
            if sure is not None and way * begin >= way * sure:
                beyond = way * max(way * begin, way * sure + 1)
                first[passage] = way * min(way * beyond, way * first.get(passage, beyond))
    lanes = {(passage.track, passage.way or 0, place) for passage, place in first.items()}
    yield from (_row(placed, "point", (track, way), place) for track, way, place in sorted(lanes))


def _row(placed: PlacedPlan, kind: str, lane: Lane, place: int, value: Value = None, name: str = "") -> PlanRow:
    """A row at a place of a track."""
    track, way = lane
    return PlanRow(0, kind, placed.kilometre(track, place), None, track, way, value, name)


def _signals(placed: PlacedPlan, options: Options, skipped: Dict[str, int]) -> Iterator[PlanRow]:
    """The places at which authorities end, with the name of a group that is near."""
    ends: List[Tuple[Saying, int, int, Value]] = []
    for saying in placed.sayings(*AUTHORITIES):
        if gives_way(saying.packet):
            ends.append((saying, saying.packet.authority.end, allowance(saying.packet, saying.packet.lengths), None))
    for lane, places in _by_lane(placed, options, ends, skipped).items():
        for place, _ in _clusters(places):
            near = placed.decoded.between(lane[0], place - NEAR, place + NEAR)
            group = min(near, key=lambda each: abs((each.place or 0) - place), default=None)
            yield _row(placed, "signal", lane, place, None, group.group.group.name if group else "")


def _by_lane(
    placed: PlacedPlan, options: Options, some: Sequence[Tuple[Saying, int, int, Value]], skipped: Dict[str, int]
) -> Dict[Lane, List[At]]:
    """What is at these distances from groups, each with the allowance of its packet, by track and way."""
    lanes: Dict[Lane, List[At]] = {}
    for saying, distance, allowed, value in some:
        passage, place = saying.passage, saying.passage.place(distance)
        if place is None or passage.way is None:
            skipped[NO_PLACE] += 1
        elif not placed.is_behind_point(passage, place):
            tolerance = placed.decoded.tolerance(options.tolerance, allowed)
            lanes.setdefault((passage.track, passage.way), []).append(At(place, tolerance, value))
    return lanes


def _clusters(some: Sequence[At]) -> List[Tuple[int, Value]]:
    """The places that are said most often, and the value there. A place within its tolerance of one of them is none."""
    counts = Counter(each.place for each in some)
    least = {each.place: each.tolerance for each in sorted(some, key=lambda each: -each.tolerance)}
    chosen: List[int] = []
    for place in sorted(counts, key=lambda place: (-counts[place], least[place], place)):
        index = bisect_left(chosen, place)
        if all(abs(place - other) > least[place] for other in chosen[max(index - 1, 0) : index + 1]):
            insort(chosen, place)
    values: Dict[int, Counter[Value]] = {place: Counter() for place in chosen}
    for each in some:
        index = bisect_left(chosen, each.place)
        near = min(chosen[max(index - 1, 0) : index + 1], key=lambda place: abs(place - each.place))
        values[near][each.value] += 1
    return [(place, found.most_common(1)[0][0]) for place, found in values.items()]


def _aspects(placed: PlacedPlan, of_packet: Callable[[Packet], Terms]) -> Iterator[PlanRow]:
    """What the packet 12 of each aspect gives. The first one counts if there are several.

    Other aspects of such a signal have a row too, which says that they have no packet 12.
    """
    known: Dict[Tuple[str, int], GroupData] = {}
    for passage in placed.decoded.passages:
        own = passage.of(AUTHORITY)
        if own and passage.group and not passage.message:
            group = passage.group.group
            name, way = aspect_name(group.group.name, passage.aspect), passage.way or 0
            if (name, way) not in known:
                known[name, way] = passage.group
                yield PlanRow(0, "aspect", group.km or Decimal(), None, group.track, way, of_packet(own[0]), name)
    names = {name for name, _ in known}
    for data in dict.fromkeys(known.values()):
        for aspect in data.group.group.aspects:
            name = aspect_name(data.group.group.name, aspect.name)
            if name not in names and all(row.number in data.telegrams for row in aspect.rows):
                km, track = data.group.km or Decimal(), data.group.track
                yield PlanRow(0, "aspect", km, None, track, 0, {"authority": None}, name)


def _groups(placed: PlacedPlan) -> Iterator[PlanRow]:
    """The groups with a kilometre, as the header of the first telegram has them."""
    for data in placed.decoded.groups:
        own, header = data.group, next((telegram.header for telegram in data.telegrams.values()), None)
        if own.km is not None and header:
            kilometres = [row.km for row in own.group.aspects[0].rows if row.km is not None]
            at = tuple(kilometres) if len(kilometres) == header.n_total + 1 > 1 else ()
            terms = GroupTerms((header.nid_c, header.nid_bg), header.n_total + 1, bool(header.q_link), at)
            yield PlanRow(0, "group", own.km, None, own.track, own.rising or 0, terms, own.group.name)


def _things(
    line: Line, options: Options, kind: str, points: Sequence[PlanRow], skipped: Dict[str, int]
) -> Iterator[PlanRow]:
    """The restrictions, conditions or areas of a kind, each once. What a group within one says of it adds no row."""
    placed = PlacedPlan(line, options._replace(plan=Plan(rows=tuple(points))))
    known: Dict[Tuple[Lane, str, int], List[Tuple[int, int]]] = {}
    """The ends of the rows, by lane, value and kilometre of their last place."""
    for thing in things.things_of(placed, kind):
        start = placed.start(thing.saying.passage)
        has_length = thing.end > thing.begin
        if start is None or kind in ENDING and not has_length:
            skipped[NO_PLACE] += 1
            continue
        lane, value, begin, end = (start.track, start.way), str(thing.terms), start.at(thing.begin), start.at(thing.end)
        allowed = placed.decoded.tolerance(options.tolerance, rounding(thing.unit, thing.lengths + 1))
        near = [each for step in (-1, 0, 1) for each in known.get((lane, value, end // NEARBY + step), ())]
        others = (max(start.way * (first - start.place), 0) for first, last in near if abs(last - end) <= allowed)
        if any(abs(thing.begin - first) <= allowed for first in others):
            continue
        if not placed.is_behind_point(thing.saying.passage, end) and thing.terms:
            known.setdefault((lane, value, end // NEARBY), []).append((begin, end))
            row = _row(placed, kind, lane, min(begin, end), thing.terms)
            yield row._replace(km_to=placed.kilometre(start.track, max(begin, end)) if has_length else None)


def _borders(placed: PlacedPlan, options: Options, skipped: Dict[str, int]) -> Iterator[PlanRow]:
    """The level borders, then the RBC borders."""
    found = [border for border in map(border_of, placed.sayings(*NUMBERS)) if border]
    skipped.update({NOT_DECODED: count for count in [sum(not each.text for each in found)] if count})
    lanes: Dict[Tuple[str, Lane], Dict[int, Value]] = {}
    for kind in BORDERS:
        own = [each for each in found if each.kind == kind and each.has_place and each.text]
        ends = [(each.saying, each.distance, allowance(each.saying.packet), each.text) for each in own]
        for lane, places in _by_lane(placed, options, ends, skipped).items():
            lanes[kind, lane] = dict(_clusters(places))
    for border in sorted((each for each in found if not each.has_place and each.text), key=_along):
        _add(border, lanes, skipped)
    for (kind, lane), at in lanes.items():
        yield from (_row(placed, kind, lane, place, value) for place, value in sorted(at.items()))


def _along(border: Border) -> int:
    """In which order groups are passed."""
    passage = border.saying.passage
    return (passage.way or 0) * (passage.place(0) or 0)


def _add(border: Border, lanes: Dict[Tuple[str, Lane], Dict[int, Value]], skipped: Dict[str, int]) -> None:
    """Adds the border that a packet 46 or 42 needs, if there is none yet: at its group, or at a level border ahead."""
    passage = border.saying.passage
    way, place = passage.way or 0, passage.place(0)
    if not way or place is None:
        skipped[NO_PLACE] += 1
        return
    lane = passage.track, way
    at = lanes.setdefault((border.kind, lane), {})
    passed = [way * other for other in at if way * other <= way * place]
    ahead = [way * other for other in at if way * other > way * place]
    if border.kind == "level":
        at.update({} if passed else {place: border.text})
        return
    around = [*([max(passed)] if passed else []), *([min(ahead)] if ahead else [])]
    if border.text not in [at[way * other] for other in around]:
        levels = {way * other: str(text) for other, text in lanes.get(("level", lane), {}).items()}
        radio = [other for other, text in levels.items() if other >= way * place and text[:1] in RADIO]
        at.setdefault(way * min(radio, default=way * place), border.text)

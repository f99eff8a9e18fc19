"""X5: level or RBC border other than in the plan.

What it says. A packet 41, 42, 46 or 131 gives another place, level or RBC than the plan, or the plan has a border that
no packet names. The rule rests on SUBSET-026, 7.4.2 and 7.5.1.
- A packet 41 or 131 is compared with the nearest border of its kind for trains of that way.
- A packet 46 must have the levels beyond the last border in rear of its group.
- A packet 42 that establishes a session must name one of two RBCs: the RBC beyond the next border ahead, or the RBC
  beyond the last border in rear. NID_RBC 16,383 (the last known RBC) is not compared.
- Places may differ by `--tolerance` (default 0), by one unit of Q_SCALE and by one unit of the last decimal of the
  kilometres, at most 1 m.
- If the plan has no border of a kind (level or RBC) for a track and way, packets about such borders are not compared
  there. If it has one, it must contain all borders of this kind. If the track begins in the area of an RBC, the plan
  also needs a row `rbc` in rear of the first group.
- A border of the plan within the table that no packet names is reported at the nearest group. It is not reported if its
  track has a refused telegram, or a packet about such borders that cannot be compared. Such a packet has no known place
  or direction, leads beyond a `point`, or follows a packet 136. If a packet 41, 42, 46 or 131 of the table could not be
  decoded, no such border is reported.
- A border beyond the first or last group of its track that no packet names is not compared.

Why it matters. At worst the train gets wrong information. It runs in a level that the track does not support there, or
asks the wrong RBC for its authority.

Example. Before (`examples/meaning/level-border.csv` with `--plan` `examples/meaning/plan.csv`): Signal 4 (km 14.500)
announces level 0 at km 16.700, and the plan has the border at km 16.750, 50 m away. After: Signal 4 announces the level
at the place that the plan has.

When it is a false alarm. The rule assumes that the plan has the borders of all trains and routes. It might lack a
border for trains that have no radio or start near a border, or an RBC of another route. The rule assumes that orders
are exactly at the border. A packet that orders the change at its own group, with a distance 0 or 32,767 (now), might be
some metres from the border. An order might also be repeated beyond the border. Write such places into the plan. It
assumes that packets have the levels of the plan, but announcement and border might differ on purpose. It assumes that a
group of the same track names each border. Perhaps only radio names it, or a group on another track or beyond the table.
The table might also have the groups for one way only. {leaving} {points} {kilometres} {missing} {one way}

Usual cause. The distance was counted from another group, or not all announcements followed a border that was moved.

How to correct it. Correct the packet, or the row of the plan.

How to accept it. Name the trains or the route for which the packet differs from the plan.
"""
from __future__ import annotations

from collections import Counter
from typing import Dict, List, Optional, Sequence, Set, Tuple

from balisekit.design.tracks import Spot, nearest
from balisekit.rules.line import Line
from balisekit.rules.meaning.along import unread_of
from balisekit.rules.track_plan.borders import NOT_DECODED, NUMBERS, Border, border_of, numbers, variables_of
from balisekit.rules.track_plan.placed import (
    BEHIND_POINT,
    NO_PLACE,
    SAYS_NOTHING,
    PlacedPlan,
    cells_of,
    plan_words,
    remark,
)
from balisekit.rules.rule import Options, Remark, Result, Rule, Urgency
from balisekit.rules.telegrams import allowance
from balisekit.rules.track_plan.unnamed_borders import KIND_WORDS, unnamed_borders
from balisekit.tables.names import kilometre
from balisekit.tables.plan import BORDERS
from balisekit.tables.plan_values import metres

KIND = {41: "level", 46: "level", 131: "rbc", 42: "rbc"}


def find(line: Line, options: Options) -> Result:
    """Compares each packet about a border, and looks for borders of the plan without one."""
    placed, counts = PlacedPlan(line, options), Counter[str]()
    found: Dict[Tuple[int, Optional[int], str], List[Tuple[Border, int, Sequence[Spot]]]] = {}
    named: Set[int] = set()
    unplaced = {(kind, track) for track, _ in unread_of(line.decoded) for kind in BORDERS}
    infill = [(each.number, passage.track) for passage in line.decoded.passages for each in passage.infill]
    unplaced.update((kind, track) for number, track in infill for kind in [KIND.get(number)] if kind)
    for border in (each for saying in placed.sayings(*NUMBERS) for each in [border_of(saying)] if each):
        saying = border.saying
        tolerance = line.decoded.tolerance(options.tolerance, allowance(saying.packet))
        spots, place, why = _wanted(placed, border, tolerance)
        counts[why] += 1
        unplaced.update([(border.kind, saying.passage.track)] if why in (NO_PLACE, BEHIND_POINT) else [])
        placed.confirmed.pass_over(saying.packet, why)
        same = [spot for spot in spots if _is_there(border, place, spot, tolerance) and spot.row.value == border.text]
        named.update(spot.row.number for spot in same or spots)
        if why:
            continue
        tell = placed.confirmed.confirm if same else placed.confirmed.contradict
        tell([spot.row for spot in same or spots], saying.packet, list(variables_of(saying.packet)))
        if same:
            continue
        elsewhere = None if _is_there(border, place, spots[0], tolerance) else place
        found.setdefault((spots[0].row.number, elsewhere, border.text), []).append((border, place, spots))
    remarks = [_remark(placed, each) for each in found.values()]
    remarks += unnamed_borders(placed, named, unplaced, counts)
    return placed.result(BORDERS, remarks, counts)


def _wanted(placed: PlacedPlan, border: Border, tolerance: int) -> Tuple[Sequence[Spot], int, str]:
    """The rows of the plan with which a border is compared, and its place; or why it is not compared."""
    passage = border.saying.passage
    start = placed.start(passage)
    if not border.text:
        return (), 0, NOT_DECODED
    if start is None:
        return (), 0, NO_PLACE
    place, way = start.at(border.distance), start.way
    spots = placed.tracks.spots(border.kind, start.track, way)
    if not spots:
        return (), place, SAYS_NOTHING
    if placed.is_behind_point(passage, place):
        return (), place, BEHIND_POINT
    if border.has_place:
        is_lost = placed.tracks.is_lost(border.kind, start, place, tolerance)
        return ((), place, NO_PLACE) if is_lost else ([nearest(spots, place)], place, "")
    ahead = [spot for spot in spots if way * spot.place > way * place]
    passed = [spot for spot in spots if way * spot.place <= way * place]
    asked = (ahead, passed) if border.kind == "rbc" else (passed,)
    found = [nearest(some, place) for some in asked if some]
    found += [spot for spot in ahead if abs(spot.place - place) <= tolerance and spot.row.value == border.text]
    return found, place, "" if found else SAYS_NOTHING


def _is_there(border: Border, place: int, spot: Spot, tolerance: int) -> bool:
    """Whether a packet says no other place of a border than the plan."""
    return not border.has_place or abs(spot.place - place) <= tolerance


def _remark(placed: PlacedPlan, said: Sequence[Tuple[Border, int, Sequence[Spot]]]) -> Remark:
    border, place, (spot, *_) = said[0]
    passage, word = border.saying.passage, KIND_WORDS[border.kind]
    here, there, apart = placed.km(passage, place), kilometre(spot.row.km), abs(place - spot.place)
    begins, at = ("begins at", f"at km {there}") if border.has_place else ("at", f"from km {there} on")
    row = plan_words(spot.row, with_km=False)
    sentence = f"{word} {border.text} {begins} {here}, and {word} {spot.row.text_value} {at} by {row}"
    sentence += f": {metres(apart)} m apart" if apart and border.has_place else ""
    values = {"km": placed.km_value(passage, place), "plan_km": spot.row.km}
    values.update({**numbers(border.kind, border.text), **numbers(border.kind, spot.row.text_value, "plan_")})
    facts = {cells_of(each.row) for _, _, spots in said for each in spots}
    return remark("X5", [each.saying for each, _, _ in said], sentence, values, sorted(facts))


RULE = Rule("X5", "borders", __doc__ or "", find, Urgency.WRONG_INFORMATION)

"""X6: row of the plan that no telegram states.

What it says. The plan has a speed, a gradient or a signal within the table, but no telegram states one there. The rule
rests on SUBSET-026, 7.4.2 and 7.5.1.
- A speed or gradient is reported if no profile for trains of its way covers any part of its stretch. If a profile
  states another value there, X1 or X2 reports it.
- A signal is reported if no authority for trains of its way ends at the signal. It is not reported if X3 names this
  signal for an authority that ends elsewhere.
- One remark names all rows that follow each other on a track.
- A row is not compared if it is beyond the table. A speed or gradient is beyond the table if at most 50 m of it are
  between the first and the last group of the track. A shorter one within the table, 50 m from both groups, is compared.
- Telegrams might state a row for both ways in one of them only. If groups before it send such packets for the other way
  too, the row counts as not compared.
- A signal is beyond the table if it is not between the first and the last group of its track. It is also beyond the
  table if it is at most 50 m after the first group that sends a packet 12 or 15 for its way.
- A row is not compared if the plan has only levels other than level 1 where the row begins.
- A row is not compared if telegrams that might state it have no known place. Such a telegram has no kilometre or
  direction, leads beyond a `point`, has an open profile without authority, or is refused.

Why it matters. At worst the train gets wrong information, because a telegram is missing or is for another place.

Example. Before (`examples/meaning/level-border.csv` with `--plan` `examples/meaning/plan.csv`): the plan has a signal
at km 13.700, and no authority ends there. After: an authority ends at this signal, or the plan does not have it.

When it is a false alarm. The rule assumes that each row of the plan is for trains of level 1. If trains run in another
level there, state it with a row `level`. It assumes that the table has all groups from its first to its last one.
{leaving} {kilometres} {missing}

Usual cause. Telegrams are missing in the table, or the row of the plan has a wrong kilometre, track or way.

How to correct it. Add the telegrams, or correct the row of the plan.

How to accept it. State how trains get to know what the row states.
"""
from __future__ import annotations

from collections import Counter
from decimal import Decimal
from typing import AbstractSet, Dict, Iterator, List, Sequence, Tuple

from balisekit.rules.line import Line
from balisekit.rules.location import Location
from balisekit.rules.rule import Options, Remark, Result, Rule, Urgency
from balisekit.rules.track_plan.placed import NO_PLACE, PlacedPlan, cells_of
from balisekit.rules.track_plan.stating import ONE_WAY, Stating, ends_of, profiles_of
from balisekit.tables.names import NAMED, clean, kilometre, listed
from balisekit.tables.plan import PlanRow, rows_named

KINDS = ("speed", "gradient", "signal")
WORDS = {"speed": "no packet 27 states the speed", "gradient": "no packet 21 states the gradient"}
WORDS["signal"] = "no authority ends at the signal"


def find(line: Line, options: Options) -> Result:
    """Looks for each speed, gradient and signal of the plan in the telegrams."""
    placed, counts = PlacedPlan(line, options), Counter[str]()
    found: List[Remark] = []
    tracks = {clean(data.group.track) for data in line.decoded.groups}
    for kind in KINDS:
        rows = [row for row in placed.plan.of_kind(kind) if row.track in tracks]
        if not line.decoded.along:
            counts.update({NO_PLACE: len(rows)} if rows else {})
            continue
        stating = ends_of(placed) if kind == "signal" else profiles_of(placed, kind)
        left = {row.number for row in rows if _is_left(stating, row, counts)}
        placed.confirmed.uncovered |= left
        found += [_remark(placed, some) for some in _together(rows, left)]
    made = Result(found, counts.pop("", 0), counts, usual=frozenset({ONE_WAY}))
    return made._replace(confirmed=placed.confirmed)


def _is_left(stating: Stating, row: PlanRow, counts: Dict[str, int]) -> bool:
    """Whether no telegram states a row that one should state. It is counted as compared, or with the reason why not."""
    why = stating.why_not(row)
    counts[why or ""] += 1
    return why is None


def _together(rows: Sequence[PlanRow], left: AbstractSet[int]) -> Iterator[Sequence[PlanRow]]:
    """The rows that are left, those together that follow each other on a track for a way."""
    lanes: Dict[Tuple[str, int], List[PlanRow]] = {}
    for row in sorted(rows, key=lambda row: row.km):
        lanes.setdefault((row.track, row.way), []).append(row)
    for lane in lanes.values():
        some: List[PlanRow] = []
        for row in lane:
            if row.number in left:
                some.append(row)
            elif some:
                yield some
                some = []
        if some:
            yield some


def _remark(placed: PlacedPlan, rows: Sequence[PlanRow]) -> Remark:
    """One remark on rows that follow each other, at the group nearest to the first one."""
    first, last = rows[0], rows[-1]
    end = last.km_to or last.km
    several = "s" if len(rows) > 1 else ""
    names = listed([clean(row.name) for row in rows if row.name], NAMED)
    where = f"from km {kilometre(first.km)} to km {kilometre(end)}" if end != first.km else f"km {kilometre(first.km)}"
    way = {1: " for rising trains", -1: " for falling trains"}.get(first.way, "")
    of_rows = f"{rows_named(rows)}, {where}{way}"
    sentence = f"{WORDS[first.kind]}{several} of {of_rows}{f' ({names})' if names else ''}"
    place = placed.place(first.track, first.km)
    group = placed.decoded.nearest(first.track, place or 0)
    values: Dict[str, Decimal] = {"plan_km": first.km, **({"plan_km_to": end} if end != first.km else {})}
    where_it_is = group.location() if group else Location()
    return Remark("X6", where_it_is, sentence, values=values, facts=[cells_of(row) for row in rows])


RULE = Rule("X6", "rows of the plan", __doc__ or "", find, Urgency.WRONG_INFORMATION)

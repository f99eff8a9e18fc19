"""X1: speed other than in the plan.

What it says. A speed profile has a V_STATIC that is not the line speed of the plan, on a stretch longer than
`--tolerance` (default 1 m) and rounding. Stretches that touch count as one. If they are long enough only together, the
remark also names the ends of the whole stretch, and its rows of the plan. The rule rests on SUBSET-026, 7.4.2 and
7.5.1.
- Speeds for train categories are not compared, nor is what follows a packet 136. A stretch for which the plan has no
  speed is not compared either.
- {beyond a point}

Why it matters. At worst the train gets wrong information, and might run faster than the track allows. A speed that is
lower than in the plan only slows trains.

Example. Before (`examples/meaning/level-border.csv` with `--plan` `examples/meaning/plan.csv`): V_STATIC of Signal 6 is
100 km/h from km 17.990 to km 20.700, and the plan has 80 km/h there. After: both have the speed of the track.

When it is a false alarm. The rule assumes that the plan has the speed that V_STATIC must have, and not the speed of a
train category. It assumes that the last speed of the plan holds for the rest of the track. If the plan ends before the
profiles, write its end into `km_to` of that row. {track speed} {exact} A profile without a short higher speed is also
on the safe side. {leaving} {points} {kilometres} {missing} {one way}

Usual cause. A speed was typed in km/h and not in steps of 5 km/h. Or the place of a change of speed was counted from
another group. Or Q_SCALE is not the scale of the distances. Or the line speed has changed since the telegrams were
made.

How to correct it. Correct V_STATIC or D_STATIC of the packet, or the row of the plan.

How to accept it. State why V_STATIC differs from the speed of the track, for example for an overlap.
"""
from __future__ import annotations

from decimal import Decimal
from typing import Sequence

from balisekit.rules.line import Line
from balisekit.rules.track_plan.placed import PlacedPlan, plan_words, remark
from balisekit.rules.track_plan.stretches import Difference, compare, whole_words
from balisekit.rules.rule import Options, Remark, Result, Rule, Urgency
from balisekit.rules.telegrams import SPEEDS
from balisekit.tables.plan_values import STEP


def find(line: Line, options: Options) -> Result:
    """Compares each element of each speed profile."""
    placed = PlacedPlan(line, options)
    compared = compare(placed, SPEEDS, options)
    found = [_remark(placed, each) for each in compared.differences]
    return placed.result(["speed"], found, compared.counts)


def _remark(placed: PlacedPlan, differences: Sequence[Difference]) -> Remark:
    saying, begin, end, said, part = differences[0][:5]
    passage = saying.passage
    sentence = (
        f"V_STATIC is {said * STEP} km/h from {placed.km(passage, begin)} to {placed.km(passage, end)}, and the line "
        f"speed is {part.value * STEP} km/h by {plan_words(part.row, with_km=False)}"
    ) + whole_words(placed, differences[0])
    values = {
        "v_static_kmh": Decimal(said * STEP),
        "plan_kmh": Decimal(part.value * STEP),
        "km": placed.km_value(passage, begin),
        "km_to": placed.km_value(passage, end),
    }
    urgency = Urgency.WRONG_INFORMATION if said > part.value else Urgency.BRAKING
    facts = [each.fact(placed) for each in differences]
    return remark("X1", [each.saying for each in differences], sentence, values, facts, urgency)


RULE = Rule("X1", "speeds", __doc__ or "", find, Urgency.WRONG_INFORMATION)

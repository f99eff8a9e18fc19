"""X2: gradient other than in the plan.

What it says. A gradient profile has another gradient than the plan, on a stretch longer than `--tolerance` (default 1
m) and rounding. Stretches that touch count as one. If they are long enough only together, the remark also names the
ends of the whole stretch, and its rows of the plan. The rule rests on SUBSET-026, 7.4.2 and 7.5.1.
- Uphill is positive. In the packet it is uphill for the train that gets the packet. In the plan it is uphill for a
  train of the row's way, or for a rising train if the row has no way.
- What follows a packet 136 is not compared, nor is a stretch for which the plan has no gradient.
- {beyond a point}

Why it matters. At worst the train gets wrong information: it brakes too late if the gradient is less downhill than the
track. A gradient that is more downhill makes it brake early.

Example. Before (`examples/meaning/level-border.csv` with `--plan` `examples/meaning/plan.csv`): the gradient of Signal
4 is +1 ‰ from km 16.620 to km 17.700, and the plan has -1 ‰ there. After: both have -1 ‰, as the track has.

When it is a false alarm. The rule assumes that plan and profile have the gradient of each place. One of them might have
a mean of several gradients, or a safe one. A safe gradient is the most downhill one, one that was rounded down, or one
of a stop aspect or overlap. Write safe gradients into the plan, a row for each way. It assumes that the last gradient
of the plan holds for the rest of the track. If the plan ends before the profiles, write its end into `km_to` of that
row. {leaving} {points} {kilometres} {missing} {one way}

Usual cause. The sign of the other direction was taken. Or the gradient of the neighbouring stretch was copied. Or
Q_SCALE is not the scale of the distances.

How to correct it. Correct Q_GDIR, G_A or D_GRADIENT of the packet, or the row of the plan.

How to accept it. State how the gradient of the profile was made safe.
"""
from __future__ import annotations

from decimal import Decimal
from typing import Sequence

from balisekit.rules.line import Line
from balisekit.rules.track_plan.placed import PlacedPlan, plan_words, remark
from balisekit.rules.track_plan.stretches import Difference, compare, whole_words
from balisekit.rules.rule import Options, Remark, Result, Rule, Urgency
from balisekit.rules.telegrams import GRADIENTS


def find(line: Line, options: Options) -> Result:
    """Compares each element of each gradient profile."""
    placed = PlacedPlan(line, options)
    compared = compare(placed, GRADIENTS, options)
    found = [_remark(placed, each) for each in compared.differences]
    return placed.result(["gradient"], found, compared.counts)


def _remark(placed: PlacedPlan, differences: Sequence[Difference]) -> Remark:
    saying, begin, end, said, part = differences[0][:5]
    passage = saying.passage
    sign = ": the sign is the other one" if said == -part.value else ""
    sentence = (
        f"the gradient by G_A and Q_GDIR is {_words(said)} from {placed.km(passage, begin)} to "
        f"{placed.km(passage, end)}, and {_words(part.value)} by {plan_words(part.row, with_km=False)}{sign}"
    ) + whole_words(placed, differences[0])
    values = {
        "g_a": Decimal(said),
        "plan_per_mille": Decimal(part.value),
        "km": placed.km_value(passage, begin),
        "km_to": placed.km_value(passage, end),
    }
    urgency = Urgency.WRONG_INFORMATION if said > part.value else Urgency.BRAKING
    facts = [each.fact(placed) for each in differences]
    return remark("X2", [each.saying for each in differences], sentence, values, facts, urgency)


def _words(gradient: int) -> str:
    """A gradient with its sign."""
    return f"{gradient:+} ‰" if gradient else "0 ‰"


RULE = Rule("X2", "gradients", __doc__ or "", find, Urgency.WRONG_INFORMATION)

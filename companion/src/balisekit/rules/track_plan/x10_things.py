"""X10: restriction, condition or area other than in the plan.

What it says. A packet states a temporary restriction, track condition, reversing area or repositioning section. Its
place or a value differs from the plan, or the plan does not have it. The rule also reports a row of the plan that no
packet states. It rests on SUBSET-026, 7.4.2 and 7.5.1.
- Rows `tsr`: the rule compares the beginning, the end, V_TSR, NID_TSR and Q_FRONT of each packet 65. A group within the
  restriction may send only the rest of it. A packet 66 must have the NID_TSR of such a row of its track and way.
- Rows `condition`: the rule compares the beginning, the end and M_TRACKCOND of each condition of packet 68.
- Rows `reversing`: the rule compares the area of packet 138 with V_REVERSE and D_REVERSE of packet 139.
- Rows `repositioning`: the rule compares L_SECTION of packet 16. The row is at the group that sends it.
- Rows `crossing` and `traction`: the rule compares the place and the values of packets 88 and 39. It compares them only
  if `layouts` of `balisekit.toml` names the packet, because their layouts are not certain.
- Rows `stop_in_sr` and `shunting`: the rule compares Q_SRSTOP of packet 137, Q_ASPECT of packet 132, and the balises of
  packet 49. The row is at the group that sends them. A group with "stop" and "go" by its aspects has two rows.
- A kind of which the plan has no row is not compared. What the row does not state is not compared either.
- A packet is compared with the row of its NID_TSR that is at most 20 km away, or else with the nearest row within
  50 m.
- A row is not compared if it is beyond the table. It is not reported if a telegram of its track is refused. Nor is it
  reported if such a packet has no known place, lies beyond a `point` or follows a packet 136.
- {beyond a point}

Why it matters. At worst the train gets wrong information, and might pass a restriction too fast.

Example. Before (`examples/meaning/level-border.csv` with `--plan` `examples/meaning/plan.csv`): row 101 of the plan has
a temporary restriction, and no packet 65 states it. After: the groups before it send a packet 65, or the plan does not
have it.

When it is a false alarm. The rule assumes that the plan lists all restrictions, conditions and areas of a kind if it
lists one. It assumes that the layouts of these packets are as balisekit believes. {leaving} {points} {kilometres}
{missing} {one way}

Usual cause. A distance was counted from another group. Or the restriction was ended or moved, and one group still has
the old packet.

How to correct it. Correct the packet, or the row of the plan.

How to accept it. State why the packet differs from the plan, for example because two restrictions were made one.
"""
from __future__ import annotations

from balisekit.rules.line import Line
from balisekit.rules.rule import Options, Result, Rule, Urgency
from balisekit.rules.track_plan.comparing_things import Comparison
from balisekit.rules.track_plan.placed import PlacedPlan, remark
from balisekit.rules.track_plan.things import KINDS, is_compared

NOT_CERTAIN = "a layout that the project has not compared with its print"


def find(line: Line, options: Options) -> Result:
    """Compares the packets of each kind that the plan has."""
    placed = PlacedPlan(line, options)
    comparison = Comparison(placed, options)
    kinds = [kind for kind in KINDS if placed.plan.of_kind(kind)]
    found = [each for kind in kinds if is_compared(kind, options) for each in comparison.of_kind(kind)]
    for kind in (kind for kind in kinds if not is_compared(kind, options)):
        comparison.counts[NOT_CERTAIN] += len(placed.plan.of_kind(kind))
    if "tsr" in kinds:
        comparison.revocations()
    for (_, sentence), (sayings, facts) in comparison.found.items():
        found.append(remark("X10", sayings, sentence, {}, facts))
    return placed.result(KINDS, found, +comparison.counts)


RULE = Rule("X10", "areas of the plan", __doc__ or "", find, Urgency.WRONG_INFORMATION)

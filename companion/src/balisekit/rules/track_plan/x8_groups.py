"""X8: balise group or link other than in the plan.

What it says. A balise group differs from its row of the plan, or a packet 5 gives the group another distance or
orientation than the plan. The rule rests on SUBSET-026, 7.4.2, 7.5.1 and 8.4.2.
- Groups: the rule compares a group with the row of the plan that has its name. The rule compares the kilometres of the
  balises, the track, the nominal direction, the identity, the number of balises and Q_LINK, as far as the row states
  them. It compares the last three in each telegram of the group.
- Links: the rule compares the distance and the orientation of each link. The plan must have the group that sends the
  link and the group that the link names, on one track and each with its way. D_LINK is added up from the group that
  sends the packet.
- Messages: the links of a message are compared in the same way, from its reference group.
- If the row of a group has a `way`, X1 to X3, X5, X6 and X10 count distances from the place and the direction of this
  row. A wrong kilometre of the table is then a remark of X8 only.
- Kilometres may differ by `--tolerance` (default 0) and by one unit of the last decimal of the kilometres, at most 1 m.
- The sum of D_LINK may differ as kilometres may. It may also differ by one unit of Q_SCALE, and by half a unit for each
  further link. Q_LOCACC is not added to this tolerance, because it is no error of the data.

Why it matters. At worst the train believes itself to be somewhere else, or gets information that is for another group.

Example. Before (`examples/meaning/level-border.csv` with `--plan` `examples/meaning/plan.csv`): NID_C and NID_BG of
Signal 15 are 352/15, and 352/16 by the plan. After: both have one identity.

When it is a false alarm. The rule assumes that the plan has the kilometre of the first balise of a group, and not the
kilometre of its signal. It assumes that kilometres of the plan are positions on the track. That is wrong if the
kilometres jump and neither `--jumps` nor the plan states it.

Usual cause. A balise was copied from another group, or a group was moved and its links were not corrected.

How to correct it. Correct the header or the packet 5, the kilometre of the table, or the row of the plan.

How to accept it. State why the group differs from the plan.
"""
from __future__ import annotations

from collections import Counter
from decimal import Decimal
from typing import Dict, Iterator, List, Mapping, Tuple

from balisekit.design.groups import DesignedGroup, DesignedGroups, link
from balisekit.etcs.geometry import NOMINAL
from balisekit.rules.line import Line
from balisekit.rules.location import NO_DIRECTION
from balisekit.rules.passages import GroupData, Passage
from balisekit.rules.rule import Options, Remark, Result, Rule, Urgency
from balisekit.rules.telegrams import LINKING, Link, Packet, rounding
from balisekit.rules.track_plan.headers import differing_headers
from balisekit.rules.track_plan.placed import SAYS_NOTHING, PlacedPlan, cells_of, plan_words
from balisekit.rules.track_plan.sites import differing_places, lacks_kilometres
from balisekit.tables.names import clean
from balisekit.tables.plan import WAY_WORDS, PlanRow, rows_named
from balisekit.tables.plan_values import metres

REFUSED = "no telegram is read"
NO_KILOMETRES = "no kilometre of the group or of a balise that the plan has"


def find(line: Line, options: Options) -> Result:
    """Compares each group that the plan has, and each link between two of them."""
    placed, counts = PlacedPlan(line, options), Counter[str]()
    designed = placed.groups
    found: List[Remark] = []
    if not designed:
        return placed.result(["group"], found, counts)
    for data in line.decoded.groups:
        group = designed.by_name.get(clean(data.group.group.name))
        counts[SAYS_NOTHING if group is None else "" if data.telegrams else REFUSED] += 1
        if group:
            found += _of_group(placed, line, data, group, options, counts)
    return placed.result(["group"], [*found, *_of_links(placed, line, designed, options, counts)], +counts)


def _of_group(
    placed: PlacedPlan, line: Line, data: GroupData, group: DesignedGroup, options: Options, counts: Dict[str, int]
) -> Iterator[Remark]:
    """One remark on all that differs in a group."""
    differ = [*differing_headers(placed, data, group), *differing_places(line, data, group, options)]
    counts[NO_KILOMETRES] += lacks_kilometres(data, group)
    if group.nominal and data.group.rising is None:
        counts[NO_DIRECTION] += 1
    elif group.nominal and data.group.rising != group.nominal:
        ways = WAY_WORDS[data.group.rising or 0], WAY_WORDS[group.nominal]
        differ.append(f"the kilometres are {ways[0]} in nominal direction, and {ways[1]}")
    if differ:
        placed.confirmed.tell(group.row, data.telegrams, False)
        sentence = f"{' by the plan; '.join(differ)} by {plan_words(group.row, with_km=False)}"
        yield Remark("X8", data.location(), sentence, facts=[cells_of(group.row)])


def _of_links(
    placed: PlacedPlan, line: Line, designed: DesignedGroups, options: Options, counts: Dict[str, int]
) -> Iterator[Remark]:
    """Compares the links of all groups and messages. Links of several telegrams that differ alike are one remark."""
    found: Dict[Tuple[str, str], List[Remark]] = {}
    seen = set()
    for passage in line.decoded.passages:
        for packet in passage.of(LINKING):
            for each in packet.links if (packet, passage.direction) not in seen else ():
                for remark in _of_link(placed, designed, options, counts, passage, packet, each):
                    found.setdefault((remark.sentence, str(passage.group)), []).append(remark)
            seen.add((packet, passage.direction))
    for first, *others in found.values():
        yield first._replace(also=[other.location for other in others])


def _of_link(
    placed: PlacedPlan,
    designed: DesignedGroups,
    options: Options,
    counts: Dict[str, int],
    passage: Passage,
    packet: Packet,
    own: Link,
) -> Iterator[Remark]:
    """Compares one link of a packet 5."""
    sender = designed.by_name.get(clean(passage.group.group.group.name)) if passage.group else None
    target = designed.by_identity.get(own.identity)
    if sender is None or target is None:
        counts[SAYS_NOTHING] += own.known
        return
    wanted, why = link(sender, target, passage.direction == NOMINAL)
    counts[why] += 1
    placed.confirmed.pass_over(packet, why)
    if wanted is None:
        return
    allowed = placed.decoded.tolerance(options.tolerance, rounding(own.unit, own.number + 1))
    differ: List[str] = []
    values: Dict[str, Decimal] = {}
    is_far, is_turned = abs(own.total - wanted.distance) > allowed, own.nominal != wanted.is_nominal
    _confirm_link(placed, target.row, packet, own, {"d_link": is_far, "q_linkorientation": is_turned})
    if is_far:
        differ.append(f"D_LINK adds up to {metres(own.total)} m, and to {metres(wanted.distance)} m")
        values = {"d_link_m": Decimal(own.total) / 10, "plan_d_link_m": Decimal(wanted.distance) / 10}
    if is_turned:
        differ.append(f"Q_LINKORIENTATION is {int(own.nominal)}, and {int(wanted.is_nominal)}")
    if differ:
        rows = rows_named([sender.row, target.row])
        sentence = f"{clean(target.row.name)}: {' by the plan; '.join(differ)} by {rows}"
        facts = [cells_of(sender.row), cells_of(target.row)]
        yield Remark("X8", passage.at(packet, own.number), sentence, values=values, facts=facts)


def _confirm_link(placed: PlacedPlan, row: PlanRow, packet: Packet, own: Link, differs: Mapping[str, bool]) -> None:
    """Takes down which variables of a link the row of its group confirms, and which it contradicts."""
    keys = [*differs, "nid_c", "nid_bg"]
    same, other = (
        [("links", own.number, key) for key in keys if differs.get(key, False) == is_other]
        for is_other in (False, True)
    )
    placed.confirmed.confirm([row], packet, same)
    placed.confirmed.contradict([row] if other else [], packet, other)


RULE = Rule("X8", "statements about groups", __doc__ or "", find, Urgency.WRONG_PLACE)

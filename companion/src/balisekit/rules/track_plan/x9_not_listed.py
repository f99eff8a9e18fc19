"""X9: balise group or aspect of the table that the plan does not list.

What it says. The plan lists balise groups, and the table has a group that none of these rows names. Or the plan lists
aspects of a signal, and the table has an aspect of this signal that none of these rows names. The rule rests on
SUBSET-026, 7.4.2.
- The rule compares names as texts, as X7 does. The remark asks for the row of the plan whose name is most alike, if the
  table does not have this name and it is alike enough.
- Groups are only compared if the plan has a row `group`. Aspects of a signal are only compared if the plan has a row
  `aspect` of this signal.
- A group of which no telegram is read is not compared, nor is an aspect of which a telegram is refused.

Why it matters. At worst the train gets wrong information: nobody has designed what these telegrams tell it, or nobody
has compared it with the design.

Example. Before (`examples/meaning/level-border.csv` with `--plan` `examples/meaning/plan.csv`): the table has Signal
12/green, and the plan has no row of this name. After: the plan has a row for this aspect.

When it is a false alarm. The rule assumes that a plan which lists any group lists all groups of the table, and all
aspects of each signal of which it lists one. A plan might list only the groups that are new, or only the aspects whose
route has changed.

Usual cause. A row of the plan is missing, or its name is misspelled. Or the group is not in the design any more, and
its telegrams were left in the table.

How to correct it. Add the row to the plan, with `authority=none` for an aspect that gives no packet 12. Or remove the
telegrams from the table.

How to accept it. Name the design that has the group or the aspect, or state why none has it.
"""
from __future__ import annotations

from collections import Counter
from typing import Dict, Iterator, List, Mapping, Sequence

from balisekit.rules.line import Line
from balisekit.rules.passages import GroupData
from balisekit.rules.rule import Options, Remark, Result, Rule, Urgency
from balisekit.rules.track_plan.placed import PlacedPlan
from balisekit.rules.track_plan.x7_names import LOOKED_FOR, group_of, meant
from balisekit.tables.names import clean, quoted
from balisekit.tables.plan import aspect_name

REFUSED = "a refused telegram"
Groups = Mapping[str, GroupData]
"""The groups of the table by their names, as a plan writes them."""


def find(line: Line, options: Options) -> Result:
    """Looks for each group of the table, and each aspect of a signal that the plan lists, in the plan."""
    placed, counts = PlacedPlan(line, options), Counter[str]()
    groups = {clean(data.group.group.name): data for data in line.decoded.groups}
    found = [*_groups(placed, groups, counts), *_aspects(placed, groups, counts)]
    return placed.result(["group", "aspect"], found, counts)


def _groups(placed: PlacedPlan, groups: Groups, counts: Dict[str, int]) -> Iterator[Remark]:
    """The groups of the table that no row names, if there is a row for any group."""
    listed = dict.fromkeys(row.name for row in placed.plan.of_kind("group"))
    left = [name for name in listed if name not in groups]
    looked_for = LOOKED_FOR
    for name, data in groups.items() if listed else ():
        counts["" if data.telegrams else REFUSED] += 1
        if name not in listed and data.telegrams:
            looked_for -= 1
            yield _remark(data, "group", name, left if looked_for >= 0 else [])


def _aspects(placed: PlacedPlan, groups: Groups, counts: Dict[str, int]) -> Iterator[Remark]:
    """The aspects of the table that no row names, of signals of which the plan lists an aspect."""
    listed: Dict[str, List[str]] = {}
    for name in placed.plan.aspects:
        listed.setdefault(group_of(name, groups) or "", []).append(name)
    looked_for = LOOKED_FOR
    for signal, data in groups.items():
        rows = listed.get(signal, [])
        own = {aspect_name(signal, each.name): each for each in data.group.group.aspects} if rows else {}
        left = [name for name in rows if name not in own]
        for name, aspect in own.items():
            is_read = all(row.number in data.telegrams for row in aspect.rows)
            counts["" if is_read else REFUSED] += 1
            if name not in rows and is_read:
                looked_for -= 1
                numbers = tuple(row.number for row in aspect.rows)
                aspects = (aspect.name,) if aspect.name not in ("", "*") else ()
                like = left if looked_for >= 0 else []
                yield _remark(data, "aspect", name, like)._replace(rows=numbers, aspects=aspects)


def _remark(data: GroupData, what: str, name: str, left: Sequence[str]) -> Remark:
    """What the table has and the plan does not, with the one of the names left in the plan that is most alike."""
    sentence = f"the table has the {what} {quoted(name)}, and no row of the plan has this name{meant(name, left)}"
    return Remark("X9", data.location(), sentence, facts=[f"not in the plan: {what} {name}"])


RULE = Rule("X9", "names of the table", __doc__ or "", find, Urgency.WRONG_INFORMATION)

"""E25: one end of authority, several descriptions.

What it says. Authorities of two groups end at the same place, and disagree about the danger point, the overlap or V_LOA
there. The rule rests on SUBSET-026, 3.8.
- The rule compares D_DP, V_RELEASEDP, D_OL, V_RELEASEOL and V_LOA. It also compares whether there is a danger point,
  and whether there is an overlap.
- Authorities are packets 12 with V_MAIN above 0, and packets 15.
- Two authorities end at the same place if their packets 5 name the same group with the same orientation, at most 200 m
  from the end. Both ends must also be equally far from that group, up to `--tolerance` (default 1 m) and rounding.
- The most frequent value counts as right, and a remark names each authority with another value. If several values are
  equally frequent at this end, the value that is more frequent in the whole table counts as right.
- D_DP and D_OL may differ by `--tolerance` and one unit of Q_SCALE.
- An authority is not compared if it follows a packet 136, or if its message has a packet 80 (mode profile). The
  authority of a radio message is not compared if the group of the message is not in the table.
- The overlaps of an end are compared only if each group gives one value for all its aspects. If aspects of one group
  give several D_OL, D_OL is not compared at this end. The same holds for V_RELEASEOL.
- V_LOA is not compared if aspects of one group give several values, and none of them is 0. Several values with a 0
  among them are not compared either if the group at the end orders a level at once (packet 41).
- The danger point and the overlap of an authority are not compared if its V_LOA is above 0, because trains may pass its
  end.

Why it matters. At worst the train gets wrong information: it might pass the danger point, or run at a speed that is not
meant for this signal.

Example. Before (`examples/meaning/mistakes/E25.csv`): at "green" of Signal 3 (km 13.003) the overlap beyond Signal 5
has D_OL 150 m, and "yellow" of Signal 4 gives 200 m for it. After: both give 200 m.

When it is a false alarm. The rule assumes that an end has one danger point, one overlap and one V_LOA, whichever route
leads to it. The overlap and the release speed might depend on the route, such as after a reduced overlap or over points
beyond the signal. A V_LOA above 0 might be given only to trains of one route. The rule also assumes that two routes
meet at the end if packets 5 of both routes name the same group there.

Usual cause. The value was changed in one of the groups only, or it was copied from another signal.

How to correct it. Give the same value in all groups, according to the design of the signal at the end.

How to accept it. Name both routes, and state what each route has beyond the signal.

How sure. 88 %, by practice and memory of the standard.
"""
from __future__ import annotations

from collections import Counter
from decimal import Decimal
from typing import Any, Iterator, List, Mapping, Sequence, Tuple

from balisekit.etcs.variables import variable_name
from balisekit.rules.decoded import tolerance_of_lengths
from balisekit.rules.facts import counted, sender
from balisekit.rules.line import Line
from balisekit.rules.meaning.ends_at_groups import (
    LIMIT,
    USUAL,
    Compared,
    End,
    Value,
    at_one_place,
    depends_on_aspects,
    ends_at_groups,
    usual_end,
)
from balisekit.rules.meaning.words import merged, source
from balisekit.rules.rule import Field, Options, Remark, Result, Rule, Urgency
from balisekit.tables.names import describe_identity

COMPARED = (
    LIMIT,
    ("danger_point", "d_dp"),
    ("danger_point", "v_releasedp"),
    ("overlap", "d_ol"),
    ("overlap", "v_releaseol"),
)
"""The parts of an authority that are compared, and their keys. The first key of a part says whether it is there."""
OF_ASPECTS = "without its overlap or V_LOA, which depends on the aspect"
OF_LIMITS = "without its danger point and overlap, which mean nothing with V_LOA above 0"
"""What is not compared in full."""
Table = Mapping[Compared, "Counter[Value]"]
"""How many ends of the table have each value."""


def find(line: Line, options: Options) -> Result:
    """Compares the authorities that end at one group."""
    groups, left = ends_at_groups(line.decoded)
    table = {compared: Counter(end.value(*compared) for some in groups for end in some) for compared in COMPARED}
    found: List[Remark] = []
    for some in groups:
        for same in at_one_place(options, some):
            found += _compare(options, same, table)
            depends = any(depends_on_aspects(same, each) for each in COMPARED)
            limits = [end for end in same if end.is_limit and (end.form_of("danger_point") or end.form_of("overlap"))]
            left[OF_ASPECTS if depends else OF_LIMITS] += len(same) if depends else len(limits)
    looked_at = sum(map(len, groups)) - left[OF_ASPECTS] - left[OF_LIMITS]
    return Result(merged(found), looked_at, +left, is_optional=True, usual=USUAL)


def _compare(options: Options, same: Sequence[End], table: Table) -> Iterator[Remark]:
    """The ends whose values are not the usual ones, each with all of these."""
    usual = {compared: usual_end(same, compared, table[compared]) for compared in COMPARED}
    for end in same:
        differing = [
            (compared, other)
            for compared, other in usual.items()
            if other and (compared == LIMIT or not end.is_limit) and _differ(options, end, other, *compared)
        ]
        if differing:
            yield _remark(end, differing)


def _differ(options: Options, one: End, other: End, part: str, key: str) -> bool:
    """Whether two values are others. Only the first key of a part is compared if one end lacks the part."""
    mine, its = one.value(part, key), other.value(part, key)
    if mine is None or its is None:
        return mine != its and key.startswith("d_")
    allowed = tolerance_of_lengths(options.tolerance_of_places, one.packet.unit, other.packet.unit)
    return abs(mine - its) > (allowed if key.startswith("d_") else 0)


def _remark(end: End, differing: Sequence[Tuple[Compared, End]]) -> Remark:
    """An end that differs, with all values in which it does."""
    words, values, row = [], {}, end.packet.row
    for (part, key), usual in differing:
        form: Any = (end if end.form_of(part) else usual).form_of(part)
        words.append(
            f"{variable_name(key, form)} is {end.words(part, key)}, and {usual.words(part, key)} by "
            f"{source(usual.passage, usual.packet)}"
        )
        numbers = {key: end.value(part, key), f"other_{key}": usual.value(part, key)}
        values.update({each: Decimal(value) for each, value in numbers.items() if value is not None})
    others = [usual for _, usual in differing]
    group = end.link.target or describe_identity(end.link.identity)
    sentence = f"at {group}, where the authority ends, {'; '.join(words)}, whose authority ends there too"
    blamed: Sequence[Field] = [
        (row.number, end.packet.place, key, None) for (part, key), _ in differing if row and end.form_of(part)
    ]
    made = Remark("E25", end.passage.at(end.packet), sentence, values=values, blamed=blamed)
    facts = [counted(sender(each.passage, each.packet) for each in others)]
    return made._replace(compared=[each.passage.at(each.packet) for each in others], facts=facts)


RULE = Rule("E25", "ends of authority", __doc__ or "", find, Urgency.WRONG_INFORMATION)

"""E29: track condition at two places.

What it says. Packets state different places, lengths or kinds of what looks like one track condition. The rule rests on
SUBSET-026, 3.12.1 and 7.4.2.
- The rule compares packets 68 (track condition), 71 (adhesion factor) and 138 (reversing area). It also compares the
  packets 39, 40, 67, 69 and 88 that `layouts` in `[check]` names, because balisekit is not sure of their layouts.
- Conditions are of one kind if they have the same NID_PACKET. If the packet has such a value as M_TRACKCOND or
  M_ADHESION, this value must be the same too.
- Two conditions of one kind look like one condition if they begin at most 200 m from each other. They must be on one
  track, and for trains that run the same way.
- For changes to one traction system (packet 39) and level crossings with one NID_LX (packet 88) the limit is 2 km
  instead of 200 m.
- Two conditions farther apart look like one too, if they have the same kind and length, and only one group states one
  of them. All groups that state either of them must be in rear of both, and no telegram may have both. Then one of two
  things must hold. Either several groups state the other condition, the first of them in rear of this group. Or the
  conditions begin at most 2 km apart, with no group for these trains between them. Big metal masses (packet 67) and
  places to sound the horn (M_TRACKCOND 2) are excepted, because a track may have several that are alike.
- The place and length that most groups give count as right, and each other place or length is reported. If several are
  equally frequent, those at the lowest kilometre count as right.
- Two messages might state different kinds at the same place with the same length. The kind that most groups state
  counts as right, and the other kind is reported. Two aspects of one group are two messages here.
- Two kinds are not reported if one message of the table has both of them at one place of this track and direction. Two
  places or lengths are not reported if one message has both conditions, in one packet or in two.
- Places and lengths may differ by `--tolerance` (default 1 m) and rounding.
- A group within the condition might send only the rest of the condition. Such a packet has the distance 0, and is not
  reported if the end of the condition is the same.
- Packets that follow a packet 136 are counted as not compared.

Why it matters. At worst the train gets wrong information: the driver stops in a tunnel, or switches the power off too
late.

Example. Before (`examples/meaning/mistakes/E29.csv`): Signal 4 (km 14.500) has a condition at km 15.650, and Signal 3
has it at km 15.500, both for 300 m. After: both have it at km 15.500.

When it is a false alarm. The rule assumes that conditions of one kind within 200 m are one condition. Two short
conditions might follow each other, and each group might send only one of them. The same holds for equal conditions of
one section. It assumes that all packets state the condition exactly. A packet might state a longer condition on
purpose, to be on the safe side. {leaving} {kilometres} {missing} {one way}

Usual cause. A distance was not generated again for the second group, or the condition was moved and one group was
forgotten.

How to correct it. Correct the distances and lengths according to the list of track conditions.

How to accept it. Name both conditions in the list, or state why one of the groups announces a longer condition.

How sure. 87 %, by practice and memory of the standard.
"""
from __future__ import annotations

from collections import Counter
from decimal import Decimal
from functools import partial
from typing import AbstractSet, Dict, Iterator, List, Sequence, Set, Tuple

from balisekit.etcs.packets import packet_name
from balisekit.etcs.raw_layouts import layout_of
from balisekit.etcs.raw_packets import content_of
from balisekit.etcs.variables import metres
from balisekit.rules.decoded import tolerance_of_lengths
from balisekit.rules.line import Line
from balisekit.rules.meaning.along import parts, passed_over
from balisekit.rules.meaning.conditions import LAYOUTS, Condition, conditions_of, of_messages
from balisekit.rules.meaning.far_conditions import far_places
from balisekit.rules.meaning.one_kind import of_two_kinds
from balisekit.rules.meaning.sent import sent
from balisekit.rules.meaning.words import at_place, merged, source
from balisekit.rules.rule import Options, Remark, Result, Rule, Urgency

INFILL = "behind a packet 136"
"""Why a packet is not compared: its distances count from another group."""


def find(line: Line, options: Options) -> Result:
    """Compares the conditions of each kind on each track."""
    trusted = {number for number in LAYOUTS if _is_trusted(number, options)}
    found: List[Remark] = []
    looked_at = 0
    for (_, kind), some in conditions_of(line.decoded, trusted).items():
        looked_at += len(some)
        near = LAYOUTS[kind[0]].near
        for part in parts(sorted(some, key=lambda each: each.place), near):
            found += _compare(line, options, part, near)
        agree, both = partial(_agree, line, options), partial(_has_both, line, options, of_messages(some))
        far = far_places(line.decoded, kind, some, agree, both) if len(some) > 1 else ()
        found += [_remark(line, each, usual) for each, usual in far]
    found += of_two_kinds(line.decoded, trusted, partial(_agree, line, options))
    lacks = passed_over(line.decoded, lambda packet: packet.number in trusted)
    return Result.of_places(merged(found), looked_at, lacks, +Counter(_left(line, trusted)))


def _left(line: Line, trusted: AbstractSet[int]) -> Iterator[str]:
    """Why conditions are not compared, of which the kilometres are known: once for each packet."""
    said = {id(packet) for passage in line.decoded.passages for packet in passage.said}
    behind = {id(packet) for passage in line.decoded.passages for packet in passage.infill} - said
    for _, packet in sent(line.decoded, *LAYOUTS):
        content = content_of(packet.form)
        if packet.number not in trusted:
            yield "layout not sure"
        elif content is None or content.fault:
            yield "not decoded"
        elif id(packet) in behind:
            yield INFILL


def _is_trusted(number: int, options: Options) -> bool:
    """Whether remarks may rest on the layout of a packet."""
    layout = layout_of(number)
    return number in options.layouts or layout is not None and layout.is_certain


def _compare(line: Line, options: Options, some: Sequence[Condition], near: int) -> Iterator[Remark]:
    """Those that differ from what most groups say, if no message has both. Of two that differ one is reported."""
    firsts: Dict[Tuple[int, int], Condition] = {}
    groups: Dict[Tuple[int, int], Set[int]] = {}
    for each in some:
        firsts.setdefault(each.says, each)
        groups.setdefault(each.says, set()).add(id(each.passage.group or each.passage.message))
    several = of_messages(some) if len(firsts) > 1 else []
    order = {says: (-len(groups[says]), place) for place, says in enumerate(firsts)}
    for each in some:
        better = [one for one in firsts.values() if order[one.says] < order[each.says]]
        better = [one for one in better if abs(one.place - each.place) <= near]
        usual = min(better, key=lambda one: order[one.says], default=None)
        if usual and not _agree(line, options, each, usual):
            if not _has_both(line, options, several, each, usual):
                yield _remark(line, each, usual)


def _has_both(
    line: Line, options: Options, several: Sequence[Sequence[Condition]], one: Condition, other: Condition
) -> bool:
    """Whether a message has both conditions, so that they are two."""
    for own in several:
        like_one, like_other = (
            {index for index, each in enumerate(own) if _agree(line, options, each, wanted)} for wanted in (one, other)
        )
        if any(first != second for first in like_one for second in like_other):
            return True
    return False


def _agree(line: Line, options: Options, one: Condition, other: Condition) -> bool:
    """Whether two conditions are at one place, or one of them is the rest of the other one."""
    stated, units = options.tolerance_of_places, (one.unit, other.unit)
    tolerance, lengths = line.decoded.tolerance(stated, *units), tolerance_of_lengths(stated, *units)
    if abs(one.place - other.place) <= tolerance:
        return abs(one.length - other.length) <= lengths
    way = one.passage.way or 1
    whole, rest = sorted((one, other), key=lambda each: each.place * way)
    begin = (rest.place - whole.place) * way
    return rest.distance == 0 and begin <= whole.length and abs(begin + rest.length - whole.length) <= tolerance


def _remark(line: Line, each: Condition, usual: Condition) -> Remark:
    """A remark on a condition, with the one that it differs from."""

    def words(condition: Condition) -> str:
        length = f" for {metres(condition.length)}" if LAYOUTS[each.packet.number].length else ""
        return f"{at_place(line.decoded, each.passage, condition.place)}{length}"

    name = packet_name(each.packet.number)
    sentence = f"the {name} is at {words(each)}, and by {source(usual.passage, usual.packet)} at {words(usual)}"
    values = {"place_m": Decimal(each.place) / 10, "length_m": Decimal(each.length) / 10}
    values.update({"other_place_m": Decimal(usual.place) / 10, "other_length_m": Decimal(usual.length) / 10})
    compared = [usual.passage.at(usual.packet)]
    return Remark("E29", each.passage.at(each.packet), sentence, None, values, compared=compared)


RULE = Rule("E29", "track conditions", __doc__ or "", find, Urgency.WRONG_INFORMATION, needs_kilometres=True)

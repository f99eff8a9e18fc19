"""E22: temporary speed restriction.

What it says. Packets 65 have the same NID_TSR (below 255), but give different places, lengths or speeds, or a packet 65
or 66 restricts or revokes nothing. The proved program does not decode these packets: balisekit decodes them by layouts
of its own. The rule rests on SUBSET-026, 3.11.5 and 7.4.2.
- One NID_TSR: packets 65 with one NID_TSR must have one place, L_TSR and V_TSR. Two restrictions at different places
  are reported too, because the second one that a train gets takes the place of the first one.
- One restriction: packets 65 with the same place, length and speed describe one restriction. If their NID_TSR or
  Q_FRONT differ, the rarer value is reported.
- Both directions: packets 65 with one NID_TSR for trains of both directions of a track must restrict the same stretch
  to the same speed. If they are the only ones with a NID_TSR for both directions that differ, they are reported if
  their stretches overlap. They are also reported if four times as many agree. Otherwise they are counted as not
  compared.
- No number: packets 65 with NID_TSR 255 of two groups must agree, if they begin at most 200 m from each other. They are
  reported if they differ in only one of place, L_TSR and V_TSR, and if each telegram has at most one of them.
- No restriction: a packet 65 is reported if its L_TSR is 0. It is also reported if its V_TSR is above each V_STATIC and
  V_DIFF of a table with at least five packets 27.
- No revocation: a packet 66 is reported if it has NID_TSR 255, which nothing can revoke. It is also reported if a
  packet 65 of its own telegram has its NID_TSR.
- Nothing to revoke: a packet 66 is reported if no packet 65 for trains of the same way has its NID_TSR. A packet whose
  way is not known counts for both ways. This fault is only looked for if the table or the messages have a packet 65
  that can be revoked.
- No end: perhaps no packet 65 has the NID_TSR of a packet 66, and just one packet 65 for these trains has NID_TSR 255.
  Then that packet 65 is reported instead of the packet 66.
- The rule compares packets 65 on one track, for trains that run the same way, whichever groups send them. Each
  restriction must begin at most 20 km from the next one. A restriction is counted as not compared if all others with
  its NID_TSR are farther away.
- Place and L_TSR may differ by `--tolerance` (default 1 m) and rounding.
- The most frequent restriction counts as right. Of equally frequent restrictions, the restriction at the lowest
  kilometre counts as right.
- A group within the restriction might send only the rest of the restriction. Such a packet has D_TSR 0, and is not
  reported if its V_TSR and the end of the restriction are the same.
- A different NID_TSR or Q_FRONT is not reported if one telegram has both values. If several restrictions differ in this
  way, and more than one in five, their packets are counted as not compared.
- Rule E2 reports a V_TSR above `--line-speed`.

Why it matters. At worst the train gets wrong information: the restriction begins too late, ends too early, has another
speed, or is not revoked.

Example. Before (`examples/meaning/mistakes/E22.csv`): Signal 4 has restriction 7 at km 14.600, and Signal 2 has it at
km 14.000, both for 500 m with 40 km/h. After: Signal 4 has no packet 65, because the restriction ends there.

When it is a false alarm. The rule assumes that each NID_TSR belongs to one restriction only. Two restrictions might
have the same number, if one of them is on another route. The same holds if each train has forgotten the first
restriction before it gets the second one, for example because a packet 66 revoked it. It assumes that all packets state
the complete restriction exactly. The speed of a restriction might depend on the direction. D_TSR or L_TSR might be on
the safe side, or might depend on the aspect or the route. It assumes that each packet 65 restricts trains, although a
template might hold one ready without a length or with a great speed. It assumes that the table has the packet 65 for
each packet 66, as soon as it has any. The packet 65 might be in a group that is laid for some weeks, or come by radio.
A packet 65 with NID_TSR 255 might be meant to last. {kilometres} {missing} {one way}

Usual cause. D_TSR was not generated again for the second group, a restriction was changed in one group only, or an
NID_TSR was typed wrongly.

How to correct it. Correct D_TSR, L_TSR and V_TSR according to the list of restrictions.

How to accept it. Name both restrictions in the list of restrictions, or the route or direction of this restriction. For
a packet 66, name what else sends the restriction.

How sure. 86 %, by practice and memory of the standard.
"""
from __future__ import annotations

from collections import Counter
from typing import Dict, Iterator, List, Sequence, Tuple

from balisekit.etcs.variables import Values
from balisekit.rules.decoded import Decoded
from balisekit.rules.line import Line
from balisekit.rules.meaning.along import Lane, parts, passed_over
from balisekit.rules.meaning.opposite_restrictions import OPPOSITE, opposite_restrictions, without_number
from balisekit.rules.meaning.restrictions import Restriction, descriptions_of, is_rest, most_frequent, restrictions_of
from balisekit.rules.meaning.revocations import NOT_REVOCABLE, RESTRICTION, without_effect, without_restriction
from balisekit.rules.meaning.words import merged, source
from balisekit.rules.rule import Options, Remark, Result, Rule, Urgency
from balisekit.rules.telegrams import Packet

NEAR = 200_000
"""How near in decimetres two restrictions are that have different numbers."""
FAR = "restrictions whose NID_TSR no other one within 20 km has, but one beyond"
NUMBERED = "restrictions to which several groups give numbers, or Q_FRONT, of their own"
"""Why restrictions are not compared."""


def find(line: Line, options: Options) -> Result:
    """Compares the restrictions with one number, and the numbers of one restriction."""
    decoded, looked_at = line.decoded, 0
    described = descriptions_of(decoded, options)
    left: Counter[str] = Counter({NUMBERED: described.left})
    named = {_packet_of(each) for each in described.found}
    found = list(described.found)
    for some in _by_number(decoded).values():
        for part in parts(some, NEAR):
            is_alone = len(part) == 1 < len(some)
            left[FAR] += is_alone
            looked_at += 0 if is_alone else len(part)
            found += [each for each in _compare(decoded, options, part) if _packet_of(each) not in named]
    opposite, left[OPPOSITE] = opposite_restrictions(decoded, options)
    found += [*opposite, *without_number(decoded, options)]
    found += [*without_effect(decoded, options.greatest_speed // 5), *without_restriction(decoded)]
    looked_at = max(looked_at - described.left, 0)
    return Result.of_places(merged(found), looked_at, passed_over(decoded, _is_restriction), +left)


def _packet_of(remark: Remark) -> Tuple[object, ...]:
    """The packet that a remark is about."""
    where = remark.location
    return where.row.number if where.row else None, id(where.message), where.packet, where.direction


def _is_restriction(packet: Packet) -> bool:
    """Whether it is a packet 65 that can be revoked."""
    fields: Values = packet.form
    return packet.number == RESTRICTION and fields.get("nid_tsr", NOT_REVOCABLE) != NOT_REVOCABLE


def _by_number(decoded: Decoded) -> Dict[Tuple[Lane, int], List[Restriction]]:
    """The restrictions of each track and way that can be revoked, with each number."""
    found: Dict[Tuple[Lane, int], List[Restriction]] = {}
    for lane, some in restrictions_of(decoded).items():
        for each in some:
            if each.number != NOT_REVOCABLE:
                found.setdefault((lane, each.number), []).append(each)
    return found


def _compare(decoded: Decoded, options: Options, some: Sequence[Restriction]) -> Iterator[Remark]:
    """Those that differ from the one with which most senders agree."""
    usual = most_frequent(decoded, options, some)
    for each in some:
        tolerance = decoded.tolerance(options.tolerance_of_places, each.packet.unit, usual.packet.unit)
        if not each.agrees(usual, decoded, options) and not is_rest(each, usual, tolerance):
            sentence = (
                f"the restriction with NID_TSR {each.number} is at {each.words(decoded, each.passage)}, and by "
                f"{source(usual.passage, usual.packet)} at {usual.words(decoded, each.passage)}"
            )
            values = {**each.values(), **usual.values("other_")}
            compared = [usual.passage.at(usual.packet)]
            yield Remark("E22", each.passage.at(each.packet), sentence, None, values, compared=compared)


RULE = Rule("E22", "temporary restrictions", __doc__ or "", find, Urgency.WRONG_INFORMATION, needs_kilometres=True)

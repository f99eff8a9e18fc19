"""E13: profiles that disagree.

What it says. Two neighbouring groups describe the same stretch of the track with different speeds or gradients. Speeds
differ if V_STATIC is not the same, and gradients differ if they are more than 5 ‰ apart. The rule rests on SUBSET-026,
3.11.3 and 3.11.12.
- Two groups are neighbours if they are on the same track, and no group between them describes the stretch for trains
  that run the same way. From each group, the rule looks at the next eight groups ahead that have such a profile.
- A stretch is reported if each aspect of one group that describes the stretch differs from each such aspect of the
  other group.
- If only some aspects of the group in rear have packets 5 that name the group ahead, only these aspects are compared.
- Of two groups that differ, the remark is on the group that differs from more neighbours.
- If both groups differ from equally many neighbours, the remark is on the group in rear. It is on the group ahead if
  only the values of that group look like a usual mistake, such as a wrong Q_GDIR. Of a group and a message, it is on
  the message.
- The profiles of a message 3 are compared with the profiles of the group from which they count, and of all groups ahead
  up to their end. If the group from which they count has no profile, the next group in rear whose profile reaches there
  is compared.
- Q_FRONT is compared if two profiles let V_STATIC rise at one place, from the same speed to the same higher speed. The
  two profiles can also be of two aspects of one group.
- The most frequent Q_FRONT at this place counts as right. If two values of Q_FRONT are equally frequent there, the
  value that is more frequent in the table counts as right.
- A stretch is not reported if it is not longer than `--tolerance` (default 1 m) and rounding. Stretches that touch
  count as one stretch.
- A stretch that begins beyond a `point` of the track plan is not compared.
- Groups with a refused telegram are not compared.
- If at least four profiles of messages 3 are compared and more than half of them differ, the differing profiles are not
  reported. They are counted as not compared.

Why it matters. At worst the train gets wrong information: it might go too fast, or brake too late on a slope. The train
goes by the profile that it got last, which might be the wrong profile. By a wrong Q_FRONT the train runs faster while
its rear is still on the stretch with the lower speed.

Example. Before (`examples/meaning/mistakes/E13.csv`): from km 13.000 to km 14.700 Signal 3 has a gradient of +18 per
mille, and Signal 2 has -18 per mille. After: Q_GDIR of Signal 3 is corrected, and both have -18 per mille.

When it is a false alarm. {exact} Some projects also let a new speed begin 20 m early on purpose. {track speed} Q_FRONT
might depend on the route or the aspect. A few radio messages might have another speed than the telegrams, such as for
trains in level 2. {leaving} {points} {kilometres} {missing} {one way}

Usual cause. V_STATIC is in km/h, or Q_SCALE or Q_GDIR is wrong. Or a speed or a gradient was changed in one group only.

How to correct it. Correct the wrong profile according to the track plan.

How to accept it. State which of the two profiles is exact, and why the other profile might differ.

How sure. 87 %, by practice and memory of the standard.
"""
from __future__ import annotations

from collections import Counter
from decimal import Decimal
from typing import Dict, Iterator, List, Sequence, Tuple

from balisekit.rules.decoded import Decoded
from balisekit.rules.line import Line
from balisekit.rules.location import NO_TRACK
from balisekit.rules.meaning.differences import Difference, differences_of
from balisekit.rules.meaning.fronts import fronts
from balisekit.rules.meaning.message_profiles import MOST, beside_groups, differing_messages
from balisekit.rules.meaning.profiles import Aspect, Piece, cause_of, lanes_of, pairs, unplaced_of
from balisekit.rules.meaning.sent import field_at
from balisekit.rules.meaning.words import more_stretches, source
from balisekit.rules.rule import Options, Remark, Result, Rule, Urgency
from balisekit.rules.telegrams import GRADIENTS, SPEEDS

ALONE = "the only group of its track"
"""Why profiles are compared with no others."""


def find(line: Line, options: Options) -> Result:
    """Compares the profiles of each group with those of the groups ahead, and those of messages with groups."""
    decoded, looked_at = line.decoded, 0
    found: List[Remark] = []
    others: Counter[str] = Counter()
    for number in (SPEEDS, GRADIENTS):
        differences: List[Difference] = []
        for (track, _), lane in lanes_of(decoded)[number].items():
            if len(decoded.along[track]) == 1 < len(decoded.along):
                others[ALONE if track else NO_TRACK] += len(lane)
                continue
            differences += [each for one in pairs(lane) for each in differences_of(decoded, options, *one, others)]
            looked_at += len(lane)
        messages = beside_groups(decoded, number)
        differing, count = differing_messages(decoded, options, messages, others)
        others.update({**messages.left, MOST: len(messages.pairs) - count})
        looked_at += count
        found += list(_remarks(decoded, [*differences, *differing]))
    found += fronts(decoded, options, others)
    lacks = Counter(unplaced_of(decoded, SPEEDS, GRADIENTS).values())
    return Result.of_places(found, looked_at, lacks, +others)


def _remarks(decoded: Decoded, differences: Sequence[Difference]) -> Iterator[Remark]:
    """One remark for each group that differs: of two groups, for that which differs from more groups."""
    counts: Dict[int, int] = {}
    for each in differences:
        for profiles in (each.rear, each.ahead):
            counts[id(profiles)] = counts.get(id(profiles), 0) + 1
    by_group: Dict[int, List[Tuple[Difference, bool]]] = {}
    for each in differences:
        is_rear = counts[id(each.rear)] >= counts[id(each.ahead)]
        if counts[id(each.rear)] == counts[id(each.ahead)]:
            is_rear = each.rear_looks_wrong
        by_group.setdefault(id(each.rear if is_rear else each.ahead), []).append((each, is_rear))
    for some in by_group.values():
        yield _remark(decoded, some)


def _remark(decoded: Decoded, some: Sequence[Tuple[Difference, bool]]) -> Remark:
    """The remark on a group, by the longest stretch."""
    difference, is_rear = max(some, key=lambda each: each[0].pieces[0].high - each[0].pieces[0].low)
    piece, way, track = difference.pieces[0], difference.rear.way, difference.rear.track
    own, other = _other(piece, not is_rear), _other(piece, is_rear)
    own_value, other_value = own.value_at(piece.low), other.value_at(piece.low)
    groups = (difference.rear, difference.ahead) if is_rear else (difference.ahead, difference.rear)
    name, unit = ("V_STATIC", "km/h") if own.packet.number == SPEEDS else ("G_A", "per mille")
    factor = 5 if own.packet.number == SPEEDS else 1
    more = sum(len(each.pieces) for each, _ in some) - 1
    shown = [f"{value * factor:{'+' if factor == 1 else ''}} {unit}" for value in (own_value, other_value)]
    sentence = (
        f"{name} is {shown[0]} from {decoded.km(track, piece.low * way)} to {decoded.km(track, piece.high * way)}, and "
        f"{shown[1]} by {source(other.passage, other.packet)}{cause_of(*groups, piece, is_rear)}{more_stretches(more)}"
    )
    values = {f"{name.lower()}": Decimal(own_value * factor), f"other_{name.lower()}": Decimal(other_value * factor)}
    alike = [each.packet.row for each in piece.alike(own) if each.packet.row]
    rows = tuple(sorted({row.number for row in alike}))
    aspects = tuple(dict.fromkeys(row.aspect for row in alike if row.aspect not in ("", "*")))
    compared = [side.passage.at(side.packet) for each, rear in some for side in [_other(each.pieces[0], rear)]]
    sides = [[(each.packet, piece.low - each.origin) for each in piece.alike(side)] for side in (own, other)]
    blamed, beside = ([field for at in some for field in field_at(*at)] for some in sides)
    where = own.passage.at(own.packet)
    made = Remark("E13", where, sentence, None, values, (), None, rows, aspects)
    facts = [piece.fact(decoded, track, way) for each, _ in some for piece in each.pieces]
    return made._replace(blamed=blamed, beside=beside, compared=compared, facts=facts)


def _other(piece: Piece, is_rear: bool) -> Aspect:
    """The profile of the other group."""
    return piece.ahead if is_rear else piece.rear


RULE = Rule("E13", "profiles of groups", __doc__ or "", find, Urgency.WRONG_INFORMATION, needs_kilometres=True)

"""E19: gradients of both directions.

What it says. On a stretch the gradients of the two directions do not fit together: they add up to more than 1 ‰, or
both directions go down. What is uphill for one direction is downhill for the other, so both gradients should add up to
0. The rule rests on SUBSET-026, 3.11.12.
- Sum: the rule reports a stretch whose two gradients add up to more than 1 ‰. The stretch must be longer than
  `--tolerance` (default 1 m) and rounding.
- Both directions down: the rule reports a stretch with at least 3 ‰ downhill in both directions for at least 1 km.
- If several groups give gradients for one direction, the gradient that contradicts the other direction least is
  compared. So each of these gradients must contradict the other direction before the rule reports anything.
- If groups of one direction disagree with each other, only rule E13 reports it.
- The rule compares only the longest profile of each group. Groups with a refused telegram are not compared.

Why it matters. At worst the train gets wrong information: it brakes too late, because it believes that it goes uphill.
The braking curve is wrong by twice the gradient. If both directions go down, the urgency is lowest.

Example. Before (`examples/meaning/mistakes/E19.csv`): from km 10.000 to km 10.260 Signal 1 has +3 per mille, and Signal
R1 of the other direction has +3 per mille too. They add up to 6 per mille. After: Signal R1 has -3 per mille.

When it is a false alarm. The rule assumes that each gradient is the gradient of its place. A gradient might also be the
steepest or the mean value of a longer stretch. Safe gradients near a summit or a valley are of this kind, and might go
down in both directions. {leaving} {kilometres} {missing} {one way}

Usual cause. Q_GDIR of one direction is wrong, or the gradient was copied from the other direction.

How to correct it. Compare both directions with the track plan, and correct the direction that is wrong.

How to accept it. State how the gradients of this stretch were made safe, or over which length they are a mean value.

How sure. 87 %, by practice and memory of the standard.
"""
from __future__ import annotations

from collections import Counter
from decimal import Decimal
from typing import Iterator, Optional, Sequence

from balisekit.etcs.geometry import NOMINAL, REVERSE
from balisekit.etcs.variables import metres
from balisekit.rules.decoded import Decoded
from balisekit.rules.facts import sender
from balisekit.rules.line import Line
from balisekit.rules.meaning.both_ways import DOWN, UP, Both, joined, least, may_differ, steps
from balisekit.rules.meaning.profiles import lanes_of, unplaced_of
from balisekit.rules.meaning.words import source
from balisekit.rules.rule import Options, Remark, Result, Rule, Urgency
from balisekit.rules.telegrams import GRADIENTS, allowance

LONG = 10_000
"""In decimetres: from which length on stretches count on which both ways go down."""


def find(line: Line, options: Options) -> Result:
    """Compares the gradients of both ways."""
    decoded, found, looked_at = line.decoded, [], 0
    lanes = lanes_of(decoded)[GRADIENTS]
    for track in {track for track, _ in lanes}:
        both = [lanes.get((track, way), ()) for way in (1, -1)]
        looked_at += min(map(len, both))
        if all(both) and may_differ(*both):
            own = [[step for each in some for step in steps(each.longest, way)] for some, way in zip(both, (1, -1))]
            found += list(_uphill(decoded, options, least(own[0], own[1], True)))
            found += list(_downhill(decoded, least(own[0], own[1], False)))
    return Result.of_places(found, looked_at, _unplaced(decoded))


def _unplaced(decoded: Decoded) -> Counter[str]:
    """How many groups have gradients for both directions, and none of them at a known place."""
    why = unplaced_of(decoded, GRADIENTS)
    return Counter(
        each for (number, data, way), each in why.items() if way == NOMINAL and (number, data, REVERSE) in why
    )


def _uphill(decoded: Decoded, options: Options, stretches: Iterator[Both]) -> Iterator[Remark]:
    for both, until, all_of_them in joined([each for each in stretches if sum(each.values) > UP]):
        packets = [step.aspect.packet for step in (both.rising, both.falling)]
        parts = (allowance(packet, len(packet.stretches)) for packet in packets)
        if until - both.low > decoded.tolerance(options.tolerance_of_places, *parts):
            more = f", and to more than {UP} per mille up to {_km(decoded, both, until)}" if until > both.high else ""
            yield _remark(decoded, both, all_of_them, f"they add up to {sum(both.values)} per mille{more}")


def _downhill(decoded: Decoded, stretches: Iterator[Both]) -> Iterator[Remark]:
    for both, until, all_of_them in joined([each for each in stretches if max(each.values) <= DOWN]):
        if until - both.low >= LONG:
            more = f"up to {_km(decoded, both, until)} " if until > both.high else ""
            yield _remark(decoded, both, all_of_them, f"{more}both go down", Urgency.RULE_ONLY)


def _km(decoded: Decoded, both: Both, place: int) -> str:
    return decoded.km(both.rising.aspect.passage.track, place)


def _fact(decoded: Decoded, both: Both) -> str:
    """A stretch with the gradients of both ways, and who says them."""
    own, other = (sender(each.passage, each.packet) for each in (both.rising.aspect, both.falling.aspect))
    return f"{_km(decoded, both, both.low)} {_km(decoded, both, both.high)} {both.values} {own} {other}"


def _remark(
    decoded: Decoded, both: Both, all_of_them: Sequence[Both], why: str, urgency: Optional[Urgency] = None
) -> Remark:
    own, other = both.rising.aspect, both.falling.aspect
    sentence = (
        f"G_A is {both.values[0]:+} per mille from {_km(decoded, both, both.low)} to {_km(decoded, both, both.high)} "
        f"({metres(both.high - both.low)}), and {both.values[1]:+} per mille for the other direction by "
        f"{source(other.passage, other.packet)}: {why}"
    )
    values = {"g_a": Decimal(both.values[0]), "other_g_a": Decimal(both.values[1])}
    compared, facts = [other.passage.at(other.packet)], [_fact(decoded, each) for each in all_of_them]
    where = own.passage.at(own.packet)
    return Remark("E19", where, sentence, None, values, urgency=urgency, compared=compared, facts=facts)


RULE = Rule("E19", "gradients of both ways", __doc__ or "", find, Urgency.WRONG_INFORMATION, needs_kilometres=True)

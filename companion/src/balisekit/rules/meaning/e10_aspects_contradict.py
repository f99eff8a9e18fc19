"""E10: aspects that contradict each other about the track.

What it says. Two aspects of a group state different V_STATIC, or gradients more than 5 ‰ apart, for the same stretch of
the track. The rule compares the speed profiles (packets 27) and the gradient profiles (packets 21) of each two aspects
in the same direction. It rests on SUBSET-026, 3.11.
- Two aspects with packets 5 are compared as far as both name the same groups in the same order, up to the last of these
  groups. This group can be beyond an end of authority.
- Two aspects without packets 5 are compared if both authorities end at the same place. They are compared up to this
  place.
- Two aspects are not compared if only one of them has a packet 5.
- A rise is a positive gradient, and a fall is a negative one. So +2 ‰ and -2 ‰ are 4 ‰ apart, and are not reported.
- A remark names the aspect that differs from the greatest number of other aspects, and the longest stretch on which it
  differs. If several aspects differ from equally many others, their order decides. Speeds and gradients get separate
  remarks.
- Aspects with a refused telegram are not compared.
- A stretch that begins beyond a `point` of the track plan is not reported.
- A stretch is not reported if it is not longer than `--tolerance` (default 1 m) and the rounding of distances.
  Stretches that touch count as one stretch.
- Rounding and the default of 1 m do not count if both profiles are rounded alike. They are rounded alike if they have
  the same Q_SCALE, and the same values in the same order up to the end of the stretch. Then only a stated `--tolerance`
  counts.

Why it matters. At worst the train gets wrong information. At one of the aspects it gets a speed that is too great, or a
gradient that is too favourable.

Example. Before (`examples/meaning/mistakes/E10.csv`): from km 13.000 to km 14.700 "yellow" of Signal 3 has V_STATIC 160
km/h, and "green" has 140 km/h. After: both have 140 km/h there.

When it is a false alarm. The rule assumes that aspects which name the same groups belong to one route. That is not so
if their routes part before the last of these groups. Two routes without packets 5 might also end at the same distance
by chance. {exact} {track speed} The profile of a stop aspect can differ too, because no train uses it.

Usual cause. The profile of one aspect was not generated again. Or the profile has a wrong sign, scale or unit.

How to correct it. Correct the wrong profile according to the track plan.

How to accept it. Name the routes of the two aspects, or state what the V_STATIC of one aspect includes.

How sure. 87 %, by practice and memory of the standard.
"""
from __future__ import annotations

from collections import Counter
from decimal import Decimal
from itertools import chain, product
from typing import Dict, Iterable, Iterator, List, Mapping, NamedTuple, Sequence, Tuple

from balisekit.etcs.variables import metres
from balisekit.rules.decoded import Decoded, tolerance_of_lengths
from balisekit.rules.line import Line
from balisekit.rules.meaning.along import leaves
from balisekit.rules.meaning.sent import are_contrary, by_culprit, contrary, distance, field_at, tolerance
from balisekit.rules.meaning.siblings import are_rounded_alike, common_reach, with_common_reach
from balisekit.rules.meaning.words import between, more_stretches, profile_value
from balisekit.rules.passages import Passage
from balisekit.rules.rule import Options, Remark, Result, Rule, Urgency
from balisekit.rules.telegrams import GRADIENTS, LINKING, SPEEDS, Packet
from balisekit.rules.touching import longer
from balisekit.tables.names import listed, quoted, rows_words

APART = {SPEEDS: 0, GRADIENTS: 5}
"""By how much values may differ: gradients in per mille."""
NAMED, REFUSED, BEHIND_POINT = 5, "refused", "stretches beyond a point of the plan that differ"
"""How many aspects are named, and why some are not compared."""


class Contrary(NamedTuple):
    """A stretch of which two aspects say different things, from one distance to another one."""

    packets: Tuple[Packet, Packet]
    begin: int
    end: int
    values: Tuple[int, int]

    @property
    def turned(self) -> Contrary:
        """The same with the other aspect first."""
        return self._replace(packets=self.packets[::-1], values=self.values[::-1])


Pairs = Dict[Tuple[str, str], List[Contrary]]


def find(line: Line, options: Options) -> Result:
    """Compares the aspects of each group in each direction."""
    found: List[Remark] = []
    count = 0
    left: Counter[str] = Counter()
    for data in line.decoded.controlled:
        by_direction: Dict[str, List[Passage]] = {}
        for passage in data.passages:
            if passage.of(GRADIENTS, SPEEDS):
                by_direction.setdefault(passage.direction, []).append(passage)
        several = [some for some in by_direction.values() if len(some) > 1]
        count += bool(several)
        found += [remark for some in several for remark in _of_group(line, options, some, left)]
        left[REFUSED] += bool(data.group.unread)
    return Result(found, count, +left, is_optional=True)


def _of_group(line: Line, options: Options, some: Sequence[Passage], left: Counter[str]) -> Iterator[Remark]:
    said = {number: [passage.of(number) for passage in some] for number in (SPEEDS, GRADIENTS)}
    differing = {number: own for number, own in said.items() if are_contrary(chain(*own), APART[number])}
    linked = [(passage, passage.of(LINKING)) for passage in some]
    near = with_common_reach(line, options, linked) if differing else ()
    common = [(*each, common_reach(line, options, *(linked[place] for place in each))) for each in near]
    for own in differing.values():
        pairs: Pairs = {}
        for one, other, reach in common:
            found = _compared(line, options, some[one], product(own[one], own[other]), reach, left) if reach else None
            if found:
                pairs[some[one].aspect, some[other].aspect] = found
        for culprit, others in by_culprit(list(pairs)):
            yield _remark(line.decoded, some[0], pairs, culprit, others)


def _compared(
    line: Line, options: Options, one: Passage, pairs: Iterable[Tuple[Packet, Packet]], reach: int, left: Counter[str]
) -> List[Contrary]:
    """The stretches before a point of the track plan of which both packets of a pair say different things."""
    found, stated = [], tolerance_of_lengths(options.tolerance)
    for packets in pairs:
        if packets[0] is packets[1]:
            continue  # of a fixed balise
        differing = list(contrary(packets[0].stretches, packets[1].stretches, reach, APART[packets[0].number]))
        least = tolerance(options, *((each, len(each.stretches)) for each in packets)) if differing else 0
        allowed = {end: stated if are_rounded_alike(*packets, end) else least for _, end, *_ in differing}
        for begin, end, *values in chain(*longer(differing, lambda each: each[:2], lambda each: allowed[each[1]])):
            place = one.place(begin + least)
            is_behind = place is not None and leaves(options, line.decoded, one, place)
            left[BEHIND_POINT] += is_behind
            found += [] if is_behind else [Contrary(packets, begin, end, (values[0], values[1]))]
    return found


def _remark(decoded: Decoded, one: Passage, pairs: Pairs, culprit: str, others: Sequence[str]) -> Remark:
    """The aspect that differs, with the longest stretch on which it does."""
    own = {name: pairs.get((culprit, name)) or [each.turned for each in pairs[name, culprit]] for name in others}
    longest = {name: max(some, key=lambda each: each.end - each.begin) for name, some in own.items()}
    other = max(others, key=lambda name: longest[name].end - longest[name].begin)
    packets, begin, end, sent = longest[other]
    said = [
        f"{quoted(name)}{f', {rows_words([each.row.number])},' if each.row else ''} has {profile_value(each, value)}"
        for name, each, value in zip((culprit, other), packets, sent)
    ]
    rest = [quoted(name) for name in others if name != other]
    sentence = (
        f"from {metres(begin)} to {metres(end)} from the group{between(decoded, one, begin, end)}, {said[0]}, and "
        f"{said[1]}{more_stretches(len(own[other]) - 1)}"
        + (f"; {quoted(culprit)} differs from {listed(rest, NAMED)} too" if rest else "")
    )
    step = 5 if packets[0].number == SPEEDS else 1
    both = {f"value_{place}": Decimal(value * step) for place, value in enumerate(sent, 1)}
    values = {"begin_m": distance(begin), "end_m": distance(end), **both}
    compared = dict.fromkeys(one.at(packet) for some in own.values() for each in some for packet in each.packets)
    rows = sorted({where.row.number for where in compared if where.row})
    blamed, beside = (
        [each for some in longest.values() for each in field_at(some.packets[side], some.begin)] for side in (0, 1)
    )
    made = Remark("E10", one.at(), sentence, None, values, (), None, rows, [culprit, *others])
    return made._replace(blamed=blamed, beside=beside, compared=list(compared), facts=_facts(own))


def _facts(own: Mapping[str, Sequence[Contrary]]) -> Sequence[str]:
    """All stretches with the values of both aspects."""
    return [f"{name} {each.begin} {each.end} {each.values}" for name, some in own.items() for each in some]


RULE = Rule("E10", "groups with several aspects", __doc__ or "", find, Urgency.WRONG_INFORMATION)

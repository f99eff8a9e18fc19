"""E8: aspect that lacks what its siblings have.

What it says. One aspect of a group lacks a packet that its other aspects, or other stop aspects of the table, have. The
rule rests on SUBSET-026, 3.8, and reports these cases:
- Of three or more proceed aspects of a group, only one has no packet 5, 12, 21 or 27 for a direction. A proceed aspect
  has a V_MAIN above 0 in that direction. If the missing packet is the packet 12, a V_MAIN above 0 in either direction
  is enough.
- An aspect has a packet 5, 12, 21 or 27 only for the wrong direction. It is the only aspect with this packet for that
  direction, and at least two others have it for the other direction.
- Of the proceed aspects of a group, only one lacks a track condition that at least two other aspects have. Its
  authority must reach at least the end of the authority of one of these other aspects. Up to there the packets 5 of
  both aspects must name the same groups. Without packets 5 both authorities must end at the same place. Track
  conditions are the packets 39, 40, 51, 65, 67 to 71, 88, 138 and 139.
- A stop aspect has no packet 137, and at least four of five stop aspects of the table have one with "stop". The table
  must have at least five stop aspects for this. A stop aspect has a packet 12 with V_MAIN 0 that does not follow a
  packet 136.
- Of three or more stop aspects of a group in one direction, only one has no packet 132. The table must have a stop
  aspect of the same name with a packet 132.
- A group without aspects has a packet 12 with V_MAIN above 0, so that it always lets trains proceed. It must be the
  only such group of the table, and at least five signals must have an aspect that does not let trains proceed. The
  first group of a track is not reported, nor one with a packet 41 (level transition order). If no signal with several
  aspects has an aspect that stops trains, a note says so.
- Except for packet 137 and groups without aspects, only groups with three or more aspects are compared.
- Aspects with a refused telegram do not count. Their group is compared only for packet 137.

Why it matters. At worst the train gets wrong information, or lacks information that it needs. Without profiles the
train might refuse the authority. Without linking nothing shows the train that it missed a group. Without packet 137 a
train in staff responsible mode passes the signal.

Example. Before (`examples/meaning/mistakes/E8.csv`): "green" of Signal 3 (km 13.003) has its packets 12, 21 and 27 for
the reverse direction. "Red" and "yellow" have these packets for the nominal direction. After: Q_DIR of the packets of
"green" is 1, nominal.

When it is a false alarm. The rule assumes that the aspects of a group need the same packets for one direction. An
aspect for calling-on or for another route might need fewer packets. An aspect that only stops trains in the other
direction might also need fewer packets. A track condition might be announced at one aspect only on purpose, if the next
signal sends it in time. The rule also assumes that all stop aspects of the table, in both directions, stop trains in
staff responsible mode too. At some signals these trains are allowed to pass. It assumes that stop aspects of one name
treat shunting alike. That is not so if shunting is allowed at some of these signals. Finally, it assumes that a group
with an authority is a signal that can stop trains. A marker or a distant signal might only let them proceed.

Usual cause. A packet was lost, or its Q_DIR is wrong. Or the aspect was added later and is not complete.

How to correct it. Add the packet, or correct Q_DIR.

How to accept it. State what the aspect is for, for example calling-on, and why the aspect does not need the packet.

How sure. 87 %, by practice and memory of the standard.
"""
from __future__ import annotations

from decimal import Decimal
from typing import Dict, Iterator, List, Sequence, Set, Tuple

from balisekit.etcs.packets import packet_name
from balisekit.rules.facts import counted, sender
from balisekit.rules.line import Line
from balisekit.rules.location import Location
from balisekit.rules.meaning.lacking_conditions import lacking_conditions
from balisekit.rules.meaning.siblings import SIBLINGS, Moving, Said, lacking_in, said_of, turned_in
from balisekit.rules.meaning.signals_without_stop import signals_without_stop
from balisekit.rules.meaning.stops import packet_of_stop, stopping, stops_of, stops_without_order
from balisekit.rules.passages import GroupData, Passage
from balisekit.rules.rule import REFUSED, Options, Remark, Result, Rule, Urgency
from balisekit.tables.names import listed, quoted

DANGER_FOR_SH, NAMED = 132, 5
"""NID_PACKET of danger for shunting, and how many aspects are named."""


def find(line: Line, options: Options) -> Result:
    """Looks at the aspects of each group, then at the stop aspects of the table."""
    several = [data for data in line.decoded.controlled if len(data.group.group.aspects) >= SIBLINGS]
    groups = [data for data in several if not data.group.unread]
    unread = len(several) - len(groups)
    found = [remark for data in groups for remark in (*_siblings(data), *_conditions(line, options, data))]
    stops, (stopless, notes) = stopping(line.decoded), signals_without_stop(line.decoded)
    return Result(
        [*found, *_without_stop(line), *_without_danger(stops), *stopless],
        len(groups),
        {REFUSED: unread} if unread else {},
        notes,
        is_optional=True,
    )


def _siblings(data: GroupData) -> Iterator[Remark]:
    """The aspect that has packets for the other direction, or that lacks packets."""
    said, go = said_of(data)
    turned = turned_in(said)
    for aspect, numbers in turned.items():
        words = f"has {_packets(numbers)} only for the other direction than all other aspects with them"
        yield _remark(data, aspect, words, numbers, _facts(said, go))
    some = {aspect: own for aspect, own in said.items() if aspect not in turned}
    for (aspect, direction, among), numbers in lacking_in(some, go).items():
        others = f"which all others with a V_MAIN above 0{among} have"
        words = f"lacks {_packets(numbers)} in {direction} direction, {others}"
        yield _remark(data, aspect, words, numbers, _facts(some, go))


def _conditions(line: Line, options: Options, data: GroupData) -> Iterator[Remark]:
    """The aspect that lacks track conditions."""
    for passage, numbers, count in lacking_conditions(line, options, data):
        words = f"lacks {_packets(numbers)} in {passage.direction} direction, which {count} other aspects have"
        facts = [f"{each.aspect} {[packet.number for packet in each.said]}" for each in data.passages]
        yield _remark(data, passage.aspect, words, numbers, facts)


def _facts(said: Said, moving: Moving) -> Sequence[str]:
    """Which packets each aspect has in each direction, and in which of them it has a V_MAIN above 0."""
    return [
        f"{aspect} {[sorted(numbers) for numbers in own]} {[aspect in some for some in moving]}"
        for aspect, own in said.items()
    ]


def _remark(data: GroupData, aspect: str, words: str, numbers: Sequence[int], facts: Sequence[str]) -> Remark:
    rows = next(each.rows for each in data.group.group.aspects if each.name == aspect)
    controlled = tuple(row.number for row in rows if row.aspect == aspect)
    sentence = f"the aspect {quoted(aspect)} {words}"
    values = {"packets": Decimal(len(numbers))}
    where = Location(data.group)
    return Remark("E8", where, sentence, values=values, rows=controlled, aspects=[aspect], facts=facts)


def _packets(numbers: Sequence[int]) -> str:
    names = [f"{number} ({packet_name(number)})" for number in numbers]
    return f"packet{'' if len(names) == 1 else 's'} {', '.join(names)}"


def _without_stop(line: Line) -> Iterator[Remark]:
    """Stop aspects without a packet 137, if four of five have it with "stop". Its layout is balisekit's own."""
    stops = stops_without_order(line.decoded)
    facts = [counted(map(sender, stops.having))]
    for passage in stops.lacking:
        words = (
            'a stop aspect, V_MAIN 0 km/h, without a packet 137 (stop if in staff responsible) with "stop": '
            f"{len(stops.having)} of {stops.stops} stop aspects of the table have it"
        )
        values = {"stop_aspects": Decimal(stops.stops), "with_packet_137": Decimal(len(stops.having))}
        yield Remark("E8", passage.at(stops_of(passage)[0]), words, values=values, facts=facts)


def _without_danger(stops: Sequence[Passage]) -> Iterator[Remark]:
    """The one stop aspect of a group without a packet 132, if two or more have it, and its name has it elsewhere."""
    names = {each.aspect for each in stops if each.of(DANGER_FOR_SH)}
    by_group: Dict[Tuple[int, str], List[Passage]] = {}
    known: Set[Tuple[int, str, int]] = set()
    for each in stops:
        if each.group and not each.group.group.unread:
            by_group.setdefault((id(each.group), each.direction), []).append(each)
    for own in by_group.values():
        without = [each for each in own if not each.of(DANGER_FOR_SH)]
        is_odd = len(own) >= SIBLINGS and len(without) == 1 and without[0].aspect in names
        if is_odd and packet_of_stop(without[0]) not in known:
            known.add(packet_of_stop(without[0]))
            others = listed([quoted(each.aspect) for each in own if each is not without[0]], NAMED)
            words = f"a stop aspect without a packet 132 (danger for shunting information), which {others} have"
            where, values = without[0].at(stops_of(without[0])[0]), {"stop_aspects": Decimal(len(own))}
            yield Remark("E8", where, words, values=values, facts=list(map(sender, own)))


RULE = Rule("E8", "groups with three or more aspects", __doc__ or "", find, Urgency.WRONG_INFORMATION)

"""Aspects of one group: which packets they have (E8), and how far they go together (E10)."""
from __future__ import annotations

from typing import Dict, FrozenSet, Iterator, List, Sequence, Set, Tuple

from balisekit.etcs.geometry import DIRECTIONS
from balisekit.rules.line import Line
from balisekit.rules.location import NOT_KNOWN, Identity
from balisekit.rules.meaning.sent import tolerance
from balisekit.rules.passages import GroupData, Passage
from balisekit.rules.rule import Options
from balisekit.rules.telegrams import GRADIENTS, LINKING, SPEEDS, Packet, allowance

AUTHORITY = 12
NUMBERS = frozenset({LINKING, AUTHORITY, GRADIENTS, SPEEDS})
SIBLINGS = 3
"""The fewest aspects of a group that are compared."""
Said = Dict[str, Tuple[FrozenSet[int], ...]]
"""By aspect: which of NUMBERS it has in each of the DIRECTIONS."""
Linked = Tuple[Passage, Sequence[Packet]]
"""A passage with its packets 5."""
Moving = Sequence[Set[str]]
"""By direction: the aspects that have a V_MAIN above 0."""


def said_of(data: GroupData) -> Tuple[Said, Moving]:
    """The packets of each aspect of a group, and the aspects with a V_MAIN above 0."""
    said: Said = {aspect.name: (frozenset(), frozenset()) for aspect in data.group.group.aspects}
    moving: Moving = (set(), set())
    for passage in data.passages:
        index = DIRECTIONS.index(passage.direction)
        own = NUMBERS.intersection([packet.number for packet in passage.said])
        said[passage.aspect] = (own, said[passage.aspect][1]) if index == 0 else (said[passage.aspect][0], own)
        if any(packet.form["v_main"] for packet in passage.of(AUTHORITY)):
            moving[index].add(passage.aspect)
    return said, moving


def turned_in(said: Said) -> Dict[str, List[int]]:
    """The aspects with packets only for one direction that all others, two at least, have only for the other one."""
    found: Dict[str, List[int]] = {}
    for number in sorted(NUMBERS):
        ways = ([aspect for aspect, own in said.items() if number in own[index]] for index in (0, 1))
        few, many = sorted(ways, key=len)
        if len(few) == 1 and len(many) >= SIBLINGS - 1 and few[0] not in many:
            found.setdefault(few[0], []).append(number)
    return {aspect: found[aspect] for aspect in said if aspect in found}


def lacking_in(said: Said, moving: Moving) -> Dict[Tuple[str, str, str], List[int]]:
    """The packets that exactly one of three or more aspects lacks in a direction, and among which aspects, in words.

    These have a V_MAIN above 0 in that direction. A packet 12 may lack there: in either direction then.
    """
    found: Dict[Tuple[str, str, str], List[int]] = {}
    either = moving[0] | moving[1]
    for index, direction in enumerate(DIRECTIONS):
        for number in sorted(NUMBERS):
            among = said.keys() & (either if number == AUTHORITY else moving[index])
            without = [aspect for aspect in among if number not in said[aspect][index]]
            if len(without) == 1 and len(among) >= SIBLINGS:
                words = "" if number == AUTHORITY or moving[index] == either else " in it"
                found.setdefault((without[0], direction, words), []).append(number)
    return found


def with_common_reach(line: Line, options: Options, some: Sequence[Linked]) -> Iterator[Tuple[int, int]]:
    """The places of each two passages of a group that may have a common reach, in the order of `combinations`.

    Their packets 5 name one group first, or without packets 5 their authorities end near each other: a group with very
    many aspects has few such pairs.
    """
    ahead: Dict[int, List[int]] = {}
    named: Dict[Identity, List[int]] = {}
    ends: List[Tuple[int, int, int]] = []
    for place, (passage, linking) in enumerate(some):
        first = next(passage.links, None) if linking else None
        if first:
            named.setdefault(first.identity, []).append(place)
        elif passage.authorities:
            last = max(passage.authorities, key=lambda packet: packet.end)
            ends.append((last.end, place, allowance(last, last.lengths)))
    for own in named.values():
        ahead.update((place, own[index + 1 :]) for index, place in enumerate(own))
    for one, other in _near(sorted(ends), tolerance(options)):
        ahead.setdefault(min(one, other), []).append(max(one, other))
    return ((place, other) for place in sorted(ahead) for other in sorted(ahead[place]))


def _near(ends: Sequence[Tuple[int, int, int]], least: int) -> Iterator[Tuple[int, int]]:
    """The places of each two ends that may be equal. They are in their order, each with what rounding may add to it."""
    greatest = max((allowed for _, _, allowed in ends), default=0)
    for index, (end, place, allowed) in enumerate(ends):
        after = index + 1
        while after < len(ends) and ends[after][0] - end <= least + allowed + greatest:
            yield place, ends[after][1]
            after += 1


def common_reach(line: Line, options: Options, one: Linked, other: Linked) -> int:
    """How far the packets 5 of both name the same groups, or both authorities go if no packet 5 is there."""
    (here, mine), (there, its) = one, other
    if mine and [packet.form for packet in mine] == [packet.form for packet in its]:
        known = ([link for link in each.form["links"] if link["nid_bg"] != NOT_KNOWN] for each in mine)
        return max([sum([link["d_link"] for link in links]) * each.unit for links, each in zip(known, mine)])
    if mine or its:
        reach = 0
        for own, theirs in zip(here.links, there.links):
            if own.identity != theirs.identity or not own.known:
                break
            reach = min(own.total, theirs.total)
        return reach
    if not (here.authorities and there.authorities):
        return 0
    ends = [max(each.authorities, key=lambda packet: packet.end) for each in (here, there)]
    first, second = (packet.end for packet in ends)
    is_same = abs(first - second) <= tolerance(options, *((packet, packet.lengths) for packet in ends))
    return min(first, second) if is_same else 0


def are_rounded_alike(one: Packet, other: Packet, end: int) -> bool:
    """Whether two profiles have one unit, and up to a distance the same values in the same order."""
    own, its = ([each.value for each in packet.stretches if each.begin <= end] for packet in (one, other))
    return one.unit == other.unit and own == its

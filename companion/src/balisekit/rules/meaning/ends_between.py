"""Authorities that end between groups, although those of most other signals end at one. For E12."""
from __future__ import annotations

from collections import Counter
from decimal import Decimal
from typing import Dict, Iterator, List, Mapping, NamedTuple, Sequence, Tuple

from balisekit.etcs.variables import metres
from balisekit.rules.decoded import Decoded
from balisekit.rules.facts import counted, group_words, sender
from balisekit.rules.location import BaliseGroup
from balisekit.rules.meaning.along import NEAR, End, Lane, ends_of, extents_of
from balisekit.rules.meaning.words import at_place
from balisekit.rules.rule import Options, Remark
from balisekit.rules.telegrams import allowance

NOWHERE = (1, 0)
APART, LEAST = 2000, 4
"""In decimetres how far from each group such an end is at least, and how many others for each of them are at one."""
BETWEEN = "ends between groups, of more than one in five senders or beside fewer than four"
NOT_BEYOND = "ends between groups, without a packet 5 that names a group beyond"
"""Why authorities are not compared."""
Key = Tuple[int, str]


class Between(NamedTuple):
    """What is found, by the packet and its direction, and how many such ends are passed over, and why."""

    found: Dict[Key, Remark]
    left: Counter[str]


def ends_between(decoded: Decoded, options: Options, ends: Sequence[End]) -> Between:
    """Looks at ends that are at no group and within the line. One that nobody contradicts is passed over."""
    found: Dict[Key, Remark] = {}
    by_number: Dict[int, List[End]] = {}
    left: Counter[str] = Counter()
    for end in ends:
        if _is_away(decoded, end):
            if _leads_beyond(end):
                by_number.setdefault(end.packet.number, []).append(end)
            else:
                left[NOT_BEYOND] += 1
    for number, some in by_number.items():
        away = {_sender(end) for end in some}
        others = _at_groups(decoded, options, number)
        usual = {_sender(end) for end in others} - away
        if len(usual) >= LEAST * len(away):
            fact = counted(sender(each.passage, each.packet) for each in others if _sender(each) in usual)
            found.update((end.key, _remark(decoded, end, len(usual), fact)) for end in some)
        else:
            left[BETWEEN] += len(some)
    return Between(found, left)


def _sender(end: End) -> int:
    """The group or message of an authority."""
    return id(end.passage.message or end.passage.group)


def _nearest(decoded: Decoded, end: End) -> Tuple[BaliseGroup, int]:
    """The group of the track that is nearest to an end, and how far it is from there."""
    data = decoded.nearest(end.passage.track, end.place)
    assert data is not None and data.place is not None  # (the group of its sender is one)
    return data.group, abs(data.place - end.place)


def _is_away(decoded: Decoded, end: End) -> bool:
    """Whether an authority ends away from groups. One with a limit of authority may end anywhere."""
    return _nearest(decoded, end)[1] > APART and not end.packet.form["end_speed"]


def _leads_beyond(end: End) -> bool:
    """Whether packets 5 name a group of the track beyond an end."""
    targets = (link.target for link in end.passage.links if link.total > end.distance)
    return any(each is not None and each.track == end.passage.track for each in targets)


def _at_groups(decoded: Decoded, options: Options, number: int) -> Sequence[End]:
    """The authorities by packets of a number that end at a group."""
    found: List[End] = []
    for end in ends_of(decoded):
        if end.packet.number == number:
            allowed = decoded.tolerance(options.tolerance_of_places, allowance(end.packet, end.packet.lengths))
            found += [end] if _nearest(decoded, end)[1] <= NEAR + allowed else []
    return found


def _remark(decoded: Decoded, end: End, count: int, fact: str) -> Remark:
    """A remark on an end that is away from groups."""
    group, apart = _nearest(decoded, end)
    sentence = (
        f"the authority ends at {at_place(decoded, end.passage, end.place)} by L_SECTION and L_ENDSECTION, between "
        f"groups: the nearest one by the kilometres, {group}, is {metres(apart)} from there, and those of {count} "
        "others end at groups"
    )
    values = {"end_m": Decimal(end.place) / 10, "nearest_group_m": Decimal(group.place or 0) / 10}
    return Remark("E12", end.passage.at(end.packet), sentence, group, values, facts=[group_words(group), fact])


def inside_the_line(decoded: Decoded, ends: Sequence[Tuple[Lane, End]]) -> Tuple[Sequence[End], Mapping[Key, int]]:
    """The ends between the first and the last group that gives an authority for their track and way.

    Of the ends beyond the last one it gives how far beyond it they are.
    """
    extents = extents_of(decoded) if ends else {}
    inside: List[End] = []
    apart: Dict[Key, int] = {}
    for lane, end in ends:
        low, high = extents.get(lane, NOWHERE)
        if low <= end.place <= high:
            inside.append(end)
        elif lane in extents:
            apart[end.key] = (end.place - high) if lane[1] == 1 else (low - end.place)
    return inside, {key: each for key, each in apart.items() if each > 0}


def near_a_group(decoded: Decoded, options: Options, end: End) -> Iterator[Remark]:
    """An end of a packet 12 that is near a group, and not at it."""
    group = decoded.nearest(end.passage.track, end.place)
    if end.packet.number != 12 or group is None or group.place is None:
        return
    apart = abs(group.place - end.place)
    tolerance = decoded.tolerance(options.tolerance_of_places, allowance(end.packet, end.packet.lengths))
    if NEAR + tolerance < apart <= APART:
        sentence = (
            f"the authority ends at {at_place(decoded, end.passage, end.place)} by L_SECTION and L_ENDSECTION: the "
            f"nearest group by the kilometres, {group.group}, is {metres(apart)} from there"
        )
        values = {"end_m": Decimal(end.place) / 10, "nearest_group_m": Decimal(group.place) / 10}
        facts = [group_words(group.group)]
        yield Remark("E12", end.passage.at(end.packet), sentence, group.group, values, facts=facts)

"""Profiles of radio messages beside those of the groups of their track. For E13."""
from __future__ import annotations

from bisect import bisect_left
from collections import Counter
from typing import Iterator, List, NamedTuple, Sequence, Tuple

from balisekit.rules.decoded import Decoded
from balisekit.rules.meaning.along import lane_of
from balisekit.rules.meaning.differences import Difference, differences_of
from balisekit.rules.meaning.profiles import Profiles, lanes_of
from balisekit.rules.rule import Options

Pair = Tuple[Profiles, Profiles, int]
"""The profiles in rear, those ahead, and from where on they are compared."""
MANY = 4
"""The fewest messages that show whether messages have profiles of their own."""
MOST = "of a message, of which most differ from the groups"
LONELY = "of a message, beside no profile of a group"
"""Why a profile is not compared."""


class Beside(NamedTuple):
    """The profiles of messages, each with what it is compared with."""

    pairs: Sequence[Sequence[Pair]]
    """Of each profile that has something beside it."""
    left: "Counter[str]"
    """How many others there are, by the reason."""


def beside_groups(decoded: Decoded, number: int) -> Beside:
    """The profiles of messages with this NID_PACKET, and the groups that describe their stretch of the track."""
    found: List[Sequence[Pair]] = []
    left: Counter[str] = Counter()
    lanes = lanes_of(decoded)[number]
    made = {key: _Lane.of(lane) for key, lane in lanes.items()} if decoded.messages else {}
    for passage in decoded.messages:
        for packet in passage.of(number):
            if passage.lacks or passage.group is None:
                left[passage.lacks] += 1
                continue
            own = Profiles(passage.group, passage.way or 0, [(passage, packet)], False)
            some = list(_pairs(made.get(lane_of(passage), _Lane.of(())), own))
            found += [some] if some else []
            left[LONELY] += not some
    return Beside(found, +left)


class _Lane(NamedTuple):
    """The profiles of the groups of a track and way, in the order of passing."""

    profiles: Sequence[Profiles]
    begins: Sequence[int]
    longest: int
    """How far the longest one reaches."""

    @classmethod
    def of(cls, lane: Sequence[Profiles]) -> _Lane:
        """The lane with what is asked of it often."""
        return cls(lane, [each.begin for each in lane], max((each.reach - each.begin for each in lane), default=0))


def _pairs(lane: _Lane, own: Profiles) -> Iterator[Pair]:
    """A message with the group from which it counts, or one in rear of it, and with the next ones ahead."""
    index = bisect_left(lane.begins, own.begin)
    covered = own.begin
    if index == len(lane.begins) or lane.begins[index] != own.begin:
        first = bisect_left(lane.begins, own.begin - lane.longest)
        rear = next((each for each in lane.profiles[first:index][::-1] if each.reach > own.begin), None)
        if rear is not None:
            yield rear, own, own.begin
            covered = rear.reach
    for ahead in lane.profiles[index : bisect_left(lane.begins, own.reach)]:
        if covered >= own.reach:
            break
        if ahead.reach > covered:
            yield own, ahead, covered
            covered = ahead.reach


def differing_messages(
    decoded: Decoded, options: Options, messages: Beside, left: "Counter[str]"
) -> Tuple[Sequence[Difference], int]:
    """Where messages differ from groups, and how many are compared: none if most of four or more differ.

    Then another speed for trains that are led by radio is a choice of the project. It counts what is left out.
    """
    found = [[each for one in own for each in differences_of(decoded, options, *one, left)] for own in messages.pairs]
    differing = [own for own in found if own]
    if len(found) >= MANY and 2 * len(differing) > len(found):
        return [], len(found) - len(differing)
    return [each for own in differing for each in own], len(found)

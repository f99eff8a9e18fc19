"""Temporary restrictions for both running directions of a track, and those without a number. For E22."""
from __future__ import annotations

from typing import Dict, Iterator, List, NamedTuple, Sequence, Set, Tuple

from balisekit.etcs.variables import metres
from balisekit.rules.decoded import Decoded, tolerance_of_lengths
from balisekit.rules.meaning.along import parts
from balisekit.rules.meaning.restrictions import OFTEN, Restriction, is_rest, most_frequent, restrictions_of
from balisekit.rules.meaning.revocations import NOT_REVOCABLE
from balisekit.rules.meaning.words import source
from balisekit.rules.rule import Options, Remark

NEAR = 2000
"""In decimetres: how near two restrictions without a number begin that look like one."""
OPPOSITE = "restrictions whose NID_TSR trains of both directions have at different places, of more than one in five"
"""Why restrictions are not compared."""


class Pair(NamedTuple):
    """What trains of one direction get of a restriction, and what those of the other direction get."""

    one: Restriction
    other: Restriction

    def agree(self, decoded: Decoded, options: Options) -> bool:
        """Whether both restrict the same stretch to the same speed."""
        units = [each.packet.unit for each in self]
        lengths = tolerance_of_lengths(options.tolerance_of_places, *units)
        tolerance = decoded.tolerance(options.tolerance_of_places, *units) + lengths
        ends = zip(*map(_stretch, self))
        return self.one.speed == self.other.speed and all(abs(own - its) <= tolerance for own, its in ends)

    @property
    def is_overlapping(self) -> bool:
        """Whether both restrict some part of the track."""
        (low, high), (begin, end) = map(_stretch, self)
        return max(low, begin) < min(high, end)


def opposite_restrictions(decoded: Decoded, options: Options) -> Tuple[Sequence[Remark], int]:
    """Compares the restrictions with one number for trains of both directions of a track.

    The number counts those that are not compared, because a project may number each direction by itself.
    """
    pairs = list(_pairs(decoded, options))
    differing = [pair for pair in pairs if not pair.agree(decoded, options)]
    agreeing = len(pairs) - len(differing)
    wrong = differing if agreeing and agreeing >= OFTEN * len(differing) else []
    wrong = wrong or (differing if len(differing) == 1 and differing[0].is_overlapping else [])
    found = [_of_pair(decoded, *pair) for pair in wrong]
    return found, 0 if wrong else 2 * len(differing)


def _stretch(one: Restriction) -> Tuple[int, int]:
    """Between which places it restricts trains."""
    low, high = sorted((one.place, one.place + (one.passage.way or 1) * one.length))
    return low, high


def _pairs(decoded: Decoded, options: Options) -> Iterator[Pair]:
    """The restrictions with one number of both directions: those with fewer senders first."""
    found: Dict[Tuple[str, int], Dict[int, List[Restriction]]] = {}
    for (track, way), some in restrictions_of(decoded).items():
        for each in some:
            if each.number != NOT_REVOCABLE:
                found.setdefault((track, each.number), {}).setdefault(way, []).append(each)
    for by_way in found.values():
        if len(by_way) == 2:
            few, many = sorted(by_way.values(), key=lambda own: len({each.sender for each in own}))
            yield Pair(*(most_frequent(decoded, options, own) for own in (few, many)))


def _of_pair(decoded: Decoded, one: Restriction, other: Restriction) -> Remark:
    """A remark on a restriction that is another one for trains of the other direction."""
    own, its = (
        f"from {' to '.join(decoded.km(each.passage.track, place) for place in _stretch(each))} with {each.speed} km/h"
        for each in (one, other)
    )
    sentence = (
        f"the restriction with NID_TSR {one.number} is {own}, and for trains of the other direction {its} by "
        f"{source(other.passage, other.packet)}"
    )
    values = {**one.values(), **other.values("other_")}
    where, compared = one.passage.at(one.packet), [other.passage.at(other.packet)]
    return Remark("E22", where, sentence, None, values, compared=compared)


def without_number(decoded: Decoded, options: Options) -> Iterator[Remark]:
    """Compares restrictions with NID_TSR 255 that begin near each other, and look like one."""
    for some in restrictions_of(decoded).values():
        for part in parts([each for each in some if each.number == NOT_REVOCABLE], NEAR):
            telegrams: Set[int] = {id(each.packet.row or each.passage.message) for each in part}
            usual = most_frequent(decoded, options, part)
            for each in part if len(telegrams) == len(part) else ():
                if _is_twin(each, usual, decoded, options):
                    yield _of_twin(decoded, each, usual)


def _is_twin(one: Restriction, other: Restriction, decoded: Decoded, options: Options) -> bool:
    """Whether two restrictions differ in one of place, length and speed, and one is not the rest of the other."""
    units = one.packet.unit, other.packet.unit
    tolerance = decoded.tolerance(options.tolerance_of_places, *units)
    lengths = tolerance_of_lengths(options.tolerance_of_places, *units)
    differing = (
        abs(one.place - other.place) > tolerance,
        abs(one.length - other.length) > lengths,
        one.speed != other.speed,
    )
    return sum(differing) == 1 and one.sender != other.sender and not is_rest(one, other, tolerance)


def _of_twin(decoded: Decoded, one: Restriction, other: Restriction) -> Remark:
    """A remark on a restriction without a number that another group gives otherwise."""
    apart = abs(one.place - other.place)
    sentence = (
        f"the restriction with NID_TSR {NOT_REVOCABLE} is at {one.words(decoded, one.passage)}, and by "
        f"{source(other.passage, other.packet)} at {other.words(decoded, one.passage)}"
        f"{f': they begin {metres(apart)} from each other' if apart else ''}"
    )
    values = {**one.values(), **other.values("other_")}
    where, compared = one.passage.at(one.packet), [other.passage.at(other.packet)]
    return Remark("E22", where, sentence, None, values, compared=compared)

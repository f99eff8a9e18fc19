"""Track conditions at one place that messages state as two kinds, although no message has both. For E29."""
from __future__ import annotations

from decimal import Decimal
from typing import AbstractSet, Callable, Dict, FrozenSet, Iterator, List, NamedTuple, Sequence, Set, Tuple

from balisekit.etcs.variables import Around, metres, value_words
from balisekit.rules.decoded import Decoded
from balisekit.rules.meaning.along import Lane, lane_of, parts
from balisekit.rules.meaning.conditions import LAYOUTS, NEAR, Condition, Kind, of_packet
from balisekit.rules.meaning.words import at_place, source
from balisekit.rules.passages import Passage
from balisekit.rules.rule import Remark

Agree = Callable[[Condition, Condition], bool]
"""Whether two conditions are at one place."""


class Stated(NamedTuple):
    """A condition with its kind."""

    kind: Kind
    condition: Condition

    @property
    def place(self) -> int:
        """Where it begins, in decimetres."""
        return self.condition.place

    @property
    def sender(self) -> int:
        """The group or message that states it."""
        return id(self.condition.passage.group or self.condition.passage.message)

    @property
    def key(self) -> Tuple[object, ...]:
        """What tells it from the others: aspects share the packets of fixed balises."""
        return id(self.condition.packet), self.condition.says, self.kind


def of_two_kinds(decoded: Decoded, numbers: AbstractSet[int], agree: Agree) -> Iterator[Remark]:
    """The conditions whose kind is not the one that most groups state there, of packets that have a kind."""
    by_lane: Dict[Tuple[Lane, int], List[Stated]] = {}
    both: Set[Tuple[Lane, FrozenSet[Kind]]] = set()
    for passage in decoded.passages:
        own = list(_stated(passage, numbers)) if passage.way is not None else []
        both.update((lane_of(passage), pair) for pair in _pairs(own, agree))
        for each in own:
            by_lane.setdefault((lane_of(passage), each.kind[0]), []).append(each)
    for (lane, _), some in by_lane.items():
        if len({each.kind for each in some}) > 1:
            two = {pair for at, pair in both if at == lane}
            single = sorted({each.key: each for each in some}.values(), key=lambda each: each.place)
            for part in parts(single, NEAR):
                yield from _compare(decoded, part, two, agree)


def _stated(passage: Passage, numbers: AbstractSet[int]) -> Iterator[Stated]:
    """The conditions of a message that have a kind."""
    for packet in passage.said:
        if packet.number in numbers and LAYOUTS[packet.number].kind:
            yield from (Stated(*each) for each in of_packet(passage, packet))


def _pairs(own: Sequence[Stated], agree: Agree) -> Iterator[FrozenSet[Kind]]:
    """Each two kinds that one message states at one place: they are two conditions."""
    for index, one in enumerate(own):
        for other in own[index + 1 :]:
            if one.kind != other.kind and one.kind[0] == other.kind[0] and agree(one.condition, other.condition):
                yield frozenset((one.kind, other.kind))


def _compare(
    decoded: Decoded, some: Sequence[Stated], both: AbstractSet[FrozenSet[Kind]], agree: Agree
) -> Iterator[Remark]:
    """The conditions that are near each other. Of equally frequent kinds the one at the lowest kilometre counts.

    A kind that a message has beside theirs does not count: a tunnel may have several conditions.
    """
    for each in some:
        here = [other for other in some if agree(each.condition, other.condition)]
        senders: Dict[Kind, Set[int]] = {}
        for other in here:
            senders.setdefault(other.kind, set()).add(other.sender)
        rivals = [kind for kind in senders if frozenset((each.kind, kind)) not in both]
        usual = max(rivals, key=lambda kind: len(senders[kind]))
        if usual != each.kind:
            yield _remark(decoded, each, next(other for other in here if other.kind == usual))


def _remark(decoded: Decoded, stated: Stated, usual: Stated) -> Remark:
    """A remark on a condition, with the condition of the usual kind."""
    each, other, layout = stated.condition, usual.condition, LAYOUTS[stated.kind[0]]
    length = f" for {metres(each.length)}" if layout.length else ""
    pairs = {key: (own, its) for key, own, its in zip(layout.kind, stated.kind[1:], usual.kind[1:]) if own != its}
    words = " and ".join(
        f"{key.upper()} is {_value(key, own)}, and {_value(key, its)} by {source(other.passage, other.packet)}"
        for key, (own, its) in pairs.items()
    )
    sentence = f"at {at_place(decoded, each.passage, each.place)}{length}, {words}"
    values = {"place_m": Decimal(each.place) / 10}
    for key, (own, its) in pairs.items():
        values.update({key: Decimal(own), f"other_{key}": Decimal(its)})
    compared = [other.passage.at(other.packet)]
    return Remark("E29", each.passage.at(each.packet), sentence, None, values, compared=compared)


def _value(key: str, value: int) -> str:
    """A number with its meaning."""
    words = value_words(key, value, Around())
    return f"{value} ({words})" if words else str(value)

"""Packets that aspects lack and their namesakes at most other signals have. For E24."""
from __future__ import annotations

from decimal import Decimal
from functools import lru_cache
from typing import Collection, Dict, FrozenSet, List, Mapping, NamedTuple, Sequence, Tuple

from balisekit.etcs.geometry import DIRECTIONS
from balisekit.etcs.packets import packet_name
from balisekit.rules.meaning.namesakes import Case, Cases, lacking, signals_of
from balisekit.rules.meaning.siblings import lacking_in, said_of, turned_in
from balisekit.rules.passages import GroupData
from balisekit.rules.rule import Field
from balisekit.rules.telegrams import GRADIENTS, LINKING, SAYS_NOTHING, SPEEDS, Packet

STOP_IN_SR = 137
OFTEN = frozenset({12, GRADIENTS, SPEEDS, 80})
"""The packets that one in five signals may lack too."""


class Unlike(NamedTuple):
    """What an aspect lacks, or a value that differs: a part of a remark."""

    case: Case
    words: str
    values: Mapping[str, Decimal]
    blamed: Sequence[Field] = ()
    lacks: bool = False
    """Whether it is about packets that the aspect lacks."""


class Lacking(NamedTuple):
    """The aspects that lack packets of their namesakes."""

    parts: Sequence[Unlike]
    left: Sequence[Case]
    """Those that are not reported, because too many lack the packet, although at least half of the signals have it."""
    doubted: Sequence[Case]
    """Those that are not reported, because the program reports an authority without this profile."""


def lacking_packets(cases: Cases, few: Cases, ordered: Collection[Tuple[int, str]]) -> Lacking:
    """The packets that an aspect lacks, together those that as many other signals have."""
    parts: List[Unlike] = []
    left: List[Case] = []
    doubted: List[Case] = []
    for name, own in cases.items():
        without: Dict[Tuple[int, int], Tuple[Case, List[int]]] = {}
        for number in sorted({packet.number for case in own for packet in case.packets if _is_of_aspect(packet)}):
            some, having = lacking(own, few.get(name, ()), number)
            is_odd = 5 * having >= 4 * signals_of(own) and (number in OFTEN or signals_of(some) == 1)
            doubted += [case for case in some if is_odd and _is_of_program(case, number)]
            some = [case for case in some if not _is_said_elsewhere(case, number, ordered)]
            if is_odd:
                for case in some:
                    without.setdefault((id(case), having), (case, []))[1].append(number)
            elif 2 * having >= signals_of(own):
                left += some
        parts += [_of_packets(case, count, numbers) for (_, count), (case, numbers) in without.items()]
    return Lacking(parts, left, doubted)


def _of_packets(case: Case, count: int, numbers: Sequence[int]) -> Unlike:
    """The packets that an aspect lacks, and how many signals have them."""
    names = [f"{number} ({packet_name(number)})" for number in numbers]
    packets = f"packet{'s' if len(names) > 1 else ''} {', '.join(names)}"
    words = f"it lacks {packets} in {case.direction} direction, which {count} other signals have"
    return Unlike(case, words, {"packets": Decimal(len(numbers))}, lacks=True)


def _is_of_aspect(packet: Packet) -> bool:
    """Whether a packet is compared: one of the balise with the aspects, and no linking."""
    is_fixed = packet.row is None or packet.row.aspect in ("", "*")
    return not is_fixed and packet.number != LINKING and packet.number not in SAYS_NOTHING


def _is_said_elsewhere(case: Case, number: int, ordered: Collection[Tuple[int, str]]) -> bool:
    """Whether another finding names what an aspect lacks: the program, or the rule on the aspects of one group."""
    if _is_of_program(case, number):
        return True
    if number == STOP_IN_SR and (id(case.data), case.aspect) in ordered:
        return True
    return (case.aspect, case.direction) in _told(case.data)


def _is_of_program(case: Case, number: int) -> bool:
    """Whether F10 or F12 names what an aspect lacks."""
    return case.speed > 0 and number in (GRADIENTS, SPEEDS)


@lru_cache(maxsize=1)
def _told(data: GroupData) -> FrozenSet[Tuple[str, str]]:
    """The aspects of a group that the rule on the aspects of one group names, and for which direction."""
    said, moving = said_of(data)
    turned = turned_in(said)
    rest = {aspect: own for aspect, own in said.items() if aspect not in turned}
    named = {(aspect, direction) for aspect in turned for direction in DIRECTIONS}
    return frozenset({*named, *(key[:2] for key in lacking_in(rest, moving))} if len(said) > 2 else ())

"""Borders between radio block centres, by packets 131. For E27."""
from __future__ import annotations

from bisect import bisect_left, bisect_right
from collections import Counter
from decimal import Decimal
from typing import Any, Dict, Iterator, List, Mapping, NamedTuple, Sequence, Tuple

from balisekit.etcs.variables import metres
from balisekit.rules.decoded import Decoded, once
from balisekit.rules.meaning.along import Lane, lane_of, leads_elsewhere, parts
from balisekit.rules.meaning.sent import Fault, remark
from balisekit.rules.meaning.words import at_place, source
from balisekit.rules.passages import Passage
from balisekit.rules.rule import Options, Remark
from balisekit.rules.telegrams import Packet

SESSION, TRANSITION, NOW, NEAR = 42, 131, 32_767, 5000
"""NID_PACKET of both packets, the D_RBCTR for at once, and in decimetres how near places are that are one border
whatever RBC their packets name."""
Centre = Tuple[int, int]
"""NID_C and NID_RBC."""


def centre_words(centre: Centre) -> str:
    """A radio block centre in words."""
    return f"RBC {centre[1]} of country {centre[0]}"


def _centre(packet: Packet) -> Centre:
    form: Any = packet.form
    return form["nid_c"], form["nid_rbc"]


class Border(NamedTuple):
    """A packet 131 at its place."""

    place: int
    passage: Passage
    packet: Packet

    @property
    def centre(self) -> Centre:
        """The RBC that trains change to."""
        return _centre(self.packet)

    @property
    def is_now(self) -> bool:
        """Whether it is for the place of its group."""
        return self.packet.form.get("d_rbctr") in (0, NOW)

    def is_at(self, other: Border, decoded: Decoded, options: Options) -> bool:
        """Whether both are at one place."""
        tolerance = decoded.tolerance(options.tolerance_of_places, self.packet.unit, other.packet.unit)
        return abs(self.place - other.place) <= tolerance

    def repeats(self, other: Border, count: int) -> bool:
        """Whether it orders at once, beyond a border on which `count` packets agree, the same change again."""
        is_beyond = (self.place - other.place) * (self.passage.way or 1) > 0
        return self.is_now and is_beyond and self.centre == other.centre and (other.is_now or count > 1)


def borders(decoded: Decoded, options: Options) -> Tuple[Sequence[Remark], Mapping[str, int]]:
    """The packets 131 that differ from the most frequent one for their border.

    The second part counts those that are compared only with packets near them, by the reason.
    """
    found: List[Remark] = []
    left: Counter[str] = Counter()
    for lane, own in _by_lane(decoded).items():
        some: List[Border] = []
        for part in parts(own, NEAR):
            usual = _usual(decoded, options, part)
            found += _compare(decoded, options, part, usual)
            some += [each for each in part if each.centre == usual.centre and each.is_at(usual, decoded, options)]
        reasons = {id(each.packet): leads_elsewhere(decoded, each.passage, each.packet, each.place) for each in some}
        left.update(filter(None, reasons.values()))
        staying = [each for each in some if not reasons[id(each.packet)]]
        for same in _of_one_centre(staying, _named(decoded, lane) if len(staying) > 1 else ()):
            found += _compare(decoded, options, same, _usual(decoded, options, same))
    return found, left


@once
def _by_lane(decoded: Decoded) -> Mapping[Lane, Sequence[Border]]:
    """The packets 131 of each track and way, by their places: each once."""
    lanes: Dict[Lane, Dict[Tuple[int, str], Border]] = {}
    for passage in decoded.passages:
        for packet in passage.of(TRANSITION) if passage.way is not None else ():
            distance: Any = packet.form.get("d_rbctr")
            place = None if distance is None else passage.place(0 if distance == NOW else distance * packet.unit)
            if place is not None:
                lanes.setdefault(lane_of(passage), {})[id(packet), passage.direction] = Border(place, passage, packet)
    return {lane: sorted(own.values(), key=lambda each: each.place) for lane, own in lanes.items()}


def _named(decoded: Decoded, lane: Lane) -> Sequence[Tuple[int, Centre]]:
    """Where trains of a track and way have the RBC of a packet 42 or 131, in the order of the places."""
    found = [(each.place, each.centre) for each in _by_lane(decoded)[lane]]
    for passage in decoded.passages:
        place = passage.place(0) if passage.way is not None and lane_of(passage) == lane else None
        sessions = [packet for packet in passage.of(SESSION) if "nid_rbc" in packet.form]
        found += [(place, _centre(packet)) for packet in sessions if place is not None]
    return sorted(found)


def _of_one_centre(some: Sequence[Border], named: Sequence[Tuple[int, Centre]]) -> Iterator[Sequence[Border]]:
    """The packets for one RBC, between which no packet names another RBC: these trains change to it once."""
    by_centre: Dict[Centre, List[Border]] = {}
    for each in some:
        by_centre.setdefault(each.centre, []).append(each)
    for centre, own in by_centre.items():
        others = [place for place, other in named if other != centre]
        part = own[:1]
        for each in own[1:]:
            if bisect_left(others, each.place) > bisect_right(others, part[-1].place):
                yield part
                part = []
            part.append(each)
        yield part


def _usual(decoded: Decoded, options: Options, some: Sequence[Border]) -> Border:
    """The one with which most agree. Of equally frequent ones an order at once counts, then the lowest kilometre."""

    def agreeing(one: Border) -> Tuple[int, bool]:
        same = [each for each in some if each.centre == one.centre and each.is_at(one, decoded, options)]
        return len(same), any(each.is_now for each in same)

    return max(some, key=agreeing)


def _compare(decoded: Decoded, options: Options, some: Sequence[Border], usual: Border) -> Iterator[Remark]:
    """The packets 131 for one border that differ from the usual one."""
    count = sum(each.is_at(usual, decoded, options) for each in some)
    by = source(usual.passage, usual.packet)
    for each in some:
        if each.repeats(usual, count):
            continue
        if not each.is_at(usual, decoded, options):
            apart = abs(each.place - usual.place)
            places = [at_place(decoded, each.passage, one.place) for one in (each, usual)]
            words = f"the border is at {places[0]}, and at {places[1]} by {by}: they differ by {metres(apart)}"
            yield _of_border(each, usual, words, {"apart_m": Decimal(apart) / 10}, "d_rbctr")
        elif each.centre != usual.centre:
            words = f"trains change to {centre_words(each.centre)}, and by {by} to {centre_words(usual.centre)}"
            values = {"nid_rbc": Decimal(each.centre[1]), "other_nid_rbc": Decimal(usual.centre[1])}
            yield _of_border(each, usual, words, values, "nid_rbc")


def _of_border(border: Border, usual: Border, words: str, values: Dict[str, Decimal], key: str) -> Remark:
    """A remark on a packet 131."""
    made = remark("E27", border.passage.at(border.packet), [Fault(words, values, [(key, None)])])
    return made._replace(compared=[usual.passage.at(usual.packet)])

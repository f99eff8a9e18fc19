"""Temporary speed restrictions at their places, by packets 65. For E22."""
from __future__ import annotations

from bisect import bisect_left
from decimal import Decimal
from typing import Any, Dict, Iterator, List, NamedTuple, Sequence, Set, Tuple

from balisekit.etcs.variables import Around, Values, metres, value_words
from balisekit.rules.decoded import Decoded, once, tolerance_of_lengths
from balisekit.rules.meaning.along import Lane, lane_of, parts
from balisekit.rules.meaning.revocations import RESTRICTION
from balisekit.rules.meaning.words import at_place, source
from balisekit.rules.passages import Passage
from balisekit.rules.rule import Options, Remark
from balisekit.rules.telegrams import Packet

NEAR, OFTEN = 100, 4
"""In decimetres how near two places of one restriction are that are looked at together, and how many restrictions with
one value there must be for each with several ones, if there are several of these."""
AROUND = 1000
"""In decimetres, more than places of one restriction may differ by any tolerance and rounding."""
COMPARED = ("nid_tsr", "q_front")
"""What is compared of one restriction, beside its place, length and speed."""


class Restriction(NamedTuple):
    """A restriction at its place."""

    place: int
    length: int
    speed: int
    """In km/h."""
    passage: Passage
    packet: Packet

    @property
    def number(self) -> int:
        """NID_TSR."""
        return self.value("nid_tsr")

    @property
    def says(self) -> Tuple[int, int, int]:
        """What is compared."""
        return self[:3]

    def values(self, before: str = "") -> Dict[str, Decimal]:
        """What is compared, by its names, which begin so."""
        metres_of = {"d_tsr_m": Decimal(self.place) / 10, "l_tsr_m": Decimal(self.length) / 10}
        return {f"{before}{name}": value for name, value in {**metres_of, "v_tsr_kmh": Decimal(self.speed)}.items()}

    def words(self, decoded: Decoded, passage: Passage) -> str:
        """It in words, with its distance from the group of a passage."""
        return f"{at_place(decoded, passage, self.place)}, {metres(self.length)} with {self.speed} km/h"

    def value(self, key: str) -> int:
        """A value of the packet, as it is sent."""
        fields: Any = self.packet.form
        return int(fields[key])

    @property
    def sender(self) -> int:
        """The group or message that sends it."""
        return id(self.passage.group or self.passage.message)

    def agrees(self, other: Restriction, decoded: Decoded, options: Options) -> bool:
        """Whether both are at one place, with one length and one speed."""
        stated, units = options.tolerance_of_places, (self.packet.unit, other.packet.unit)
        is_there = abs(self.place - other.place) <= decoded.tolerance(stated, *units) and self.speed == other.speed
        return is_there and abs(self.length - other.length) <= tolerance_of_lengths(stated, *units)


@once
def restrictions_of(decoded: Decoded) -> Dict[Lane, List[Restriction]]:
    """The restrictions of each track and way, by their places: each packet once."""
    found: Dict[Lane, Dict[Tuple[int, str], Restriction]] = {}
    for passage in decoded.passages:
        for packet in passage.of(RESTRICTION) if passage.way is not None else ():
            form: Values = packet.form
            place = passage.place(form["d_tsr"] * packet.unit) if "d_tsr" in form else None
            if place is not None:
                restriction = Restriction(place, form["l_tsr"] * packet.unit, form["v_tsr"] * 5, passage, packet)
                found.setdefault(lane_of(passage), {})[id(packet), passage.direction] = restriction
    return {lane: sorted(own.values(), key=lambda each: each.place) for lane, own in found.items()}


def most_frequent(decoded: Decoded, options: Options, some: Sequence[Restriction]) -> Restriction:
    """Of restrictions in the order of their places, the first one with which most senders agree."""
    places = [each.place for each in some]

    def senders(one: Restriction) -> int:
        near = some[bisect_left(places, one.place - AROUND) : bisect_left(places, one.place + AROUND + 1)]
        return len({each.sender for each in near if each.agrees(one, decoded, options)})

    return max(some, key=senders)


def is_rest(one: Restriction, other: Restriction, tolerance: int) -> bool:
    """Whether the one that begins farther along is the rest of the other one, sent by a group within it: D_TSR 0."""
    way = one.passage.way or 1
    whole, rest = sorted((one, other), key=lambda each: each.place * way)
    begin = (rest.place - whole.place) * way
    ends_there = abs(begin + rest.length - whole.length) <= tolerance
    fields: Values = rest.packet.form
    return fields["d_tsr"] == 0 and begin <= whole.length and ends_there and one.speed == other.speed


class Described(NamedTuple):
    """Restrictions that two groups or aspects describe, but for a number or Q_FRONT alike."""

    found: Sequence[Remark]
    left: int
    """How many are not compared, because a project numbers each packet by itself."""


def descriptions_of(decoded: Decoded, options: Options) -> Described:
    """Compares NID_TSR and Q_FRONT of the packets that describe one restriction."""
    single = [one for some in restrictions_of(decoded).values() for one in _of_one_place(decoded, options, some)]
    found: List[Remark] = []
    left = 0
    for key in COMPARED:
        values = [{each.value(key) for each in own} for own in single]
        several = [own for own, some in zip(single, values) if len(some) > 1 and not _has_both(own, key)]
        if len(several) == 1 or sum(len(some) == 1 for some in values) >= OFTEN * len(several):
            found += [remark for own in several for remark in _differing(decoded, own, key)]
        else:
            left += sum(map(len, several))
    return Described(found, left)


def _of_one_place(decoded: Decoded, options: Options, some: Sequence[Restriction]) -> Iterator[Sequence[Restriction]]:
    """The restrictions of a track that two packets at least describe."""
    for part in parts(some, NEAR):
        left = part
        while left:
            same = [each for each in left if each.agrees(left[0], decoded, options)]
            left = [each for each in left if not any(each is one for one in same)]
            if len(same) > 1:
                yield same


def _has_both(own: Sequence[Restriction], key: str) -> bool:
    """Whether one telegram or message has two values: then there are two restrictions."""
    values: Dict[int, Set[int]] = {}
    for each in own:
        values.setdefault(id(each.packet.row or each.passage.message), set()).add(each.value(key))
    return any(len(some) > 1 for some in values.values())


def _differing(decoded: Decoded, own: Sequence[Restriction], key: str) -> Iterator[Remark]:
    """The packets that do not have the value of most senders. Of equally frequent values the first one counts."""
    senders: Dict[int, Set[int]] = {}
    for each in own:
        senders.setdefault(each.value(key), set()).add(each.sender)
    usual = max(senders, key=lambda value: len(senders[value]))
    other = next(each for each in own if each.value(key) == usual)
    for each in own:
        value = each.value(key)
        if value != usual:
            said, its = (_value(packet, key) for packet in (each.packet, other.packet))
            sentence = (
                f"{key.upper()} of the restriction at {each.words(decoded, each.passage)} is {said}, and {its} by "
                f"{source(other.passage, other.packet)}"
            )
            values = {key: Decimal(value), f"other_{key}": Decimal(usual)}
            row = each.packet.row
            made = Remark("E22", each.passage.at(each.packet), sentence, None, values)
            blamed = [(row.number, each.packet.place, key, None)] if row else []
            yield made._replace(blamed=blamed, compared=[other.passage.at(other.packet)])


def _value(packet: Packet, key: str) -> str:
    """A number of a packet, with its meaning."""
    fields: Any = packet.form
    value = int(fields[key])
    words = value_words(key, value, Around(packet.form))
    return f"{value} ({words})" if words else str(value)

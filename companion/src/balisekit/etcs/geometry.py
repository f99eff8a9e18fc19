"""Where authorities and profiles of a group are: whole decimetres from the group, in the direction of passage.

The places are balisekit's own sums of the program's numbers. A place in kilometres needs the kilometre of the group's
first balise, and whether the kilometres rise in nominal direction.
"""
from __future__ import annotations

from dataclasses import dataclass
from decimal import Decimal
from enum import Enum
from functools import cached_property
from itertools import accumulate
from typing import Dict, Iterator, List, Literal, Mapping, NamedTuple, Optional, Sequence, Tuple, TypeVar

from balisekit.etcs.variables import Form, unit_dm
from balisekit.tables.chainage import kilometre_of as kilometre_of
from balisekit.tables.model import Group
from balisekit.tables.names import kilometre as kilometre

NOMINAL, REVERSE = "nominal", "reverse"
Sent = TypeVar("Sent")
INFILL = 136
"""The packet after which distances count from another group."""
DIRECTIONS = (NOMINAL, REVERSE)
ELEMENT_KEYS: Mapping[int, Tuple[Literal["d_gradient", "d_static"], Literal["g_a", "v_static"], int]] = {
    21: ("d_gradient", "g_a", 255),
    27: ("d_static", "v_static", 127),
}
"""Of each profile: the keys of distance and value, and the value that is its end mark."""


class Site(NamedTuple):
    """The balise of a packet in the group, and the index of the packet in the telegram, both counted from 0."""

    balise: int
    packet: int


GREATEST = 10**15
"""In decimetres. The kilometres of a table are far less."""


class Authority(NamedTuple):
    """A movement authority, packet 12 or 15."""

    site: Site
    form: Form
    cuts: Tuple[int, ...]
    """Where each section but the end section ends."""
    end: int
    danger_point: Optional[int]
    overlap: Optional[int]
    """Where the overlap ends."""
    timer_stops: Tuple[int, ...]
    """Where the timers of sections stop, that of the end section last."""
    end_timer: Optional[int]
    overlap_timer: Optional[int]

    @property
    def supervised(self) -> int:
        """The supervised location: the overlap's end, else the danger point, else the end of the authority."""
        if self.overlap is not None:
            return self.overlap
        return self.end if self.danger_point is None else self.danger_point


class Element(NamedTuple):
    """What holds from one place of a profile on. Without `end` it is open."""

    begin: int
    end: Optional[int]
    form: Form
    value: int
    """The value as it is sent."""


class Profile(NamedTuple):
    """A gradient profile or a static speed profile, packet 21 or 27."""

    site: Site
    number: int
    elements: Tuple[Element, ...]
    """The elements before the first end mark."""
    beyond: Tuple[Element, ...]
    """The elements after it, which have no meaning."""
    first: int
    """Where the first element begins. The profile does not cover the track before it."""
    reach: Optional[int]
    """Where the first end mark is. A profile without one is open."""


@dataclass(frozen=True)
class Kilometres:
    """The kilometre of a group, and how the kilometres go: 1 if they rise in nominal direction, -1 if they fall."""

    group: Optional[Decimal] = None
    rising: Optional[int] = None

    @cached_property
    def _whole(self) -> Optional[int]:
        """The kilometre of the group in decimetres, if that is a whole number below GREATEST."""
        place = Decimal() if self.group is None else self.group.scaleb(4)
        return int(place) if abs(place) < GREATEST and place == int(place) else None

    @property
    def whole(self) -> Optional[int]:
        """The kilometre of the group in decimetres, if it is known and that is a whole number."""
        return None if self.group is None else self._whole

    def words(self, place_dm: int, direction: str) -> str:
        """The kilometre of a place as it is written, or nothing if it is not known."""
        if self.group is None or (self.rising is None and place_dm != 0):
            return ""
        return self.at(place_dm if (self.rising != -1) == (direction == NOMINAL) else -place_dm)

    def at(self, along: int) -> str:
        """The kilometre of a place this far up the kilometres from the group, whose kilometre is known."""
        whole = self._whole
        if whole is None:
            return kilometre((self.group or Decimal()) + Decimal(along).scaleb(-4))
        return kilometre_of(whole + along)


RISING = {"rising": 1, "falling": -1}
"""What the column `nominal` says of the kilometres."""


def kilometres(group: Group) -> Kilometres:
    """The kilometre of a group, and how the kilometres go."""
    return Kilometres(*place_and_direction(group))


def place_and_direction(group: Group) -> Tuple[Optional[Decimal], Optional[int]]:
    """The same as two values. Whether they rise is by the kilometres of its balises, else by the column `nominal`."""
    first = group.aspects[0].rows[0]
    if len(group.aspects) == len(group.aspects[0].rows) == 1:
        return first.km, RISING.get(first.nominal)
    known: Dict[int, Decimal] = {}
    for aspect in group.aspects:
        for place, row in enumerate(aspect.rows):
            if row.km is not None:
                known.setdefault(place, row.km)
    along = [known[place] for place in sorted(known)]
    rises = all(before <= after for before, after in zip(along, along[1:]))
    falls = all(before >= after for before, after in zip(along, along[1:]))
    if rises != falls:
        return known.get(0), 1 if rises else -1
    words = {row.nominal for row in group.rows()} - {""}
    rising = RISING.get(words.pop()) if rises and len(words) == 1 else None
    return known.get(0), rising


def end_of(packet: Form) -> int:
    """Where the authority of a packet 12 or 15 ends."""
    cuts = sum(section["l_section"] for section in packet["sections"])
    return (cuts + packet["l_endsection"]) * unit_dm(packet)


def authority(site: Site, packet: Form) -> Authority:
    """The places of a packet 12 or 15."""
    unit, sections = unit_dm(packet), packet["sections"]
    cuts = [0, *accumulate(section["l_section"] for section in sections)]
    stops = [
        (begin + section["section_timer"]["d_sectiontimerstoploc"]) * unit
        for begin, section in zip(cuts, [*sections, packet])
        if "section_timer" in section
    ]
    end = cuts[-1] + packet["l_endsection"]

    def beyond(
        part: Literal["danger_point", "overlap", "end_timer"],
        key: Literal["d_dp", "d_ol", "d_startol", "d_endtimerstartloc"],
        sign: int = 1,
    ) -> Optional[int]:
        return (end + sign * packet[part][key]) * unit if part in packet else None

    return Authority(
        site,
        packet,
        tuple(cut * unit for cut in cuts[1:]),
        end * unit,
        beyond("danger_point", "d_dp"),
        beyond("overlap", "d_ol"),
        tuple(stops),
        beyond("end_timer", "d_endtimerstartloc", -1),
        beyond("overlap", "d_startol", -1),
    )


def profile(site: Site, packet: Form) -> Profile:
    """The places of a packet 21 or 27."""
    distance, value, mark = ELEMENT_KEYS[packet["nid_packet"]]
    unit, sent = unit_dm(packet), packet["elements"]
    places = [at * unit for at in accumulate(element[distance] for element in sent)]
    values = [element[value] for element in sent]
    elements = tuple(map(Element, places, [*places[1:], None], sent, values))
    if mark not in values:
        return Profile(site, packet["nid_packet"], elements, (), places[0], None)
    before = values.index(mark)
    beyond = tuple(element for element in elements[before + 1 :] if element.value != mark)
    return Profile(site, packet["nid_packet"], elements[:before], beyond, places[0], places[before])


def is_silent(flag: int, is_first: bool, direction: str) -> bool:
    """Whether a balise with this M_DUP is passed after the one that it names, which has the same packets."""
    return flag == (2 if direction == NOMINAL else 1) and not is_first


def in_order(flags: Sequence[int], sent: Sequence[Sequence[Sent]], direction: str) -> List[Sent]:
    """What is passed of several balises, without what silent ones send. `flags` has their M_DUP in nominal order."""
    order = range(len(flags)) if direction == NOMINAL else range(len(flags) - 1, -1, -1)
    return [
        each
        for passed_before, balise in enumerate(order)
        if not is_silent(flags[balise], passed_before == 0, direction)
        for each in sent[balise]
    ]


def until_infill(passed: Sequence[Sent], numbers: Sequence[int]) -> Tuple[Sequence[Sent], Sequence[Sent]]:
    """What is passed before the first packet 136, and that packet with what follows it, by their NID_PACKET."""
    place = numbers.index(INFILL) if INFILL in numbers else len(numbers)
    return passed[:place], passed[place:]


def has_infill(form: Form) -> bool:
    """Whether a telegram has a packet 136. Most have none."""
    return any(packet["nid_packet"] == INFILL for packet in form["packets"])


def holds(packet: Form, direction: str) -> bool:
    """Whether a packet from track to train is for this direction. Packet 0, which has no Q_DIR, is for both."""
    return packet.get("q_dir", 2) in (2, int(direction == NOMINAL))


def passed(forms: Sequence[Form], direction: str) -> List[Tuple[Site, Form]]:
    """The packets of a group for one direction in passing order, without those of silent balises."""
    sent = [
        [(Site(balise, place), packet) for place, packet in enumerate(form["packets"]) if holds(packet, direction)]
        for balise, form in enumerate(forms)
    ]
    return in_order([form.get("m_dup", 0) for form in forms], sent, direction)


class Origin(Enum):
    """From which group the distances of a packet count."""

    OWN = "the group of the packet"
    INFILL = "the group that a packet 136 names"
    UNREAD = "either: a telegram that is passed before has not been read"


def origins(forms: Sequence[Optional[Form]], direction: str) -> Iterator[Tuple[Site, Origin]]:
    """The origin of each packet for one direction, in passing order. A telegram that was not read is None.

    The distances of a silent balise count as those of the balise before it, which it duplicates.
    """
    origin, before = Origin.OWN, {}
    step = 1 if direction == NOMINAL else -1
    for balise in range(len(forms))[::step]:
        before[balise], form = origin, forms[balise]
        if form is None:
            origin = Origin.UNREAD if origin is Origin.OWN else origin
            continue
        silent = is_silent(form.get("m_dup", 0), balise - step not in before, direction)
        here = before[balise - step] if silent else origin
        for place, packet in enumerate(form["packets"]):
            if holds(packet, direction):
                yield Site(balise, place), here
                here = Origin.INFILL if packet["nid_packet"] == INFILL else here
        origin = origin if silent else here

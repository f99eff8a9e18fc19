"""Aspects with one name, over all signals of a table: what most of them have, and which one differs. For E24."""
from __future__ import annotations

from collections import Counter
from typing import Any, Collection, Dict, Iterator, List, Mapping, NamedTuple, Optional, Sequence, Set, Tuple

from balisekit.etcs.geometry import DIRECTIONS
from balisekit.etcs.variables import Around, value_words, variable_name
from balisekit.rules.decoded import Decoded
from balisekit.rules.passages import GroupData
from balisekit.rules.telegrams import SPEEDS, Packet

AUTHORITY, MODES = 12, 80
NATIONAL = 127
"""The V_MAMODE of the national values."""
LEAST = 5
"""The fewest signals whose aspects of one name are compared."""
REFUSED = "aspects of groups with a refused telegram"
INFILL = "aspects of groups whose packets 12 all follow a packet 136"
FEW = "aspects of groups without a packet 12 in half of their aspects, for one direction"
"""Why aspects are not compared."""
KEYS: Mapping[str, Sequence[str]] = {
    "overlap": ("t_ol", "d_startol", "v_releaseol"),
    "danger_point": ("v_releasedp",),
    "section_timer": ("t_sectiontimer", "d_sectiontimerstoploc"),
    "end_timer": ("t_endtimer", "d_endtimerstartloc"),
    "elements": ("m_mamode", "v_mamode"),
}
"""The parts of a packet 12 or 80 whose values are compared, and their keys."""
COMPARED = tuple((part, key) for part, keys in KEYS.items() for key in keys)
LENGTHS = (("overlap", "d_ol"), ("danger_point", "d_dp"))
"""The parts that a place may have of its own, and the keys of their lengths."""


class Case(NamedTuple):
    """An aspect of a signal in the direction of its trains, with all that it sends."""

    data: GroupData
    aspect: str
    direction: str
    packets: Sequence[Packet]
    signal: Tuple[int, str]
    """Which signal it is of: a group in a direction."""
    by_number: Mapping[int, Packet]
    """The first packet with each NID_PACKET."""

    def first(self, number: int) -> Optional[Packet]:
        """The first packet with this number."""
        return self.by_number.get(number)

    @property
    def speed(self) -> int:
        """V_MAIN as it is sent. It is 0 without a packet 12."""
        packet = self.first(AUTHORITY)
        return int(packet.form["v_main"]) if packet else 0

    @property
    def speeds(self) -> Sequence[int]:
        """Each V_STATIC that it sends."""
        return [each.value for packet in self.packets if packet.number == SPEEDS for each in packet.stretches]

    @property
    def of_profile(self) -> int:
        """The greatest V_STATIC that it sends, or 0 if it sends no speed profile."""
        return max(self.speeds, default=0)


Cases = Mapping[str, Sequence[Case]]
"""By the name of the aspect."""


class Value(NamedTuple):
    """A value of a packet 12 or 80 that is compared."""

    case: Case
    packet: Packet
    parent: Any
    """The object that has it."""
    key: str

    @property
    def sent(self) -> int:
        """The number as it is sent."""
        return int(self.parent[self.key])

    @property
    def compared(self) -> int:
        """The number: a distance in decimetres."""
        return self.sent * (self.packet.unit if self.key.startswith("d_") else 1)

    @property
    def name(self) -> str:
        """The standard's name of its variable."""
        return variable_name(self.key, self.parent)

    @property
    def words(self) -> str:
        """It with its unit."""
        return value_words(self.key, self.sent, Around(self.packet.form, self.parent)) or str(self.sent)


class Odd(NamedTuple):
    """What differs at one aspect from the same aspect of all other signals."""

    case: Case
    packet: Packet
    key: str
    words: str
    sent: int
    usual: int


class Namesakes(NamedTuple):
    """The aspects of the signals of a table by their names, and what is passed over."""

    cases: Cases
    few: Cases
    """Of groups in which few aspects have a packet 12. Nothing is concluded from them about other groups."""
    passed_over: Mapping[str, int]
    """How many aspects of groups with several aspects are neither, by the reason."""


def namesakes_of(decoded: Decoded) -> Namesakes:
    """The aspects of all signals by their names.

    A direction counts if most aspects of the group have a packet 12 for it: the Q_DIR of a single one may be wrong. If
    fewer have one, the names of the aspects show that the group is a signal.
    """
    cases: Dict[str, List[Case]] = {}
    few: Dict[str, List[Case]] = {}
    passed_over: Dict[str, int] = {}
    left: List[GroupData] = []
    for data in decoded.controlled:
        why = _why_not(data)
        own = [] if why else list(_of_group(data, _counts(data)))
        for case in own:
            cases.setdefault(case.aspect, []).append(case)
        if why:
            passed_over[why] = passed_over.get(why, 0) + len(data.group.group.aspects)
        elif not own:
            left.append(data)
    known = {name for name, some in cases.items() if signals_of(some) >= LEAST}
    for data in left:
        own = list(_by_names(data, known))
        for case in own:
            few.setdefault(case.aspect, []).append(case)
        if not own:
            passed_over[FEW] = passed_over.get(FEW, 0) + len(data.group.group.aspects)
    return Namesakes(cases, few, passed_over)


def _why_not(data: GroupData) -> str:
    """Why a group is not compared, whatever its aspects have."""
    if data.group.unread:
        return REFUSED
    has_infill = any(passage.reference for passage in data.passages)
    return INFILL if has_infill and not any(_counts(data).values()) else ""


def _counts(data: GroupData) -> Mapping[str, int]:
    """How many aspects of a group have a packet 12 for each direction."""
    having = {(own.aspect, own.direction) for own in data.passages if any(p.number == AUTHORITY for p in own.said)}
    return {direction: sum(own == direction for _, own in having) for direction in DIRECTIONS}


def _of_group(data: GroupData, counts: Mapping[str, int]) -> Iterator[Case]:
    """The aspects of a group, for the directions of its trains, if most of them have a packet 12."""
    count, most = len(data.group.group.aspects), max(counts.values())
    own = [direction for direction in DIRECTIONS if counts[direction] == most]
    if 2 * most >= count and (len(own) == 1 or most == count):
        yield from _cases(data, own)


def _by_names(data: GroupData, known: Collection[str]) -> Iterator[Case]:
    """The aspects of a group with few packets 12, all for one direction, if other signals have most of its names."""
    names = [aspect.name for aspect in data.group.group.aspects]
    own = [direction for direction, count in _counts(data).items() if count]
    if len(own) == 1 and 2 * sum(name in known for name in names) >= len(names):
        yield from _cases(data, own)


def _cases(data: GroupData, directions: Sequence[str]) -> Iterator[Case]:
    """The aspects of a group in these directions."""
    said = {(passage.aspect, passage.direction): passage.said for passage in data.passages}
    for direction in directions:
        for aspect in data.group.group.aspects:
            packets = said.get((aspect.name, direction), ())
            by_number = {packet.number: packet for packet in reversed(packets)}
            yield Case(data, aspect.name, direction, packets, (id(data), direction), by_number)


def signals_of(cases: Sequence[Case]) -> int:
    """How many signals some cases are of."""
    return len({case.signal for case in cases})


def at_signals(count: int, others: int = 0) -> str:
    """Where others agree: `at all 5 other signals`, or `at 4 of 5 other signals`."""
    if count < others:
        return f"at {count} of {others} other signals"
    return f"at all {count} other signals" if count > 1 else "at 1 other signal"


def lacking(cases: Sequence[Case], few: Sequence[Case], number: int) -> Tuple[Sequence[Case], int]:
    """The cases without a packet, and how many signals have it in all their cases.

    `few` are cases that do not count among these signals.
    """
    without = [case for case in cases if case.first(number) is None]
    having = signals_of(cases) - signals_of(without)
    return [*without, *(case for case in few if case.first(number) is None)], having


class Differing(NamedTuple):
    """Values that differ from those of other signals."""

    odd: Sequence[Odd]
    """Those of one signal that no other aspect of the table has, if all others of the name have the same one."""
    left: Sequence[Case]
    """The aspects of the others, which several signals have."""


def odd_values(cases: Cases) -> Differing:
    """The values of packets 12 and 80 that are not the usual ones of their aspect."""
    by_part, alone = _values_of(cases), _lengths_of_one(cases)
    found: List[Odd] = []
    left: List[Case] = []
    for (_, key), by_name in by_part.items():
        compared = {name: [each for each in own if not _is_of_a_place(each, alone)] for name, own in by_name.items()}
        for name, own in compared.items():
            counts = Counter(each.compared for each in own)
            most = max(counts, key=counts.__getitem__, default=0)
            usual = next((each for each in own if each.compared == most), None)
            if usual is None or signals_of([each.case for each in own]) < LEAST:
                continue
            odd = [each for each in own if each.compared != most]
            odd = [each for each in odd if not is_slow_route(each.case, key, each.sent, usual.sent)]
            if signals_of([each.case for each in odd]) == 1 and not _is_elsewhere(odd, compared):
                others = at_signals(*agreeing(by_name[name], odd[0].case.signal, usual))
                for each in odd:
                    words = f"{each.name} is {each.words}, and {usual.words} {others} with it"
                    found.append(Odd(each.case, each.packet, key, words, each.sent, usual.sent))
            else:
                left += [each.case for each in odd]
    return Differing(found, left)


def agreeing(values: Sequence[Value], signal: Tuple[int, str], usual: Value) -> Tuple[int, int]:
    """How many signals, apart from one, have the usual value at their aspect, and how many have any."""
    others = [each for each in values if each.case.signal != signal]
    some = ([each.case for each in others if each.compared == usual.compared], [each.case for each in others])
    return signals_of(some[0]), signals_of(some[1])


def _is_elsewhere(odd: Sequence[Value], compared: Mapping[str, Sequence[Value]]) -> bool:
    """Whether another signal has any of these values of one signal, in an aspect of any name."""
    own = {each.compared for each in odd}
    return any(
        each.compared in own and each.case.signal != odd[0].case.signal for some in compared.values() for each in some
    )


def _values_of(cases: Cases) -> Mapping[Tuple[str, str], Mapping[str, List[Value]]]:
    """The values that are compared, by the part of the packet and the key, and by the name of the aspect."""
    found: Dict[Tuple[str, str], Dict[str, List[Value]]] = {each: {} for each in COMPARED}
    for name, own in cases.items():
        for case in own:
            for packet, part, parent in _parts_of(case):
                for key in KEYS[part]:
                    found[part, key].setdefault(name, []).append(Value(case, packet, parent, key))
    return found


def _parts_of(case: Case) -> Iterator[Tuple[Packet, str, Any]]:
    """The parts of the packets 12 and 80 of a case that have values to compare."""
    for packet in (case.first(AUTHORITY), case.first(MODES)):
        form: Any = packet.form if packet else {}
        if packet:
            sections = [("section_timer", each) for each in form.get("sections", ())]
            for part, parent in (*sections, *((part, form) for part in KEYS)):
                own = parent.get(part)
                yield from ((packet, part, each) for each in (own if part == "elements" else [own]) or () if each)


def _lengths_of_one(cases: Cases) -> Set[Tuple[str, int]]:
    """The D_OL and D_DP, in decimetres, that the overlap or danger point of one signal only has."""
    found: Dict[Tuple[str, int], Set[Tuple[int, str]]] = {}
    for own in cases.values():
        for case in own:
            packet = case.first(AUTHORITY)
            form: Any = packet.form if packet else {}
            for part, key in LENGTHS:
                if packet and part in form:
                    found.setdefault((key, form[part][key] * packet.unit), set()).add(case.signal)
    return {length for length, signals in found.items() if len(signals) == 1}


def _is_of_a_place(value: Value, alone: Set[Tuple[str, int]]) -> bool:
    """Whether it is of an overlap or danger point with a length of its own, or a D_STARTOL that is the end section."""
    if value.key == "d_startol" and value.sent == value.packet.form["l_endsection"]:
        return True
    own = ((key, value.parent[key] * value.packet.unit) for _, key in LENGTHS if key in value.parent)
    return bool(alone) and not alone.isdisjoint(own)


def is_slow_route(case: Case, key: str, sent: int, usual: int) -> bool:
    """Whether a low V_MAIN or V_MAMODE may be that of a slow route on which a train is in another mode.

    A V_MAIN below half of each V_STATIC is that of no route.
    """
    if case.first(MODES) is None or key not in ("v_main", "v_mamode") or sent >= usual:
        return False
    speeds, lowest = case.speeds, min(case.speeds, default=NATIONAL)
    is_low = usual < NATIONAL and lowest <= usual and (key != "v_main" or 2 * sent >= lowest)
    return sent in speeds or is_low

"""Places in words: in metres from the group, and in kilometres if the table has them."""
from __future__ import annotations

from itertools import accumulate, chain
from typing import Callable, Dict, Iterator, List, Mapping, NamedTuple, Optional, Sequence, Tuple

from balisekit.etcs import geometry
from balisekit.etcs.areas import NOW_OR_INFINITE, STRETCHES, stretches
from balisekit.etcs.geometry import DIRECTIONS, ELEMENT_KEYS, Kilometres, Origin, holds, kilometres
from balisekit.etcs.raw_packets import fields_of
from balisekit.etcs.variables import Form, Values, metres, unit_dm
from balisekit.tables.model import Group
from balisekit.tables.names import quoted

Notes = Iterator[Tuple[str, str]]
Place = Callable[[int], str]
"""How a place of whole decimetres is written."""
ORIGINS = {
    Origin.INFILL: "infill: counted from the group of packet 136",
    Origin.UNREAD: "counted from this group, or from the group of a packet 136 in a telegram that is not read",
}


class Passing(NamedTuple):
    """An aspect and direction in which a train gets a packet, and the group that its distances then count from."""

    aspect: str
    direction: str
    origin: Origin


class Here(NamedTuple):
    """What the distances of a telegram count from: its group, with these kilometres."""

    kilometres: Kilometres = Kilometres()
    passages: Mapping[int, Sequence[Passing]] = {}
    """By their indices in the telegram, the passages of packets that do not always count from the group."""

    def place(self, ways: Sequence[str]) -> Place:
        """How a place is written: "850 m, km 13.050", for both directions with the kilometre of either."""
        if self.kilometres.group is None or not ways:
            return metres
        words, first, last = self.kilometres.words, ways[0], ways[-1]

        def place(place_dm: int) -> str:
            km = words(place_dm, first)
            other = km if first == last else words(place_dm, last)
            if km == other:
                return f"{metres(place_dm)}, km {km}" if km else metres(place_dm)
            return f"{metres(place_dm)}, km {km} ({first}), km {other} ({last})"

        return place

    def notes(self, index: int, packet: Form) -> Dict[str, str]:
        """What balisekit works out of the packet with this index, by the path of the object within the packet.

        If passages differ, each note names the aspects and directions that it is true of.
        """
        if index not in self.passages:
            return _notes(packet, Origin.OWN, self.place([way for way in DIRECTIONS if holds(packet, way)]))
        cases = [
            (label, _notes(packet, origin, (self if origin is Origin.OWN else Here()).place(ways)))
            for label, origin, ways in _cases(self.passages[index])
        ]
        notes = {}
        for path in dict.fromkeys(path for _, known in cases for path in known):
            texts = {label: known[path] for label, known in cases if path in known}
            alike = len(texts) == len(cases) and len(set(texts.values())) == 1
            labelled = [text if alike else f"{label}: {text}" for label, text in texts.items()]
            notes[path] = labelled[0] if alike else "; ".join(labelled)
        return notes


def _cases(passages: Sequence[Passing]) -> Iterator[Tuple[str, Origin, Sequence[str]]]:
    """Passages of one origin in words, that origin, and their directions."""
    ways: Dict[str, Dict[Origin, Tuple[str, ...]]] = {}
    for aspect, direction, origin in passages:
        known = ways.setdefault(aspect, {})
        known[origin] = (*known.get(origin, ()), direction)
    alike: Dict[Tuple[Tuple[Origin, Tuple[str, ...]], ...], List[str]] = {}
    for aspect, known in ways.items():
        alike.setdefault(tuple(known.items()), []).append(aspect)
    for origins_of_them, aspects in alike.items():
        names = f"aspect{'s' if len(aspects) > 1 else ''} {', '.join(map(quoted, aspects))}" if len(alike) > 1 else ""
        for origin, directions in origins_of_them:
            yield f"{names} {directions[0] if len(origins_of_them) > 1 else ''}".strip(), origin, directions


class Identities:
    """The groups of a table by their identities: NID_C and NID_BG of the first balise, in the first aspect."""

    def __init__(self, groups: Sequence[Group], forms: Mapping[int, Form]) -> None:
        self.known: Dict[Tuple[int, int], Optional[Group]] = {}
        for group in groups:
            form = forms.get(group.aspects[0].rows[0].number)
            if form is not None:
                identity = form["nid_c"], form["nid_bg"]
                self.known[identity] = None if identity in self.known else group

    def group_of(self, message: Form) -> Optional[Group]:
        """The group of NID_LRBG, from which a message's distances count, if the table has exactly one with it."""
        return self.known.get((message.get("nid_c", -1), message.get("nid_bg", -1)))

    def here(self, message: Form) -> Here:
        """What the distances of a message count from."""
        group = self.group_of(message)
        return here_alone(message, Kilometres() if group is None else kilometres(group))


def here_alone(form: Form, where: Kilometres = Kilometres()) -> Here:
    """What the distances of a message count from, or of a telegram whose group is not known."""
    return Here(where, _passages([("", [(0, form)])]).get(0, {}))


def _notes(packet: Form, origin: Origin, place: Place) -> Dict[str, str]:
    """The notes of a packet whose distances have this origin. A raw packet needs a certain layout that it fits."""
    packet = fields_of(packet) or packet
    known = "body" not in packet and packet["nid_packet"] in NOTES
    notes = dict(NOTES[packet["nid_packet"]](packet, place)) if known else {}
    if origin in ORIGINS:
        notes[""] = "; ".join(filter(None, [ORIGINS[origin], notes.get("")]))
    return notes


def _authority_notes(packet: Form, place: Place) -> Notes:
    """Where sections end and timers stop, and where the authority ends."""
    extent = geometry.authority(geometry.Site(0, 0), packet)
    stops = list(extent.timer_stops)
    for index, (section, cut) in enumerate(zip(packet["sections"], extent.cuts)):
        yield f"/sections/{index}", f"to {place(cut)}"
        if "section_timer" in section:
            yield f"/sections/{index}/section_timer", f"stops at {place(stops.pop(0))}"
    if stops:
        yield "/section_timer", f"stops at {place(stops[0])}"
    if extent.end_timer is not None:
        yield "/end_timer", f"starts at {place(extent.end_timer)}"
    if extent.danger_point is not None:
        yield "/danger_point", f"at {place(extent.danger_point)}"
    if extent.overlap is not None and extent.overlap_timer is not None:
        yield "/overlap", f"ends at {place(extent.overlap)}; timer starts at {place(extent.overlap_timer)}"
    supervised = f"supervised location at {place(extent.supervised)}"
    yield "/l_endsection", f"end of the authority at {place(extent.end)}; {supervised}"


def _profile_notes(packet: Form, place: Place) -> Notes:
    """Where each element begins, and how far the profile reaches."""
    distance, value, mark = ELEMENT_KEYS[packet["nid_packet"]]
    unit, elements = unit_dm(packet), packet["elements"]
    places = [place(at * unit) for at in accumulate(element[distance] for element in elements)]
    end = next((index for index, element in enumerate(elements) if element[value] == mark), len(elements))
    for index, where in enumerate(places):
        behind = ", after the end" if index > end else ""
        yield f"/elements/{index}", f"{'at' if index == end else 'from'} {where}{behind}"
    yield "", f"reaches {places[end]}" if end < len(elements) else "no end mark: an open profile"


def _linking_notes(packet: Form, place: Place) -> Notes:
    """Where each group of a linking packet is."""
    for index, at in enumerate(accumulate(link["d_link"] for link in packet["links"])):
        yield f"/links/{index}", f"at {place(at * unit_dm(packet))}"


def _level_notes(packet: Form, place: Place) -> Notes:
    """Where the level changes."""
    if packet["d_leveltr"] != 32_767:
        yield "", f"at {place(packet['d_leveltr'] * unit_dm(packet))}"


def _stretch_notes(packet: Values, place: Place) -> Notes:
    """From where to where a restriction or a factor of adhesion holds, or the reversing area is."""
    for path, _, begin, end in stretches(packet):
        yield path, f"from {place(begin)}" + ("" if end is None else f" to {place(end)}")


def _mode_notes(packet: Values, place: Place) -> Notes:
    """Where each mode begins and ends, and from where on the driver acknowledges it."""
    unit = unit_dm(packet)
    for path, element, begin, end in stretches(packet):
        stretch = f"from {place(begin)}" + ("" if end is None else f" to {place(end)}")
        acknowledged = place(begin - element["l_ackmamode"] * unit)
        yield path, f"{stretch}; acknowledged from {acknowledged}" if element["l_ackmamode"] else stretch


def _point_notes(packet: Values, place: Place) -> Notes:
    """Where the RBC changes, the section of a repositioned authority ends, or initial states are resumed."""
    for path, at in _points(packet):
        yield "", f"at {place(at)}"


NOTES: Mapping[int, Callable[[Form, Place], Notes]] = {
    5: _linking_notes,
    **dict.fromkeys((12, 15), _authority_notes),
    **dict.fromkeys((21, 27), _profile_notes),
    41: _level_notes,
    **dict.fromkeys((65, 71, 138), _stretch_notes),
    68: lambda packet, place: chain(_stretch_notes(packet, place), _point_notes(packet, place)),
    80: _mode_notes,
    **dict.fromkeys((16, 131), _point_notes),
}


def packet_kilometres(index: int, packet: Form, here: Here) -> Dict[str, str]:
    """The kilometres of a packet's places, by the path of the object or value within the packet.

    There are none if the packet's distances count from another group in some passage. If a packet is for both
    directions and their kilometres differ, both are given.
    """
    ways = [way for way in DIRECTIONS if holds(packet, way)]
    packet = fields_of(packet) or packet
    is_known = "body" not in packet and packet["nid_packet"] in PLACES
    if here.kilometres.group is None or index in here.passages or not is_known:
        return {}
    found = {}
    for path, place in PLACES[packet["nid_packet"]](packet):
        known = {way: here.kilometres.words(place, way) for way in ways}
        texts = [f"{km} ({way})" for way, km in known.items() if km]
        found[path] = next(iter(known.values()), "") if len(set(known.values())) == 1 else ", ".join(texts)
    return found


def _authority_places(packet: Form) -> Iterator[Tuple[str, int]]:
    extent = geometry.authority(geometry.Site(0, 0), packet)
    stops = list(extent.timer_stops)
    for index, (section, cut) in enumerate(zip(packet["sections"], extent.cuts)):
        yield f"/sections/{index}", cut
        if "section_timer" in section:
            yield f"/sections/{index}/section_timer", stops.pop(0)
    yield "/l_endsection", extent.end
    parts = (
        ("/section_timer", stops[0] if stops else None),
        ("/end_timer", extent.end_timer),
        ("/danger_point", extent.danger_point),
        ("/overlap", extent.overlap),
        ("/overlap/d_startol", extent.overlap_timer),
    )
    yield from ((path, place) for path, place in parts if place is not None)


def _element_places(packet: Form) -> Iterator[Tuple[str, int]]:
    distance, _, _ = ELEMENT_KEYS[packet["nid_packet"]]
    unit = unit_dm(packet)
    for index, at in enumerate(accumulate(element[distance] for element in packet["elements"])):
        yield f"/elements/{index}", at * unit


def _link_places(packet: Form) -> Iterator[Tuple[str, int]]:
    for index, at in enumerate(accumulate(link["d_link"] for link in packet["links"])):
        yield f"/links/{index}", at * unit_dm(packet)


def _level_places(packet: Form) -> Iterator[Tuple[str, int]]:
    if packet["d_leveltr"] != 32_767:
        yield "/d_leveltr", packet["d_leveltr"] * unit_dm(packet)


POINTS: Mapping[int, str] = {16: "l_section", 68: "d_trackinit", 131: "d_rbctr"}
"""The keys of a distance without a length."""


def _points(packet: Values) -> Iterator[Tuple[str, int]]:
    key = POINTS[packet["nid_packet"]]
    if key in packet and (key, packet[key]) != ("d_rbctr", NOW_OR_INFINITE):
        yield f"/{key}", packet[key] * unit_dm(packet)


def _stretch_places(packet: Values) -> Iterator[Tuple[str, int]]:
    distance, length = STRETCHES[packet["nid_packet"]]
    for path, _, begin, end in stretches(packet):
        yield f"{path}/{distance}", begin
        yield from () if end is None else [(f"{path}/{length}", end)]


def _mode_places(packet: Values) -> Iterator[Tuple[str, int]]:
    yield from _stretch_places(packet)
    for path, element, begin, _ in stretches(packet):
        yield f"{path}/l_ackmamode", begin - element["l_ackmamode"] * unit_dm(packet)


PLACES: Mapping[int, Callable[[Form], Iterator[Tuple[str, int]]]] = {
    5: _link_places,
    **dict.fromkeys((12, 15), _authority_places),
    **dict.fromkeys((21, 27), _element_places),
    41: _level_places,
    **dict.fromkeys((65, 71, 138), _stretch_places),
    68: lambda packet: chain(_stretch_places(packet), _points(packet)),
    80: _mode_places,
    **dict.fromkeys((16, 131), _points),
}
"""The places of each kind of packet in decimetres from the group, by the path of what is there."""


def places_of_rows(group: Group, forms: Mapping[int, Form], where: Optional[Kilometres] = None) -> Dict[int, Here]:
    """What the distances of each row count from, by the row's number, in the order of the table.

    `where` has the kilometres of the group, if they are known already.
    """
    where, numbers = where or kilometres(group), sorted(group.places)
    passages: Mapping[int, Mapping[int, Sequence[Passing]]] = {}
    if not all(number in forms and not geometry.has_infill(forms[number]) for number in numbers):
        passages = _passages(
            [(aspect.name, [(row.number, forms.get(row.number)) for row in aspect.rows]) for aspect in group.aspects]
        )
    if not passages:
        return dict.fromkeys(numbers, Here(where))
    return {number: Here(where, passages.get(number, {})) for number in numbers}


def _passages(
    aspects: Sequence[Tuple[str, Sequence[Tuple[int, Optional[Form]]]]]
) -> Dict[int, Dict[int, Sequence[Passing]]]:
    """The passages of packets that do not always count from the group, by telegram and index."""
    passages_of: Dict[int, Dict[int, List[Passing]]] = {}
    for name, telegrams in aspects:
        for direction in DIRECTIONS:
            for site, origin in geometry.origins([form for _, form in telegrams], direction):
                packets = passages_of.setdefault(telegrams[site.balise][0], {})
                packets.setdefault(site.packet, []).append(Passing(name, direction, origin))
    return {
        number: {
            place: passages
            for place, passages in packets.items()
            if any(passage.origin is not Origin.OWN for passage in passages)
        }
        for number, packets in passages_of.items()
    }

"""Restrictions, conditions and areas that packets state, by the kinds of a plan: for the rule X10 and for `plan`."""
from __future__ import annotations

from typing import Any, Dict, Iterator, Mapping, NamedTuple, Sequence, Tuple

from balisekit.design.tracks import Area, Start, Tracks
from balisekit.etcs.raw_layouts import layout_of
from balisekit.etcs.raw_packets import content_of
from balisekit.etcs.variables import UNITS
from balisekit.rules.rule import Options
from balisekit.rules.telegrams import Packet
from balisekit.rules.track_plan.placed import PlacedPlan, Saying
from balisekit.tables.plan_things import KEYS
from balisekit.tables.plan_values import INFINITE, NO_END, Term, Terms

RESTRICTION, REVOCATION, REVERSING_AREA, REVERSING = 65, 66, 138, 139
STOP_IN_SR, STOP_IN_SH, BALISES_FOR_SH = 137, 132, 49
NUMBERS: Mapping[str, Sequence[int]] = {
    "tsr": (RESTRICTION,),
    "condition": (68,),
    "reversing": (REVERSING_AREA,),
    "repositioning": (16,),
    "crossing": (88,),
    "traction": (39,),
    "stop_in_sr": (STOP_IN_SR,),
    "shunting": (STOP_IN_SH, BALISES_FOR_SH),
}
"""The packets that have the place of each kind."""
BESIDE: Mapping[str, Sequence[int]] = {"reversing": (REVERSING,), "shunting": (STOP_IN_SH, BALISES_FOR_SH)}
"""Packets of the same message that say more of it."""
OWN_KEYS = {STOP_IN_SR: "q_srstop", STOP_IN_SH: "q_aspect", BALISES_FOR_SH: "groups"}
"""A key that the packet has if it fits its layout, of packets without Q_SCALE."""
KINDS = tuple(KEYS)
NOT_REVOCABLE, INFINITE_LENGTH = 255, 32_767
IDENTIFYING = {"tsr": "id", "condition": "type", "crossing": "id", "stop_in_sr": "stop", "shunting": "stop"}
"""The key that tells things of one kind from each other."""
NEAR = 500
"""In decimetres: what is as near to a row may be meant by it."""
FAR = 200_000
"""The same for two restrictions with one NID_TSR."""
FIELDS: Mapping[Tuple[str, str], str] = {
    ("tsr", "v"): "V_TSR",
    ("tsr", "id"): "NID_TSR",
    ("tsr", "front"): "Q_FRONT ends the speed at the front",
    ("condition", "type"): "M_TRACKCOND",
    ("reversing", "v"): "V_REVERSE",
    ("reversing", "distance"): "D_REVERSE",
    ("repositioning", "section"): "L_SECTION",
    ("crossing", "id"): "NID_LX",
    ("crossing", "v"): "V_LX",
    ("crossing", "protected"): "Q_LXSTATUS protects",
    ("crossing", "stop"): "Q_STOPLX stops trains",
    ("traction", "voltage"): "M_VOLTAGE",
    ("traction", "country"): "NID_CTRACTION",
    ("stop_in_sr", "stop"): "Q_SRSTOP stops trains",
    ("shunting", "stop"): "Q_ASPECT stops trains",
    ("shunting", "balises"): "the balises of packet 49",
}


class Thing(NamedTuple):
    """What a packet states: a restriction, a condition or an area."""

    kind: str
    saying: Saying
    begin: int
    """Its distance from the group, as that of its end."""
    end: int
    terms: Terms
    unit: int
    """That of its distances in decimetres."""
    lengths: int = 1
    """How many lengths its beginning is the sum of."""


def things_of(placed: PlacedPlan, kind: str) -> Iterator[Thing]:
    """All things of a kind, each packet once in each direction with what is beside it.

    A packet that does not fit its layout has none.
    """
    for saying in placed.sayings(*NUMBERS[kind], beside=BESIDE.get(kind, ())):
        fields = fields_of(saying.packet)
        if fields:
            yield from READERS[kind](saying, fields, UNITS[fields.get("q_scale", 0)])


def fields_of(packet: Packet) -> Any:
    """The fields of a packet by its layout, certain or not, or nothing if it does not fit it."""
    form: Any = packet.form
    if OWN_KEYS.get(packet.number, "q_scale") in form:
        return form
    content = content_of(packet.form)
    return content.values if content and not content.fault else None


def is_compared(kind: str, options: Options) -> bool:
    """Whether the layouts of a kind are certain, or compared with a print by the project."""
    layouts = ((number, layout_of(number)) for number in NUMBERS[kind])
    return all(number in options.layouts or layout and layout.is_certain for number, layout in layouts)


def _restrictions(saying: Saying, form: Any, unit: int) -> Iterator[Thing]:
    begin, number = form["d_tsr"] * unit, form["nid_tsr"]
    terms: Dict[str, Term] = {"v": form["v_tsr"], "id": None if number == NOT_REVOCABLE else number}
    terms["front"] = "yes" if form["q_front"] else "no"
    yield Thing("tsr", saying, begin, begin + form["l_tsr"] * unit, terms, unit)


def _conditions(saying: Saying, form: Any, unit: int) -> Iterator[Thing]:
    begin = 0
    for place, each in enumerate(form.get("elements", ()), 1):
        begin += each["d_trackcond"] * unit
        end = begin + each["l_trackcond"] * unit
        yield Thing("condition", saying, begin, end, {"type": each["m_trackcond"]}, unit, place)


def _areas(saying: Saying, form: Any, unit: int) -> Iterator[Thing]:
    begin = form["d_startreverse"] * unit
    terms: Dict[str, Term] = {}
    for packet in saying.passage.of(REVERSING):
        more: Any = packet.form
        if "d_reverse" in more:
            distance = more["d_reverse"]
            terms["v"] = more["v_reverse"]
            terms["distance"] = INFINITE if distance == INFINITE_LENGTH else distance * packet.unit
    yield Thing("reversing", saying, begin, begin + form["l_reversearea"] * unit, terms, unit)


def _sections(saying: Saying, form: Any, unit: int) -> Iterator[Thing]:
    yield Thing("repositioning", saying, 0, 0, {"section": form["l_section"] * unit}, unit)


def _crossings(saying: Saying, form: Any, unit: int) -> Iterator[Thing]:
    begin, is_open = form["d_lx"] * unit, form["q_lxstatus"]
    terms: Dict[str, Term] = {"id": form["nid_lx"], "protected": "no" if is_open else "yes"}
    terms.update({"v": form["v_lx"], "stop": "yes" if form["q_stoplx"] else "no"} if is_open else {})
    yield Thing("crossing", saying, begin, begin + form["l_lx"] * unit, terms, unit)


def _tractions(saying: Saying, form: Any, unit: int) -> Iterator[Thing]:
    begin = form["d_traction"] * unit
    country = {"country": form["nid_ctraction"]} if "nid_ctraction" in form else {}
    yield Thing("traction", saying, begin, begin, {"voltage": form["m_voltage"], **country}, unit)


def _stop_in_sr(saying: Saying, form: Any, unit: int) -> Iterator[Thing]:
    yield Thing("stop_in_sr", saying, 0, 0, {"stop": "no" if form["q_srstop"] else "yes"}, unit)


def _shunting(saying: Saying, form: Any, unit: int) -> Iterator[Thing]:
    """What both packets of a passage say of shunting, at the first of them."""
    passage = saying.passage
    terms: Dict[str, Term] = {}
    own = [each for each in passage.of(STOP_IN_SH, BALISES_FOR_SH) if OWN_KEYS[each.number] in each.form]
    if not own or own[0] is not saying.packet:
        return
    for each in own:
        more: Any = each.form
        if each.number == STOP_IN_SH:
            terms["stop"] = "no" if more["q_aspect"] else "yes"
        else:
            country = passage.group.group.identity[0] if passage.group and passage.group.group.identity else 0
            terms["balises"] = ",".join(_identities(country, more["groups"])) or NO_END
    yield Thing("shunting", saying, 0, 0, terms, unit)


def _identities(country: int, groups: Any) -> Iterator[str]:
    """The groups of a packet 49. One without NID_C has that of the one before it, or of the sender."""
    for each in groups:
        country = each.get("nid_c", country)
        yield f"{country}/{each['nid_bg']}"


READERS = {"tsr": _restrictions, "condition": _conditions, "reversing": _areas, "repositioning": _sections}
READERS.update(crossing=_crossings, traction=_tractions, stop_in_sr=_stop_in_sr, shunting=_shunting)


def meant(thing: Thing, tracks: Tracks, start: Start) -> Sequence[Area]:
    """The row that a thing states, or none: of its number, or else where it is, and of those the nearest one."""
    key = IDENTIFYING.get(thing.kind, "")
    own = thing.terms.get(key)
    reach = FAR if thing.kind == "tsr" and own is not None else NEAR
    areas = list(tracks.areas(thing.kind, start, thing.begin - reach, thing.end + reach))
    same = [each for each in areas if key in each.row.terms and each.row.terms[key] == own]
    near = same or [each for each in areas if _apart(thing, each) <= NEAR]
    return sorted(near, key=lambda each: abs(each.begin - thing.begin) + abs(each.end - thing.end))[:1]


def _apart(thing: Thing, area: Area) -> int:
    """How far a thing and a row are from each other. Nothing if they overlap."""
    return max(0, area.begin - thing.end, thing.begin - area.end)


def places_differ(thing: Thing, area: Area, allowed: Tuple[int, int]) -> Tuple[bool, bool]:
    """Whether a thing begins and ends elsewhere than its row. A group within it can only say that it has begun."""
    begin = max(area.begin, 0)
    return abs(thing.begin - begin) > allowed[0], abs(thing.end - area.end) > allowed[1]

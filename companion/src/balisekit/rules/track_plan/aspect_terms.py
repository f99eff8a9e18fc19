"""What telegrams give in an aspect, by the keys of a plan's row of kind `aspect`, for the rule X4 and for `plan`."""
from __future__ import annotations

from decimal import Decimal
from typing import Dict, Iterator, Mapping, Sequence, Tuple, cast

from balisekit.rules.telegrams import LINKING, Packet, allowance
from balisekit.tables.plan_values import INFINITE, LENGTHS, STEP, STOPS, TIMES, Term, Terms, term_words

AUTHORITY, MODE_PROFILE = 12, 80
FIELDS = {"v": "V_MAIN", "end": "the end of authority", "overlap": "the overlap", "release": "the release speed"}
FIELDS.update(danger="the danger point", loa="V_LOA", loa_time="T_LOA", end_time="T_ENDTIMER", overlap_time="T_OL")
FIELDS.update(end_start="D_ENDTIMERSTARTLOC", overlap_start="D_STARTOL", sections="the lengths of the sections:")
FIELDS.update(mode="the mode", stop="the modes in which trains are stopped:")
FIELDS.update(links="the groups of packet 5:")
NO_TIME_OUT, INFINITE_LENGTH = 1023, 32_767
STOPPING = {137: ("q_srstop", STOPS[0]), 132: ("q_aspect", STOPS[1])}
"""The packets that stop trains in one mode: the key that is 0 then, and the word of a plan."""


def terms_of(packet: Packet) -> Dict[str, Term]:
    """What a packet 12 gives, by the keys of a plan's aspect."""
    authority, overlap, danger = packet.authority, packet.form.get("overlap"), packet.form.get("danger_point")
    found: Dict[str, Term] = {"v": packet.form["v_main"], "end": authority.end}
    found["overlap"] = overlap["d_ol"] * packet.unit if overlap else None
    if overlap or danger:
        found["release"] = overlap["v_releaseol"] if overlap else danger["v_releasedp"] if danger else None
    return found


def all_terms_of(packet: Packet) -> Terms:
    """The same, and the keys that no plan has which is made of telegrams."""
    form, unit, found = packet.form, packet.unit, terms_of(packet)
    overlap, danger, timer = form.get("overlap"), form.get("danger_point"), form.get("end_timer")
    found["danger"] = danger["d_dp"] * unit if danger else None
    found["loa"] = form["end_speed"]
    found["end_start"] = timer["d_endtimerstartloc"] * unit if timer else None
    found["overlap_start"] = overlap["d_startol"] * unit if overlap else None
    found["sections"] = (*(each["l_section"] * unit for each in form["sections"]), form["l_endsection"] * unit)
    times = {"loa_time": form["end_timeout"]}
    times.update({"end_time": timer["t_endtimer"]} if timer else {})
    times.update({"overlap_time": overlap["t_ol"]} if overlap else {})
    return {**found, **{key: None if time == NO_TIME_OUT else time for key, time in times.items()}}


def other_terms_of(packets: Sequence[Packet], wanted: Terms) -> Iterator[Tuple[str, Term, int]]:
    """What these packets give by keys that need no packet 12, as far as they are wanted, each with its allowance."""
    if "mode" in wanted:
        yield ("mode", *_mode([each for each in packets if each.number == MODE_PROFILE], wanted["mode"]))
    if "stop" in wanted:
        stopping = [STOPPING[each.number] for each in packets if each.number in STOPPING and _stops(each)]
        yield "stop", ",".join(word for word in STOPS if word in [own for _, own in stopping]) or None, 0
    if "links" in wanted:
        links = [link for each in packets if each.number == LINKING for link in each.links if link.known]
        names = [f"{link.identity[0]}/{link.identity[1]}" for link in links]
        yield "links", len(names) if isinstance(wanted["links"], int) else ",".join(names), 0


def _stops(packet: Packet) -> bool:
    """Whether a packet 137 or 132 says "stop"."""
    return packet.form.get(STOPPING[packet.number][0]) == 0


def _mode(packets: Sequence[Packet], wanted: Term) -> Tuple[Term, int]:
    """The mode of a mode profile, as far as a plan states it, or in words how many modes there are."""
    elements = [
        (cast(Mapping[str, int], each), packet.unit) for packet in packets for each in packet.form.get("elements", [])
    ]
    if len(elements) != 1:
        return (f"{len(elements)} modes" if elements else None), 0
    element, unit = elements[0]
    length = element["l_mamode"]
    found = (
        element["m_mamode"],
        element["d_mamode"] * unit,
        INFINITE if length == INFINITE_LENGTH else length * unit,
        element["v_mamode"],
        element["l_ackmamode"] * unit,
    )
    if not isinstance(wanted, tuple):
        return found, unit
    return tuple(None if stated is None else own for own, stated in zip(found, wanted)), unit


def is_alike(key: str, said: Term, wanted: Term, allowed: int) -> bool:
    """Whether two values are the same. Lengths may differ by this much, in decimetres."""
    if isinstance(said, tuple) and isinstance(wanted, tuple):
        lengths = (1, 2, 4) if key == "mode" else range(len(said))
        pairs = enumerate(zip(said, wanted))
        return len(said) == len(wanted) and all(_near(*pair, allowed if at in lengths else 0) for at, pair in pairs)
    return _near(said, wanted, allowed)


def _near(said: Term, wanted: Term, allowed: int) -> bool:
    is_known = isinstance(said, int) and isinstance(wanted, int) and min(said, wanted) >= 0
    return said == wanted or is_known and abs(said - wanted) <= allowed  # type: ignore[operator]


def allowances(packet: Packet, more: int) -> Mapping[str, int]:
    """By how many decimetres the lengths of a packet 12 may differ."""
    own = more + allowance(packet)
    return {**dict.fromkeys((*LENGTHS, "sections"), own), "end": more + allowance(packet, packet.lengths)}


def values_of(key: str, said: Term, wanted: Term) -> Iterator[Tuple[str, Decimal]]:
    """The two values of a key as numbers, if they are numbers, by their names."""
    unit = "m" if key in LENGTHS else "s" if key in TIMES else "kmh"
    for name, value in ((f"{key}_{unit}", said), (f"plan_{key}_{unit}", wanted)):
        if isinstance(value, int) and key != "links":
            yield name, Decimal(value) / 10 if unit == "m" else Decimal(value * (STEP if unit == "kmh" else 1))


def both(key: str, said: Term, wanted: Term) -> str:
    """A key with both values in words."""
    verb = "" if FIELDS[key].endswith(":") else " is"
    return f"{FIELDS[key]}{verb} {term_words(key, said)}, and {term_words(key, wanted)}"

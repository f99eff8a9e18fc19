"""E3: authority that contradicts itself.

What it says. A packet 12 or 15 contains values that contradict each other, such as an overlap that ends before the
danger point. The rule rests on SUBSET-026, 3.8 and 7.4.2, and reports these cases:
- The L_SECTION of a section is 0.
- A D_SECTIONTIMERSTOPLOC is beyond the end of its section.
- D_ENDTIMERSTARTLOC or D_STARTOL is above the sum of all lengths, and this sum is above 0.
- D_OL is below D_DP, so the overlap ends before the danger point.
- V_MAIN is above 0, although the sum of all lengths is 0.
- V_LOA is greater than V_MAIN.
- T_SECTIONTIMER, T_ENDTIMER or T_OL is 0 s.
- T_LOA is 0 s, although V_LOA is above 0.
- T_LOA is not 1,023 (no time limit), although V_LOA is 0.
- There is a danger point or an overlap, although V_LOA is above 0 and T_LOA is 1,023. Then the authority never becomes
  an end of authority, which would need them.

Why it matters. At worst the train gets wrong information. A timer starts at a place that the train has already passed,
or stops at a place beyond its section. The train supervises an overlap that ends before its danger point. Or the train
might run at V_MAIN although its authority has no length.

Example. Before (`examples/meaning/mistakes/E3.csv`): at "green" of Signal 3 (km 13.003) the overlap has D_OL 200 m, and
the danger point has D_DP 250 m. After: the overlap ends at the danger point or beyond it, so D_OL is at least 250 m.

When it is a false alarm. The rule assumes that trains use each value. A template might fill in a section of 0 m, a
T_LOA, a danger point or an overlap that no train uses. The rule assumes that timers start and stop within their
lengths. A timer might stop later on purpose, or start in rear of the group. It assumes that a timer of 0 s is not meant
to end a section at once. It assumes that V_LOA restricts the train. A project might send a V_LOA above V_MAIN on
purpose, so that V_LOA does not restrict the train. The rule also assumes that a V_MAIN above 0 needs a length. A V_MAIN
above 0 without any length can be right at a signal at danger, often after a packet 136.

Usual cause. A length was changed, and the timers or the overlap were not. Or Q_SCALE was changed for some of the
values. Or a value of another signal was copied.

How to correct it. Correct the wrong value according to the design of the signal.

How to accept it. Name the value that no train uses, and the design that leaves it in the packet.

How sure. 88 %, by practice and memory of the standard.
"""
from __future__ import annotations

from decimal import Decimal
from typing import Any, Iterator, List

from balisekit.etcs.variables import Form, metres
from balisekit.rules.line import Line
from balisekit.rules.meaning.sent import Fault, distance, kmh, of_packets, speed
from balisekit.rules.rule import Options, Result, Rule, Urgency
from balisekit.rules.telegrams import AUTHORITIES, Packet
from balisekit.tables.names import ordinal

ENDLESS = 1023
"""The T_LOA that means that the limit of authority never runs out."""


def find(line: Line, options: Options) -> Result:
    """Looks at each packet 12 and 15."""
    return of_packets("E3", line, AUTHORITIES, _faults)


def _faults(packet: Packet) -> List[Fault]:
    form, unit, total = packet.form, packet.unit, packet.end
    timers = _timers(form)
    return [*_sections(form, unit), *_starts(form, unit, total), *timers, *_overlap(form, unit), *_limit(form, total)]


def _sections(form: Form, unit: int) -> Iterator[Fault]:
    """The lengths of the sections, and where their timers stop."""
    for place, section in enumerate(form["sections"]):
        name = f"the {ordinal(place)} section"
        if section["l_section"] == 0:
            yield Fault(f"L_SECTION of {name} is 0 m", {"l_section_m": distance(0)})
        else:
            yield from _stop(section, section["l_section"] * unit, f"{name}, L_SECTION", unit)
    yield from _stop(form, form["l_endsection"] * unit, "the end section, L_ENDSECTION", unit)


def _stop(form: Form, length: int, name: str, unit: int) -> Iterator[Fault]:
    stop = form["section_timer"]["d_sectiontimerstoploc"] * unit if "section_timer" in form else 0
    if stop > length:
        words = f"D_SECTIONTIMERSTOPLOC {metres(stop)} is beyond {name} {metres(length)}"
        yield Fault(words, {"d_sectiontimerstoploc_m": distance(stop), "length_m": distance(length)})


def _starts(form: Form, unit: int, total: int) -> Iterator[Fault]:
    """Where the timers of the end section and of the overlap start, which counts back from the end of authority."""
    starts = {}
    if "end_timer" in form:
        starts["D_ENDTIMERSTARTLOC"] = form["end_timer"]["d_endtimerstartloc"] * unit
    if "overlap" in form:
        starts["D_STARTOL"] = form["overlap"]["d_startol"] * unit
    for name, start in starts.items():
        if start > total > 0:
            words = f"{name} {metres(start)} is greater than the sum of all lengths, {metres(total)}"
            yield Fault(words, {f"{name.lower()}_m": distance(start), "lengths_m": distance(total)})


def _timers(form: Form) -> Iterator[Fault]:
    """Timers that run out as soon as they start."""
    sections: List[Any] = [form, *form["sections"]]
    timers = [("section_timer", "t_sectiontimer", each) for each in sections]
    for part, key, parent in (*timers, ("end_timer", "t_endtimer", form), ("overlap", "t_ol", form)):
        if part in parent and parent[part][key] == 0:
            yield Fault(f"{key.upper()} is 0 s", {f"{key}_s": Decimal()}, [(key, None)])
    if form["end_timeout"] == 0 and form["end_speed"]:
        yield Fault(f"T_LOA is 0 s, and V_LOA is {speed(form['end_speed'])}", {"t_loa_s": Decimal()})


def _overlap(form: Form, unit: int) -> Iterator[Fault]:
    if "overlap" not in form or "danger_point" not in form:
        return
    overlap, danger = form["overlap"]["d_ol"] * unit, form["danger_point"]["d_dp"] * unit
    if overlap < danger:
        words = f"the overlap ends before the danger point: D_OL {metres(overlap)}, D_DP {metres(danger)}"
        yield Fault(words, {"d_ol_m": distance(overlap), "d_dp_m": distance(danger)})


def _limit(form: Form, total: int) -> Iterator[Fault]:
    """V_LOA and T_LOA beside V_MAIN, the length, the danger point and the overlap."""
    main, limit = form.get("v_main"), form["end_speed"]
    if main is not None and limit > main:
        words = f"V_LOA {speed(limit)} is above V_MAIN {speed(main)}"
        yield Fault(words, {"v_loa_kmh": kmh(limit), "v_main_kmh": kmh(main)})
    if limit == 0 and form["end_timeout"] != ENDLESS:
        seconds = form["end_timeout"]
        yield Fault(f"T_LOA is {seconds} s and V_LOA is 0 km/h", {"t_loa_s": Decimal(seconds)})
    names = [name for key, name in (("danger_point", "a danger point"), ("overlap", "an overlap")) if key in form]
    if (
        limit > 0 and names and form["end_timeout"] == ENDLESS
    ):  # after T_LOA it is an end of authority, which needs them
        words = f"V_LOA is {speed(limit)}, and {' and '.join(names)} is there, which is for V_LOA 0 km/h"
        yield Fault(words, {"v_loa_kmh": kmh(limit)})
    if main and total == 0:
        words = f"V_MAIN is {speed(main)}, and the sum of all lengths is 0 m"
        yield Fault(words, {"v_main_kmh": kmh(main), "lengths_m": distance(0)})


RULE = Rule("E3", "authorities", __doc__ or "", find, Urgency.WRONG_INFORMATION)

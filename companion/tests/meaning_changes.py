"""Random changes of a sound line: one field, in a way that a rule covers, and what the remark must name."""
from __future__ import annotations

import copy
from collections import Counter
from random import Random
from typing import Any, Callable, Dict, List, NamedTuple, Sequence, Set, Tuple

from meaning_line import Form, Row
from meaning_random import RandomLine, random_line

from balisekit.etcs.variables import metres
from balisekit.tables.names import ordinal

UNIT_DM = (1, 10, 100)
PROFILES = (21, 27)


class Absent(Exception):
    """The line has nothing that can be changed so."""


class Changed(NamedTuple):
    """A changed line."""

    rule: str
    """The rule that covers the change."""
    kind: str
    rows: List[Row]
    numbers: Set[int]
    """The rows that were changed, as in the table."""
    words: Sequence[str]
    """A remark has the value if its sentence has one of these words."""


class Case:
    """A sound line whose rows can be changed."""

    def __init__(self, random: Random, line: RandomLine) -> None:
        self.random, self.line = random, line
        self.rows = line.rows
        self.numbers: Set[int] = set()

    def note(self, *rows: Row) -> None:
        """These rows are changed."""
        self.numbers |= {number for number, row in enumerate(self.rows, 2) if any(row is each for each in rows)}

    def pick(self, some: Sequence[Any]) -> Any:
        """One of several things."""
        if not some:
            raise Absent
        return self.random.choice(some)

    def packet(self, number: int, kind: str = "", fits: Callable[[Form], object] = bool) -> Tuple[Row, Form]:
        """A packet with this number of a group of a kind, and its row, which is noted."""
        found = [
            (row, each)
            for row in self.rows
            if f"{kind} " in row.group
            for each in row.form["packets"]
            if each["nid_packet"] == number and fits(each)
        ]
        row, form = self.pick(found)
        self.note(row)
        return row, form

    def of_group(self, row: Row, number: int) -> List[Tuple[Row, Form]]:
        """The packets with this number in all rows of the group of a row."""
        same = [each for each in self.rows if each.group == row.group]
        return [(one, each) for one in same for each in one.form["packets"] if each["nid_packet"] == number]

    def aspects(self, least: int, signals: int = 1) -> List[Row]:
        """The rows of the aspects of a signal with at least `least` of them, the stop aspect first.

        At least `signals` signals have the same aspects.
        """
        groups: Dict[str, List[Row]] = {}
        for row in self.rows:
            if row.aspect not in ("", "*") and "Signal " in row.group:
                groups.setdefault(row.group, []).append(row)
        counts = Counter(len(rows) for rows in groups.values())
        fit = [rows for rows in groups.values() if len(rows) >= least and counts[len(rows)] >= signals]
        found: List[Row] = self.pick(fit)
        return found


def length(form: Form, value: int) -> str:
    """A distance of a packet in words."""
    return metres(value * UNIT_DM[form["q_scale"]])


def end_of(form: Form) -> int:
    """The sum of all lengths of a packet 12."""
    return int(sum(each["l_section"] for each in form["sections"]) + form["l_endsection"])


def own(form: Form, key: str, mark: int) -> List[Form]:
    """The elements before the end mark."""
    return [each for each in form["elements"] if each[key] != mark]


def moving(form: Form) -> bool:
    """Whether an authority has a V_MAIN above 0."""
    return bool(form["v_main"])


def danger_point(case: Case) -> List[str]:
    """E3: the danger point is beyond the overlap."""
    _, form = case.packet(12, fits=moving)
    distance = form["overlap"]["d_ol"] + case.random.randint(1, 20)
    form["danger_point"] = {"d_dp": distance, "v_releasedp": 6}
    return [length(form, distance)]


def distance_0(case: Case) -> List[str]:
    """E4: the distance of an element is missing."""
    number = case.random.choice(PROFILES)
    key = {21: "d_gradient", 27: "d_static"}[number]
    _, form = case.packet(number, fits=lambda each: len(each["elements"]) > 2)
    place = case.random.randrange(1, len(form["elements"]))
    form["elements"][place][key] = 0
    return [f"{key.upper()} of the {ordinal(place)} element is 0 m"]


def too_long(case: Case) -> List[str]:
    """E1: a packet that is kept as bits is longer than its layout."""
    _, form = case.packet(case.pick([65, 136, 137]))
    form["l_packet"] += 8
    form["body"] += "00" if len(form["body"]) * 4 < form["l_packet"] - 23 else ""
    return ["L_PACKET"]


def both_directions(case: Case) -> List[str]:
    """E5: a packet with distances is for both directions."""
    _, form = case.packet(case.random.choice((5, 12, *PROFILES)))
    form["q_dir"] = 2
    return ["Q_DIR 2"]


def linked_twice(case: Case) -> List[str]:
    """E6: an aspect has the packet 5 of the fixed balise too."""
    row, form = case.packet(5, "Signal")
    other = case.pick([each for each in case.rows if each.group == row.group and each.balise == 1])
    other.form["packets"].append(copy.deepcopy(form))
    case.note(other)
    return ["2 packets 5 (linking)"]


def left_out(case: Case) -> List[str]:
    """E8: an aspect lacks a packet."""
    row = case.pick(case.aspects(4)[1:])
    number = case.random.choice(PROFILES)
    row.form["packets"] = [each for each in row.form["packets"] if each["nid_packet"] != number]
    case.note(row)
    return [f"packet {number} ("]


def stop_left_out(case: Case) -> List[str]:
    """E8: a stop aspect lacks its packet 137."""
    row, form = case.packet(137, "Signal")
    if sum(each["nid_packet"] == 137 for one in case.rows if "Signal" in one.group for each in one.form["packets"]) < 5:
        raise Absent
    row.form["packets"].remove(form)
    return ["without a packet 137"]


def red_goes(case: Case) -> List[str]:
    """E9: a stop aspect has a V_MAIN."""
    row = case.aspects(2, 5)[0]
    form = next(each for each in row.form["packets"] if each["nid_packet"] == 12)
    form["v_main"] = case.random.randint(4, 32)
    case.note(row)
    return [f"{form['v_main'] * 5} km/h"]


def end_moved(case: Case) -> List[str]:
    """E12: L_ENDSECTION by 60 to 100 m."""
    _, form = case.packet(12, "Signal", lambda each: each["v_main"])
    unit = UNIT_DM[form["q_scale"]]
    form["l_endsection"] += case.random.choice((1, -1)) * case.random.randrange(600, 1000, 100) // unit
    end = end_of(form)
    return [length(form, end), length(form, end + form["overlap"]["d_ol"])]


def gradient_turned(case: Case) -> List[str]:
    """E13: the sign of a gradient in all aspects of a group."""
    row, form = case.packet(21, fits=lambda each: 6 <= each["elements"][0]["g_a"] < 255)
    number = form["elements"][0]["g_a"]
    for each, packet in case.of_group(row, 21):
        first = packet["elements"][0]
        if each.balise == row.balise and first["g_a"] == number:
            first["q_gdir"] = 1 - first["q_gdir"]
            case.note(each)
    sign, word = ("+", "uphill") if form["elements"][0]["q_gdir"] else ("-", "downhill")
    return [f"{sign}{number} ", f"Q_GDIR of the first element is {word}", f"{word} in packet 21"]


def scale_changed(case: Case) -> List[str]:
    """E13: Q_SCALE of the speed profiles of a group."""
    row, _ = case.packet(27, "Signal", lambda each: each["q_scale"])
    words = ["10 times"]
    for each, packet in case.of_group(row, 27):
        packet["q_scale"] -= packet["q_scale"] > 0
        case.note(each)
        words.append(f"reaches {length(packet, sum(element['d_static'] for element in packet['elements']))} ")
    return words


def infill_field(case: Case) -> List[str]:
    """E15: a field of an infill."""
    number = case.random.choice((12, *PROFILES))
    row, form = case.packet(number, "Infill", lambda each: each["nid_packet"] != 12 or each["v_main"])
    if number == 12:
        form["v_main"] -= 1
        return [f"{form['v_main'] * 5} km/h"]
    key, mark = ("g_a", 255) if number == 21 else ("v_static", 127)
    element = case.pick(own(form, key, mark))
    element[key] += 1
    sign = "" if number == 27 or not element[key] else "+" if element["q_gdir"] else "-"
    return [f"is {sign}{element[key]} " if number == 21 else f"is {element[key] * 5} km/h"]


def single_turned(case: Case) -> List[str]:
    """E16: Q_LINKORIENTATION of one link to a single balise that several packets name."""
    single = {each.number for track in case.line.tracks for each in track.sites if each.kind == "Single"}
    named = [(row, each) for row in case.rows for each in row.form["packets"] if each["nid_packet"] == 5]
    links = [(row, link) for row, each in named for link in each["links"] if link["nid_bg"] in single]
    row, link = case.pick(links)
    if sum(each["nid_bg"] == link["nid_bg"] for _, each in links) < 2:
        raise Absent
    link["q_linkorientation"] = 1 - link["q_linkorientation"]
    case.note(*(own_row for own_row, each in links if each["nid_bg"] == link["nid_bg"]))
    return ["Q_LINKORIENTATION"]


def single_unnamed(case: Case) -> List[str]:
    """E16: no packet 5 names a single balise."""
    row, _ = case.packet(27, "Single")
    number, cut = row.form["nid_bg"], 0
    for each in case.rows:
        for packet in each.form["packets"]:
            links = packet.get("links", [])
            place = next((place for place, link in enumerate(links) if link["nid_bg"] == number), None)
            if place is not None and place + 1 < len(links):
                links[place + 1]["d_link"] += links.pop(place)["d_link"]
                cut += 1
            elif place is not None:
                links.pop()
        each.form["packets"] = [packet for packet in each.form["packets"] if packet.get("links", True)]
    if not cut:
        raise Absent
    return ["no packet 5 names it"]


def links_cut(case: Case) -> List[str]:
    """E17: all packets 5 have their first link only."""
    cut = set()
    for row in case.rows:
        for each in row.form["packets"]:
            if len(each.get("links", ())) > 1:
                del each["links"][1:]
                cut.add(row.group)
    if not cut:
        raise Absent
    case.note(*(row for row in case.rows if row.group in cut))
    return ["are without links"]


def announcement_moved(case: Case) -> List[str]:
    """E18: D_LEVELTR of an announcement by 50 m."""
    row, form = case.packet(41, "Signal")
    form["d_leveltr"] += 500 // UNIT_DM[form["q_scale"]]
    (site,) = [each for track in case.line.tracks for each in track.sites if each.number == row.form["nid_bg"]]
    place = row.place * 10 + site.way * form["d_leveltr"] * UNIT_DM[form["q_scale"]]
    return [f"the level transition is at km {place // 10_000}.{f'{place % 10_000:04}'.rstrip('0')}"]


def way_turned(case: Case) -> List[str]:
    """E19: the signs of all gradients of one direction."""
    track = case.pick([track for track in case.line.tracks if len(track.ways) == 2])
    way = case.pick(track.ways)
    changed = 0
    for site in track.sites:
        for row in case.rows if site.way in (way, 0) else ():
            for each in row.form["packets"] if row.form["nid_bg"] == site.number else ():
                target = site.signal or site
                direction = track.direction(site, way)
                if each["nid_packet"] == 21 and each["q_dir"] == direction and target:
                    for element in own(each, "g_a", 255):
                        element["q_gdir"] = 1 - element["q_gdir"] if element["g_a"] else 1
                        changed += element["g_a"] > 1
                    case.note(row)
    if not changed:
        raise Absent
    return ["per mille for the other direction"]


def named_again(case: Case) -> List[str]:
    """E20: NID_BG is copied from the link before."""
    _, form = case.packet(5, fits=lambda each: len(each["links"]) > 1)
    place = case.random.randrange(1, len(form["links"]))
    form["links"][place]["nid_bg"] = form["links"][place - 1]["nid_bg"]
    return ["link does", f"group {form['links'][place]['nid_bg']}"]


def accuracy_changed(case: Case) -> List[str]:
    """E20: Q_LOCACC or Q_LINKREACTION of a link to a group that others name too."""
    key = case.random.choice(("q_locacc", "q_linkreaction"))
    named = [(row, each) for row in case.rows for each in row.form["packets"] if each["nid_packet"] == 5]
    links = [(row, each["q_dir"], link) for row, each in named for link in each["links"]]
    row, direction, link = case.pick(links)
    same = [one for one in links if one[2]["nid_bg"] == link["nid_bg"] and one[0].track == row.track]
    if len(same) < 3 or any(one[0].form["nid_bg"] > link["nid_bg"] for one in same) and key == "q_linkreaction":
        raise Absent
    link[key] += 3 if key == "q_locacc" else -1
    case.note(row)
    return [f"{key.upper()} is {link[key]}", f"{key.upper()} "]


def session_left_out(case: Case) -> List[str]:
    """E21: no packet 42 for level 2."""
    row, form = case.packet(42)
    row.form["packets"].remove(form)
    if any(each["nid_packet"] == 42 for one in case.rows for each in one.form["packets"]):
        raise Absent
    case.note(*(one for one in case.rows for each in one.form["packets"] if each["nid_packet"] in (41, 46)))
    return ["packet 42"]


def restriction_changed(case: Case) -> List[str]:
    """E22: the last bit of V_TSR of one of two packets 65 with one number."""
    row, form = case.packet(65)
    behind = -(form["l_packet"] - 23) % 8
    body = int(form["body"], 16) ^ 1 << behind
    form["body"] = f"{body:0{len(form['body'])}x}"
    case.note(*(one for one in case.rows for each in one.form["packets"] if each["nid_packet"] == 65))
    return [f"with {(body >> behind & 127) * 5} km/h"]


CHANGES: Sequence[Callable[[Case], List[str]]] = (
    *(too_long, danger_point, distance_0, both_directions, linked_twice, left_out, stop_left_out, red_goes, end_moved),
    *(gradient_turned, scale_changed, infill_field, single_turned, single_unnamed, links_cut, announcement_moved),
    *(way_turned, named_again, accuracy_changed, session_left_out, restriction_changed),
)
"""Without those that the stored scores of certificates have at 100 %."""


def changed(seed: int, most: int) -> Changed:
    """A sound line with one change. The kinds take turns."""
    change = CHANGES[seed % len(CHANGES)]
    for attempt in range(200):
        case = Case(Random(f"change {seed} {attempt}"), random_line(seed * 1000 + attempt, most))
        try:
            words = change(case)
        except Absent:
            continue
        rule = (change.__doc__ or "").split(":")[0]
        return Changed(rule, change.__name__, case.rows, case.numbers, words)
    raise AssertionError(f"no line for {change.__name__}")

"""Lines with one mistake each for the rules from E12 on, as teams make them: `examples/meaning/mistakes`.

`python3 companion/tests/meaning_mistakes.py` writes each table, and beside it what
`check TABLE --only E --rules all --folded` writes after its first lines.
"""
from __future__ import annotations

from typing import Any, Dict, List

from meaning_line import Line, Row, Site, change, packet, table, telegram
from meaning_mistakes_of_groups import (
    FIXED,
    GREEN,
    MISTAKES_FOLDER,
    RED,
    SHORT,
    YELLOW,
    Change,
    Mistake,
    answer,
    messages_of,
    raw,
)

from balisekit.engine.program import Program


def restriction(number: int, distance: int, length: int, speed: int) -> Any:
    """A packet 65 in metres and km/h."""
    return raw(65, f"01{number:08b}{distance:015b}{length:015b}0{speed // 5:07b}")


def session(q_rbc: int = 1, number: str = "", centre: int = 1, direction: int = 1) -> Any:
    """A packet 42 with a telephone number, or the short number."""
    return raw(42, f"{q_rbc}{352:010b}{centre:014b}{digits(number)}0", direction)


def digits(number: str) -> str:
    """A telephone number as the bits of NID_RADIO."""
    return "".join(f"{int(each, 16):04b}" for each in number.ljust(16, "f"))


def condition(distance: int, length: int = 300, kind: int = 9) -> Any:
    """A packet 68 in metres."""
    return raw(68, f"010{distance:015b}{length:015b}{kind:04b}{0:05b}")


def on_sight(begin: int, speed: int = 40, length: int = 1500, mode: int = 0) -> Any:
    """A packet 80 in metres and km/h. The mode is on sight unless another M_MAMODE is given."""
    return raw(80, f"01{begin:015b}{mode:02b}{speed // 5:07b}{length:015b}{0:015b}0{0:05b}")


def announcement_by_radio(distance: int = 1000, centre: int = 2, number: str = "") -> Any:
    """A packet 131: an order to change the radio block centre."""
    return raw(131, f"01{distance:015b}{352:010b}{centre:014b}{digits(number)}0")


def unknown_ahead(distance: int) -> Change:
    """Signal 3 announces a group that is not known yet."""

    def announce(rows: List[Row]) -> None:
        linking = change(rows, "Signal 3", FIXED, 5)
        linking["links"] = [{**linking["links"][0], "nid_bg": 16_383, "d_link": distance}]

    return announce


def movement_authority(number: int) -> Any:
    """A message 3 with the profiles of yellow of signal 3, whose authority counts from a group."""
    own: Any = {"nid_packet": 15, "q_dir": 1, "q_scale": 1, **authority(1500)}
    del own["v_main"]
    packets = [own, *(change(SHORT.rows, "Signal 3", YELLOW, each) for each in (21, 27))]
    return {"nid_message": 3, "t_train": 100, "m_ack": 0, "nid_c": 352, "nid_bg": number, "packets": packets}


def form_of(rows: List[Row], group: str, aspect: str) -> Any:
    """The telegram of an aspect of a group."""
    return next(row.form for row in rows if (row.group, row.aspect) == (group, aspect))


def set_in(group: str, aspect: str, number: int, **values: Any) -> Change:
    """Sets values in a packet."""
    return lambda rows: change(rows, group, aspect, number).update(values)


def added(group: str, aspect: str, key: str, number: int, difference: int) -> Change:
    """Adds to a number of a packet."""

    def add(rows: List[Row]) -> None:
        form = change(rows, group, aspect, number)
        form[key] += difference

    return add


def set_in_item(group: str, aspect: str, number: int, items: str, place: int, **values: Any) -> Change:
    """Sets values in an item of a list of a packet."""
    return lambda rows: change(rows, group, aspect, number)[items][place].update(values)


def with_packet(group: str, aspect: str, *packets: Any) -> Change:
    """Adds packets to a telegram."""
    return lambda rows: form_of(rows, group, aspect)["packets"].extend(packets)


def all_of(*changes: Change) -> Change:
    """Several changes, one after the other."""

    def change_all(rows: List[Row]) -> None:
        for each in changes:
            each(rows)

    return change_all


def gradients_turned(rows: List[Row]) -> None:
    """The gradients of signal 3 have the opposite sign."""
    for aspect in (RED, YELLOW, GREEN):
        for element in change(rows, "Signal 3", aspect, 21)["elements"]:
            element["q_gdir"] = 1 - element["q_gdir"] if 0 < element["g_a"] < 255 else element["q_gdir"]


def distances_in_tenths(rows: List[Row]) -> None:
    """Signal 3 has the speeds of all aspects with a wrong Q_SCALE."""
    for aspect in (RED, YELLOW, GREEN):
        change(rows, "Signal 3", aspect, 27)["q_scale"] = 0


def renamed(group: str, aspect: str, name: str) -> Change:
    """An aspect of a group has another name."""

    def rename(rows: List[Row]) -> None:
        form_of(rows, group, aspect)
        for row in rows:
            row.aspect = name if (row.group, row.aspect) == (group, aspect) else row.aspect

    return rename


def links_shortened(rows: List[Row]) -> None:
    """The packets 5 of all signals name one group only."""
    for row in rows:
        for each in row.form["packets"]:
            if each["nid_packet"] == 5:
                del each["links"][1:]


def reverse_gradients_turned(rows: List[Row]) -> None:
    """All gradients of the signals of the other direction have the opposite sign."""
    for row in rows:
        for each in row.form["packets"] if row.group.startswith("Signal R") else ():
            for element in each["elements"] if each["nid_packet"] == 21 else ():
                element["q_gdir"] = 1 - element["q_gdir"] if 0 < element["g_a"] < 255 else element["q_gdir"]


def single_balise(rows: List[Row], named: bool = True, orientation: int = 1, position: int = 400) -> None:
    """A single balise in rear of signal 5 with a packet for one direction, which signals 3 and 4 name."""
    place = next(row.place for row in rows if row.group == "Signal 5") - position
    site = Site("Single", 7000, place, 1, 1)
    form = telegram(site, 0, 255, packet(site, 12, **authority(position)))
    form["n_total"] = 0
    at = next(index for index, row in enumerate(rows) if row.group == "Signal 5")
    rows.insert(at, Row("Single", "Single 1", place, "", 0, form))
    for signal in ("Signal 3", "Signal 4") if named else ():
        links = change(rows, signal, FIXED, 5)["links"]
        before = next(index for index, link in enumerate(links) if link["nid_bg"] == 5)
        turned = orientation if signal == "Signal 4" else 1
        new = {**links[before], "nid_bg": 7000, "q_linkorientation": turned}
        new["d_link"] -= position
        links[before]["d_link"] = position
        links.insert(before, new)


def authority(length: int) -> Any:
    """The fields of a packet 12 that stops after `length` metres."""
    return {"v_main": 0, "end_speed": 0, "end_timeout": 1023, "sections": [], "l_endsection": length}


INFILL = Line(signals=6, infill=(3,))
BORDER = Line(signals=6, border=0)
LEVEL_2 = Line(signals=6, border=3)
BOTH = Line(signals=6, both=True)
RESTRICTED = all_of(
    with_packet("Signal 2", FIXED, restriction(7, 2500, 500, 40)),
    with_packet("Signal 3", FIXED, restriction(7, 1000, 500, 40)),
)
SESSIONS = all_of(
    with_packet("Signal 1", FIXED, session(1, "0123456789")),
    with_packet("Signal 2", FIXED, session(1, "0123456789")),
    with_packet("Signal 3", FIXED, session(1, "0123465789")),
)

MISTAKES: Dict[str, Mistake] = {
    "E12": Mistake(SHORT, added("Signal 3", GREEN, "l_endsection", 12, 50)),
    "E13": Mistake(SHORT, gradients_turned),
    "E14": Mistake(SHORT, lambda rows: change(rows, "Signal 4", FIXED, 5)["links"][0].update(d_link=1504)),
    "E15": Mistake(INFILL, added("Infill of Signal 4", YELLOW, "l_endsection", 12, -150)),
    "E16": Mistake(SHORT, lambda rows: single_balise(rows, named=False)),
    "E17": Mistake(SHORT, links_shortened),
    "E18": Mistake(BORDER, added("Signal 4", FIXED, "d_leveltr", 41, 50)),
    "E19": Mistake(BOTH, reverse_gradients_turned),
    "E20": Mistake(SHORT, set_in_item("Signal 4", FIXED, 5, "links", 0, q_locacc=12)),
    "E21": Mistake(LEVEL_2, with_packet("Signal 1", FIXED, session(0))),
    "E22": Mistake(SHORT, all_of(RESTRICTED, with_packet("Signal 4", FIXED, restriction(7, 100, 500, 40)))),
    "E23": Mistake(SHORT, lambda rows: form_of(rows, "Signal 4", FIXED).update(m_version=32)),
    "E24": Mistake(SHORT, lambda rows: form_of(rows, "Signal 3", RED)["packets"].clear()),
    "E25": Mistake(SHORT, lambda rows: change(rows, "Signal 3", GREEN, 12)["overlap"].update(d_ol=150)),
    "E26": Mistake(SHORT, with_packet("Signal 3", YELLOW, on_sight(1600))),
    "E27": Mistake(SHORT, SESSIONS),
    "E28": Mistake(SHORT, with_packet("Signal 3", FIXED, session(direction=0))),
    "E29": Mistake(
        SHORT, all_of(with_packet("Signal 3", FIXED, condition(2500)), with_packet("Signal 4", FIXED, condition(1150)))
    ),
    "E30": Mistake(SHORT, unknown_ahead(1000)),
    "E31": Mistake(SHORT, lambda rows: None, (movement_authority(3), movement_authority(77))),
    "E32": Mistake(SHORT, renamed("Signal 3", YELLOW, "yelow")),
}
"""A realistic mistake for each rule."""


if __name__ == "__main__":
    MISTAKES_FOLDER.mkdir(exist_ok=True)
    _program = Program.find()
    for _name, _mistake in MISTAKES.items():
        (MISTAKES_FOLDER / f"{_name}.csv").write_text(table(_program, _mistake.rows), "utf-8")
        if _mistake.messages:
            messages_of(_name).write_text(_mistake.lines(_program), "utf-8")
        (MISTAKES_FOLDER / f"{_name}.txt").write_text(answer(_name), "utf-8")

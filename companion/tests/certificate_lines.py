"""Makes two lines for the stored scores of certificates: one with a station, and one with a border to level 2."""
from __future__ import annotations

from dataclasses import replace
from typing import Iterator, List, Sequence, Tuple

from meaning_line import OVERLAP, SPACING, Form, Line, Row, Site, packet, telegram
from meaning_mistakes_of_groups import raw

ENTRY, EXIT, BEYOND = "Signal 4", "Signal 5", "Signal 6"
"""The signals before, in and after the station, 1,500 m apart."""
SIDE = "Signal 5 of track 2"
SWITCH, SLOW = 300, 40
"""How far the switches are from their signals, in metres, and the speed on their diverging routes in km/h."""
LEVEL_2 = 3
"""M_LEVELTR of level 2."""


def level_2_border() -> List[Row]:
    """A line with signals before and after a border to level 2.

    The signal before the one that announces the border first orders the session. The border also has the order for
    trains that are in another level than those that it announces to.
    """
    rows = Line(signals=8, border=LEVEL_2).rows
    session = raw(42, f"1{352:010b}{1:014b}{'1' * 64}0")
    conditional = raw(46, f"{LEVEL_2:03b}{0:05b}")
    _first(rows, "Signal 3").form["packets"].append(session)
    _first(rows, "Border").form["packets"].append(conditional)
    return rows


def station() -> List[Row]:
    """A line with a station of two tracks, which its entry signal leads to by different aspects.

    An aspect of the entry signal lets trains run on sight on an occupied track. The routes through the station have
    sections, a timer of the last one and slow switches, and all signals have danger points. Before the station there
    is a temporary restriction, which a later group revokes, and a non stopping area.
    """
    line = Line(signals=8)
    rows = [replace(row, track="1") for row in line.rows]
    sites = {site.name: site for site in line.sites}
    entry, beyond = sites[ENTRY], sites[BEYOND]
    main = sites[EXIT]
    side = replace(main, name=SIDE, number=52)
    for row in rows:
        if row.group == ENTRY and row.aspect in ("yellow", "green"):
            _with_sections(row.form, main.place - entry.place)
    _first(rows, "Signal 2").form["packets"] += [_restriction(700, 200), _non_stopping(1500 + SWITCH, 200)]
    _first(rows, EXIT).form["packets"].append(raw(66, f"{7:08b}"))
    linking = _links_of_each_aspect(rows, entry)
    rows += [
        *_of_route(line, entry, "diverging", 4, [_linking(entry, side)], side.place - entry.place),
        _on_sight(rows, linking),
        *_side_signal(line, side, beyond),
    ]
    for row in rows:
        _with_danger_point(row)
    return sorted(rows, key=lambda row: (row.place - row.balise * SPACING, row.track, row.group, row.balise))


def _first(rows: Sequence[Row], group: str) -> Row:
    """The balise of a group that is not controlled."""
    return next(row for row in rows if row.group == group and row.balise == 0)


def _with_sections(form: Form, length: int) -> None:
    """An authority gets a section up to the first switch, and a timer of the last section."""
    authority = next(each for each in form["packets"] if each["nid_packet"] == 12)
    authority["sections"] = [
        {"l_section": SWITCH, "section_timer": {"t_sectiontimer": 300, "d_sectiontimerstoploc": 0}}
    ]
    authority["l_endsection"] -= SWITCH
    authority["end_timer"] = {"t_endtimer": 60, "d_endtimerstartloc": 200}


def _with_danger_point(row: Row) -> None:
    """The authority of a signal that is not at danger gets a danger point."""
    for each in row.form["packets"]:
        if each["nid_packet"] == 12 and "overlap" in each:
            each["danger_point"] = {"d_dp": 50, "v_releasedp": 4}


def _restriction(distance: int, length: int) -> Form:
    """A temporary restriction to 60 km/h."""
    return raw(65, f"01{7:08b}{distance:015b}{length:015b}0{12:07b}")


def _non_stopping(distance: int, length: int) -> Form:
    """An area in which a train should not stop."""
    return raw(68, f"010{distance:015b}{length:015b}{0:04b}{0:05b}")


def _linking(site: Site, *others: Site) -> Form:
    """The links of a route."""
    places = [site.place, *(other.place for other in others)]
    links = [
        {"d_link": place - before, "nid_bg": other.number, "q_linkorientation": 1, "q_linkreaction": 1, "q_locacc": 5}
        for before, place, other in zip(places, places[1:], others)
    ]
    return packet(site, 5, links=links)


def _links_of_each_aspect(rows: Sequence[Row], site: Site) -> Form:
    """The packet 5 that the fixed balise of a signal had. Now its aspects have it, because they have several routes."""
    fixed = _first(rows, site.name).form["packets"]
    (linking,) = [each for each in fixed if each["nid_packet"] == 5]
    fixed.remove(linking)
    for row in rows:
        if row.group == site.name and row.balise == 1:
            row.form["packets"].insert(0, linking)
    return linking


def _of_route(line: Line, site: Site, aspect: str, counter: int, packets: Sequence[Form], length: int) -> Iterator[Row]:
    """The aspect of a signal for a route over a diverging switch."""
    reach = length + OVERLAP
    speeds = _speeds(site, (0, 16), (SWITCH, SLOW // 5), (200, 12), (reach - SWITCH - 200, 127))
    authority, gradients, _ = line._packets(site, 1, 1)
    authority = {**authority, "v_main": 16, "l_endsection": length}
    form = telegram(site, 1, counter, *packets, authority, gradients, speeds)
    _with_sections(form, length)
    yield _row(site, 1, aspect, form)


def _speeds(site: Site, *steps: Tuple[int, int]) -> Form:
    """A packet 27 of distances, each from the one before it, with V_STATIC."""
    elements = [{"d_static": at, "v_static": speed, "q_front": 0, "differences": []} for at, speed in steps]
    return packet(site, 27, elements=elements)


def _row(site: Site, balise: int, aspect: str, form: Form, track: str = "1") -> Row:
    """A row of the table."""
    return Row(site.name, f"{site.name} {balise + 1}", site.place + SPACING * balise, aspect, balise, form, track)


def _on_sight(rows: Sequence[Row], linking: Form) -> Row:
    """An aspect of the entry signal by which a train runs on sight from the switch on."""
    yellow = next(row for row in rows if (row.group, row.aspect) == (ENTRY, "yellow"))
    length = 1500 - SWITCH
    mode = raw(80, f"01{SWITCH:015b}00{6:07b}{length:015b}{100:015b}0{0:05b}")
    form = {**yellow.form, "m_mcount": 5, "packets": [*yellow.form["packets"], mode]}
    return replace(yellow, aspect="on sight", form=form)


def _side_signal(line: Line, side: Site, beyond: Site) -> Iterator[Row]:
    """The exit signal of the second track."""
    yield _row(side, 0, "*", telegram(side, 0, 255, _linking(side, beyond)), "2")
    authority, gradients, _ = line._packets(side, 0, 1)
    yield _row(side, 1, "red", telegram(side, 1, 1, authority, gradients, _speeds(side, (0, 16), (OVERLAP, 127))), "2")
    for row in _of_route(line, side, "diverging", 2, [], beyond.place - side.place):
        yield replace(row, track="2")

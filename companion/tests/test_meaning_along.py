"""The rules E12 to E25, but for E24: whether groups agree about one line, by its kilometres."""
from __future__ import annotations

import copy
from decimal import Decimal
from functools import partial
from pathlib import Path
from typing import Any, Callable, Dict, List, Optional, Sequence, Tuple

import meaning_line
import meaning_mistakes
import pytest
from conftest import Run
from meaning_line import Line, Row, Site, change, table, telegram as line_telegram
from meaning_mistakes import (
    BORDER,
    BOTH,
    INFILL,
    LEVEL_2,
    MISTAKES,
    RESTRICTED,
    added,
    all_of,
    announcement_by_radio,
    authority,
    condition,
    form_of,
    on_sight,
    restriction,
    session,
    set_in,
    set_in_item,
    single_balise,
    with_packet,
)
from meaning_mistakes_of_groups import FIXED, GREEN, MISTAKES_FOLDER, RED, SHORT, YELLOW, Change, answer, raw, telegram
from test_meaning import written

from balisekit.engine.program import Program
from balisekit.present.links_text import is_usual
from balisekit.rules import checking, links, meaning
from balisekit.rules.chainage import Jump
from balisekit.rules.line import Line as LineOfTable
from balisekit.rules.meaning import (
    e22_temporary_restriction,
    ends_between,
    lacking_infill,
    message_profiles,
    opposite_restrictions,
)
from balisekit.rules.rule import ALL, Options, Remark, Result, Urgency
from balisekit.tables import messages as messages_file, plan as plan_file, reader

ASKED = Options(asked=frozenset({ALL}))
CORRECTED = ("agree", "are gone")
"""How an entry ends that stands for others."""
RULES = {rule.name: rule for rule in (*links.RULES, *meaning.RULES)}


def only(keeps: Callable[[Row], bool]) -> Change:
    """Removes the other rows."""

    def remove(rows: List[Row]) -> None:
        rows[:] = [row for row in rows if keeps(row)]

    return remove


def unchanged(rows: List[Row]) -> None:
    """Changes nothing."""


class Found:
    """What one rule finds of a changed line."""

    def __init__(self, program: Program, path: Path) -> None:
        self.program, self.path = program, path / "t.csv"

    def result(self, rule: str, line: Line, change_: Change = unchanged, options: Options = ASKED) -> Result:
        path = written(self.program, self.path, line, change_)
        made = LineOfTable.of(checking.check(self.program, reader.read(str(path))), options.jumps)
        return RULES[rule].find(made, options)

    def __call__(
        self, rule: str, line: Line, change_: Change = unchanged, options: Options = ASKED
    ) -> Sequence[Remark]:
        return self.result(rule, line, change_, options).found

    def plan(self, *rows: str) -> Options:
        """The options with a track plan of these rows."""
        path = self.path.with_name("plan.csv")
        path.write_text("kind,km,km_to,track,way,value,name\n" + "\n".join(rows) + "\n", "utf-8")
        return Options(asked=ASKED.asked, plan=plan_file.read(str(path)))


@pytest.fixture
def found(program: Program, tmp_path: Path) -> Found:
    return Found(program, tmp_path)


def rows_named(remark: Remark) -> Tuple[int, ...]:
    """The rows of a remark, those of the other group last."""
    row = remark.location.row
    return (*(remark.rows or ([row.number] if row else [])), *remark.others)


@pytest.mark.parametrize("name", MISTAKES)
def test_examples(program: Program, name: str) -> None:
    """Each table is made of its mistake, and gets what is written beside it, at least from its own rule."""
    path = MISTAKES_FOLDER / f"{name}.csv"
    assert path.read_text("utf-8") == table(program, MISTAKES[name].rows)
    said = answer(name)
    assert said == path.with_suffix(".txt").read_text("utf-8") and f": {name}: " in said


WITH_SESSION = all_of(
    with_packet("Signal 1", FIXED, session()), with_packet("Signal 2", FIXED, announcement_by_radio())
)


def on_track_2(rows: List[Row]) -> None:
    """A second track beside the first one, with its own groups, speeds and gradients, whose kilometres fall."""
    for row in rows:
        row.track = "1"
    for row in Line(signals=6, way=-1, seed=2).rows:
        row.form["nid_bg"] += 100
        for each in row.form["packets"]:
            for link in each.get("links", ()):
                link["nid_bg"] += 100
        rows.append(row_on_track_2(row))


def row_on_track_2(row: Row) -> Row:
    name = f"{row.group} of track 2"
    return Row(name, f"{name} {row.balise}", row.place, row.aspect, row.balise, row.form, "2")


@pytest.mark.uncovered
@pytest.mark.parametrize(
    "line, change_",
    [
        (
            LEVEL_2,
            all_of(with_packet("Signal 1", FIXED, session()), with_packet("Signal 2", FIXED, announcement_by_radio())),
        ),
        (SHORT, on_track_2),
        (SHORT, RESTRICTED),
        (SHORT, single_balise),
    ],
)
def test_sound_lines(found: Found, line: Line, change_: Change) -> None:
    """Level 2 with packets 42 and 131, two tracks, a restriction that two groups give, and a single balise."""
    for rule in meaning.RULES:
        assert not found(rule.name, line, change_), rule.name


@pytest.mark.parametrize(
    "group, aspect, metres, differences",
    [
        ("Signal 3", GREEN, 5, [5]),
        ("Signal 3", GREEN, 4, []),
        ("Signal 3", GREEN, -500, [1000]),
        ("Signal 4", YELLOW, -50, [-50]),
    ],
)
def test_e12(found: Found, group: str, aspect: str, metres: int, differences: List[int]) -> None:
    """An end that is far from each group is compared with those that lead to the group before it."""
    made = found("E12", SHORT, added(group, aspect, "l_endsection", 12, metres))
    assert [each.values["end_m"] - each.values["other_end_m"] for each in made] == differences
    for each in made:
        assert each.location.row and (each.location.row.group, each.location.row.aspect) == (group, aspect)


def test_e12_counts_equal_ends(found: Found) -> None:
    """One that is within the tolerance of the others is at another kilometre."""
    line = Line(signals=6, aspects=(RED, YELLOW, GREEN, "blue"))
    apart = added("Signal 3", GREEN, "l_endsection", 12, 60)
    (one,) = found("E12", line, apart)
    (other,) = found("E12", line, all_of(apart, added("Signal 4", YELLOW, "l_endsection", 12, 1)))
    assert "; 2 others that lead to " in one.sentence and "; 1 other that leads to " in other.sentence


def without_links(rows: List[Row]) -> None:
    for row in rows:
        row.form["packets"] = [each for each in row.form["packets"] if each["nid_packet"] != 5]


def test_e12_without_links(found: Found) -> None:
    """Ends within 20 m are compared, and one more than 50 m from a group is remarked unless no group is near."""
    longer = [
        all_of(without_links, added("Signal 3", GREEN, "l_endsection", 12, metres)) for metres in (15, 30, 60, 300)
    ]
    made = [found("E12", SHORT, each) for each in longer]
    assert [len(each) for each in made] == [1, 0, 1, 0]
    assert "the nearest group by the kilometres, Signal 5 (km 16.000), is 60 m from there" in made[2][0].sentence


@pytest.mark.parametrize("has_km, link, count", [(True, 5, 1), (False, 5, 0), (False, 99, 0), (False, None, 1)])
def test_e12_of_a_group_without_a_kilometre(
    program: Program, tmp_path: Path, has_km: bool, link: Optional[int], count: int
) -> None:
    """The authority ends at it, by the packet 5 that names it. Another group is 90 m from there."""
    rows = SHORT.rows
    added("Signal 3", GREEN, "l_endsection", 12, 60)(rows)
    links = change(rows, "Signal 3", FIXED, 5)["links"]
    links[1].update(d_link=1560, nid_bg=link)
    links[:] = [each for each in links if each["nid_bg"] is not None]
    for row in [row for row in rows if row.group == "Signal 5" and row.aspect in (FIXED, RED)]:
        form: Any = {**row.form, "nid_bg": 800, "m_mcount": 255, "packets": []}
        rows.append(Row("Mark", f"Mark {row.balise}", row.place + 150, "", row.balise, form))
    head, *lines = table(program, rows).splitlines()
    cells = [line.split(",") for line in lines]
    unplaced = [",".join([*row[:2], "" if row[0] == "Signal 5" else row[2], *row[3:]]) for row in cells]
    path = tmp_path / "t.csv"
    path.write_text("\n".join([head, *(lines if has_km else unplaced)]) + "\n", "utf-8")
    remarks = RULES["E12"].find(LineOfTable.of(checking.check(program, reader.read(str(path)))), ASKED).found
    assert len(remarks) == count, [each.sentence for each in remarks]


def shorter(signal: int, metres: int = 700) -> Change:
    """The authority of yellow ends so far in rear of the next signal."""
    return added(f"Signal {signal}", YELLOW, "l_endsection", 12, -metres)


def test_e12_between_groups(found: Found) -> None:
    """No other authority leads there, and those of the other signals end at signals."""
    (one,) = found("E12", SHORT, shorter(3))
    assert one.sentence == (
        "the authority ends at km 13.800 (800 m from the group) by L_SECTION and L_ENDSECTION, between groups: the "
        "nearest one by the kilometres, Signal 4 (km 14.500), is 700 m from there, and those of 4 others end at groups"
    )
    assert one.location.row and (one.location.row.group, one.location.row.aspect) == ("Signal 3", YELLOW)
    limit = set_in("Signal 3", YELLOW, 12, end_speed=8)
    assert not found("E12", SHORT, all_of(shorter(3), limit))


def test_e12_between_groups_by_several_signals(found: Found) -> None:
    """Two of 15 are reported, and more are counted, as those whose packets 5 show no group beyond."""
    line, three = Line(signals=15), [shorter(number) for number in (3, 6, 9)]
    assert len(found("E12", line, all_of(*three[:2]))) == 2

    def links_to_the_end(rows: List[Row]) -> None:
        links = change(rows, "Signal 3", FIXED, 5)["links"]
        links[:] = [{**links[0], "d_link": 300, "nid_bg": 99}]

    for change_, why, count, beyond in (
        (all_of(*three), ends_between.BETWEEN, 3, 3),
        (all_of(three[0], links_to_the_end), ends_between.NOT_BEYOND, 1, 3),
        (all_of(three[0], without_links), ends_between.NOT_BEYOND, 1, 1),  # (without links two are compared there)
    ):
        result = found.result("E12", line, change_)
        assert not result.found and result.not_looked_at == {why: count, BEYOND["E12"]: beyond}


BEYOND = {
    "E12": "beyond the last group that gives an authority",
    "E17": "beyond the last linked group of the track",
    "E25": "beyond the last group of the track",
}


@pytest.mark.parametrize("rule", BEYOND)
def test_ends_far_beyond_the_line_are_not_as_of_most_lines(found: Found, rule: str) -> None:
    """An authority that leads 30 km beyond the last signal is counted with a reason that sound lines do not have."""
    near, line = BEYOND[rule], Line()
    far = f"farther {near} than any other authority is long"
    sound = found.result(rule, line)
    assert dict(sound.not_looked_at) == {near: 3} and is_usual(sound)
    result = found.result(rule, line, set_in("Signal 15", GREEN, 12, l_endsection=30_000))
    assert dict(result.not_looked_at) == {near: 2, far: 1} and not is_usual(result) and not result.found
    assert result.looked_at == sound.looked_at == 27


def test_e17_beyond_the_line_if_links_lead_there(found: Found) -> None:
    """Groups beyond the table might be linked to the end: then nothing of the authority is left out."""

    def linked(rows: List[Row]) -> None:
        links = change(rows, "Signal 14", FIXED, 5)["links"]
        links += [{**links[0], "d_link": 1500, "nid_bg": number} for number in (98, 99)]

    assert not found.result("E17", Line(), linked).not_looked_at


def test_e12_is_silent_beyond_a_point(found: Found) -> None:
    options = found.plan("point,15.000,,,rising,,W1")
    longer = added("Signal 3", GREEN, "l_endsection", 12, 100)
    assert found("E12", SHORT, longer) and not found("E12", SHORT, longer, options)


def test_e12_of_messages(found: Found, program: Program) -> None:
    """A packet 15 of a message counts from its group. Its end may be away from all groups."""
    path = written(program, found.path, SHORT)
    for metres, count in ((1500, 0), (1550, 1)):
        packet_15 = {"nid_packet": 15, "q_dir": 1, "q_scale": 1, **authority(metres)}
        del packet_15["v_main"]
        links = change(SHORT.rows, "Signal 3", FIXED, 5)
        message: Any = {"nid_message": 3, "t_train": 1, "m_ack": 0, "nid_c": 352, "nid_bg": 3}
        (text,) = program.encode([{**message, "packets": [packet_15, links]}], radio=True)
        radio = path.with_name("m.txt")
        radio.write_text(f"{text.line};M\n", "utf-8")
        checked = checking.check(program, reader.read(str(path)), messages_file.read(str(radio)))
        made = RULES["E12"].find(LineOfTable.of(checked), Options()).found
        assert len(made) == count
    assert made[0].location.message and "ends at km 14.550 (1550 m from the group)" in made[0].sentence


def elements(aspects: Sequence[str], number: int, place: int, **values: Any) -> Change:
    """Sets values in an element of signal 3 in these aspects."""
    return all_of(*(set_in_item("Signal 3", aspect, number, "elements", place, **values) for aspect in aspects))


EVERY = (RED, YELLOW, GREEN)


def test_e13_gradients(found: Found) -> None:
    """5 per mille apart is no difference; a difference from both sides is one remark on the group."""
    value = change(SHORT.rows, "Signal 3", RED, 21)["elements"][0]
    near, apart = (elements(EVERY, 21, 0, g_a=value["g_a"] - less) for less in (5, 6))
    assert not found("E13", SHORT, near)
    (one,) = found("E13", SHORT, apart)
    assert rows_named(one)[:3] == (11, 12, 13) and one.values["g_a"] - one.values["other_g_a"] in (6, -6)
    assert "G_A is" in one.sentence and "per mille from km 13.000 to km " in one.sentence


def test_e13_speeds_in_kmh(found: Found) -> None:
    line = Line(signals=6)
    line.speeds = [(0, 100)]
    made = found("E13", line, elements(EVERY, 27, 0, v_static=100))
    assert [rows_named(each)[:3] for each in made] == [(11, 12, 13)]
    assert ": is V_STATIC in km/h instead of steps of 5 km/h?" in made[0].sentence
    assert "V_STATIC is 500 km/h from km 13.000 to km " in made[0].sentence


def test_e13_scale(found: Found) -> None:
    line = Line(signals=6)
    line.speeds = [(0, 100), (13_400, 120), (14_600, 140), (15_200, 80)]
    made = found("E13", line, meaning_mistakes.distances_in_tenths)
    assert len(made) == 1 and "10 times too small, by Q_SCALE?" in made[0].sentence


def test_e13_passes_over_short_stretches(found: Found) -> None:
    line = Line(signals=6)
    line.speeds = [(0, 100), (13_400, 120)]
    for metres, count in ((4, 0), (40, 1)):
        moved = all_of(
            *(set_in_item("Signal 3", each, 27, "elements", 1, d_static=400 + metres) for each in (YELLOW, GREEN))
        )
        assert len(found("E13", line, moved)) == count, metres
    assert not found("E13", line, moved, found.plan("point,12.000,,,rising,,W1", "point,13.100,,,rising,,W2"))


def test_e13_compares_aspects_that_name_the_group(found: Found) -> None:
    """An aspect for another route, whose packet 5 names other groups, is not compared."""

    def route(rows: List[Row]) -> None:
        fixed, green = form_of(rows, "Signal 2", FIXED), form_of(rows, "Signal 2", GREEN)
        (link,) = [each for each in fixed["packets"] if each["nid_packet"] == 5]
        fixed["packets"].remove(link)
        form_of(rows, "Signal 2", YELLOW)["packets"].append(link)
        for element in change(rows, "Signal 2", GREEN, 27)["elements"]:
            element["v_static"] = min(element["v_static"] + 1, 127)
        if names_it:
            green["packets"].append(link)

    names_it = False
    assert not found("E13", SHORT, route)
    names_it = True
    assert found("E13", SHORT, route)


def links_of(group: str, place: int, metres: int) -> Change:
    def move(rows: List[Row]) -> None:
        change(rows, group, FIXED, 5)["links"][place]["d_link"] += metres

    return move


def test_e14(found: Found) -> None:
    """The tolerance itself, and what is beyond Q_LOCACC and rounding, are none."""
    made = [found("E14", SHORT, links_of("Signal 4", 0, metres)) for metres in (2, 3, 7, 8, -4)]
    assert [len(each) for each in made] == [0, 1, 1, 0, 1]
    stated = ASKED._replace(tolerance=Decimal(1), tolerance_of_places=Decimal(1))
    assert not found("E14", SHORT, links_of("Signal 4", 0, 3), stated)
    assert made[1][0].values == {"metres_by_d_link": Decimal(1503), "metres_by_kilometres": Decimal(1500)}
    assert [len(found("L2", SHORT, links_of("Signal 4", 0, metres))) for metres in (7, 8)] == [0, 1]
    assert "by the kilometres it is 1503 m to balise 1 of Signal 5 (km 16.000), row 19" in made[1][0].sentence


def test_e14_beyond_q_locacc(found: Found) -> None:
    """L2 allows `--tolerance` too, and counts from the sender: both differences here are above Q_LOCACC, 5 m."""
    both = all_of(links_of("Signal 4", 0, 5), links_of("Signal 4", 1, -10))
    tolerant = ASKED._replace(tolerance=Decimal(3), tolerance_of_places=Decimal(3))
    for changed, options, difference in ((both, ASKED, 10), (links_of("Signal 4", 0, 7), tolerant, 7)):
        assert not found("L2", SHORT, changed, options)
        *_, one = found("E14", SHORT, changed, options)
        assert f"they differ by {difference} m, which is above Q_LOCACC (5 m) and above the tolerance" in one.sentence


def shifted(from_place: int, metres: int) -> Change:
    """The kilometres jump."""

    def shift(rows: List[Row]) -> None:
        for row in rows:
            row.place += metres if row.place > from_place else 0

    return shift


def test_jumps(found: Found) -> None:
    """A jump is one remark, of L2 if it is greater than Q_LOCACC. One that is given is none."""
    for metres, rule, other in ((4, "E14", "L2"), (50, "L2", "E14")):
        (one,) = found(rule, BOTH, shifted(14_000, metres))
        km = f"14.5{metres:02}"
        assert f"kilometre jump? All links over the stretch from km 13.600 to km {km}" in one.sentence
        assert f"are {metres} m shorter by D_LINK than by the kilometres" in one.sentence and len(one.others) > 1
        assert not found(other, BOTH, shifted(14_000, metres))
        given = Options(jumps=(Jump(Decimal("14"), Decimal("14") + Decimal(metres) / 1000),))
        assert not found("L2", BOTH, shifted(14_000, metres), given)
        assert not found("E14", BOTH, shifted(14_000, metres), given)


def test_e14_asks_for_no_jump_if_links_differ_by_rounding_only(found: Found) -> None:
    """With a Q_SCALE of 10 m both links to Signal 4 are 4 m short. Two wrong links elsewhere are named alone."""

    def rounded(rows: List[Row]) -> None:
        for row in rows:
            row.place += 4 if row.group == "Signal 4" else 0
            for each in row.form["packets"]:
                if each["nid_packet"] == 5:
                    each["q_scale"] = 2
                    for link in each["links"]:
                        link["d_link"] //= 10

    wrong = all_of(rounded, links_of("Signal 1", 0, 2), links_of("Signal 5", 0, 2))
    assert not found("E14", SHORT, rounded)
    assert not [one for one in found("E14", SHORT, wrong) if "jump" in one.sentence]


def test_links_over_a_jump_vary_by_two_metres(found: Found) -> None:
    """If they vary by more there is no jump, and each of them is a remark."""

    def changed(metres: int) -> Change:
        def change(rows: List[Row]) -> None:
            shifted(14_000, 50)(rows)
            links_of("Signal 3", 0, metres)(rows)

        return change

    (jump,) = found("L2", BOTH, changed(2))
    each = found("L2", BOTH, changed(3))
    assert "kilometre jump?" in jump.sentence and len(each) == len(jump.others) + 1
    assert not [one for one in each if "jump" in one.sentence]


def test_e14_of_many_links_is_a_note(found: Found) -> None:
    def longer(rows: List[Row]) -> None:
        for row in rows:
            for each in row.form["packets"]:
                for number, link in enumerate(each.get("links", ())):
                    link["d_link"] += 4 + (number + row.form["nid_bg"]) % 2

    result = found.result("E14", SHORT, longer)
    assert not result.found and len(result.notes) == 1
    assert result.notes[0].startswith("E14: ") and "links differ from the kilometres by more than" in result.notes[0]


def infill(group: int, country: str = "0") -> Change:
    """The infill names another group."""

    def name(rows: List[Row]) -> None:
        for aspect in EVERY:
            (packet,) = [each for each in form_of(rows, SITE, aspect)["packets"] if each["nid_packet"] == 136]
            packet.update(raw(136, f"{country}{group:014b}"))

    return name


SITE = "Infill of Signal 4"


def test_e15(found: Found) -> None:
    (one,) = found("E15", INFILL, set_in(SITE, GREEN, 12, v_main=10))
    assert one.sentence.startswith("V_MAIN is 50 km/h in the infill, and ") and rows_named(one) == (17, 21)
    (one,) = found("E15", INFILL, set_in_item(SITE, GREEN, 21, "elements", 0, g_a=39))
    assert one.sentence.startswith("G_A of the first element is ")
    (one,) = found(
        "E15", INFILL, set_in(SITE, GREEN, 12, overlap={"d_startol": 100, "t_ol": 60, "d_ol": 190, "v_releaseol": 126})
    )
    assert one.sentence.startswith("D_OL is 190 m in the infill, and 200 m in packet 12 of Signal 4")


def test_e15_of_an_empty_aspect(found: Found) -> None:
    """Infill says nothing at an aspect at which trains may run. At red that is a design, and at two it may be."""

    def emptied(*aspects: str) -> Change:
        def empty(rows: List[Row]) -> None:
            for aspect in aspects:
                form_of(rows, SITE, aspect)["packets"] = []

        return empty

    (one,) = found("E15", INFILL, emptied(YELLOW))
    assert one.sentence == (
        'the aspect "yellow" has no packet 136, which all other aspects have, although V_MAIN is 140 km/h [28] in '
        'packet 12 of Signal 4 (km 14.500), aspect "yellow", row 20'
    )
    assert list(one.rows) == [16] and list(one.aspects) == [YELLOW]
    assert not found("E15", INFILL, emptied(RED))
    for aspects, count in (((YELLOW, GREEN), 2), ((RED, YELLOW), 1)):
        result = found.result("E15", INFILL, emptied(*aspects))
        assert not result.found and dict(result.not_looked_at) == {lacking_infill.NO_REFERENCE: count}

    def of_the_signal(rows: List[Row]) -> None:
        form_of(rows, "Signal 4", YELLOW)["packets"] = []

    result = found.result("E15", INFILL, all_of(emptied(YELLOW), of_the_signal))
    assert not result.found and not result.not_looked_at


@pytest.mark.parametrize("g_a, beside, said", [(0, 0, ""), (5, 5, "Q_GDIR"), (0, 5, "G_A"), (5, 0, "G_A")])
def test_e15_of_gradients_without_a_sign(found: Found, g_a: int, beside: int, said: str) -> None:
    """A gradient of 0 has none: Q_GDIR is not compared."""
    own = set_in_item(SITE, GREEN, 21, "elements", 0, g_a=g_a, q_gdir=0)
    made = found("E15", INFILL, all_of(own, set_in_item("Signal 4", GREEN, 21, "elements", 0, g_a=beside, q_gdir=1)))
    assert [each.sentence.split(" of ")[0] for each in made] == ([said] if said else [])


@pytest.mark.parametrize("sign", [0, 1])
def test_e15_of_end_marks(found: Found, sign: int) -> None:
    """G_A 255 is no gradient."""
    assert not found("E15", INFILL, set_in_item(SITE, GREEN, 21, "elements", -1, q_gdir=sign))


def test_e15_of_aspects_named_after_a_distant_signal(found: Found) -> None:
    """As the page says: at yellow the infill has what its signal has at red."""
    names = {RED: YELLOW, YELLOW: GREEN, GREEN: "clear"}

    def distant(rows: List[Row]) -> None:
        for row in rows:
            row.aspect = names.get(row.aspect, row.aspect) if row.group == SITE else row.aspect

    assert len(found("E15", INFILL, distant)) == 2


def test_e15_compares_metres(found: Found) -> None:
    """Another Q_SCALE, and a packet that only one of them has, are passed over."""

    def rescaled(rows: List[Row]) -> None:
        packet = change(rows, SITE, GREEN, 27)
        packet["q_scale"] = 0
        for element in packet["elements"]:
            element["d_static"] *= 10

    assert not found("E15", INFILL, rescaled)
    profile = change(INFILL.rows, SITE, RED, 21)
    assert not found("E15", INFILL, lambda rows: form_of(rows, SITE, RED)["packets"].remove(profile))


@pytest.mark.parametrize("length, timer, count", [(500, {}, 0), (501, {}, 1), (500, {"section_timer": 1}, 1)])
def test_e15_of_merged_sections(found: Found, length: int, timer: Dict[str, int], count: int) -> None:
    """Without timers the sum of the sections counts."""
    timers: Any = {key: {"t_sectiontimer": 60, "d_sectiontimerstoploc": 100} for key in timer}
    end = change(INFILL.rows, SITE, GREEN, 12)["l_endsection"]
    sections: Any = [{"l_section": length, **timers}]
    split = set_in(SITE, GREEN, 12, sections=sections, l_endsection=end - 500)
    assert len(found("E15", INFILL, split)) == count


@pytest.mark.parametrize("linked", [True, False])
def test_e15_of_a_signal_without_kilometres(program: Program, tmp_path: Path, linked: bool) -> None:
    """It is laid for the other direction. Q_LINKORIENTATION shows that, if a packet 5 names it."""
    rows = INFILL.rows
    for row in rows:
        for each in row.form["packets"]:
            if row.group == "Signal 4":
                each["q_dir"] = 1 - each["q_dir"]
            for link in each.get("links", ()):
                link["q_linkorientation"] ^= link["nid_bg"] == 4
        if not linked:
            row.form["packets"] = [each for each in row.form["packets"] if each["nid_packet"] != 5]
    other = {number: change(rows, "Signal 4", GREEN, number) for number in (12, 21, 27)}
    contrary = [{**copy.deepcopy(each), "q_dir": 1 - each["q_dir"]} for each in other.values()]
    contrary[0]["v_main"] = 7
    form_of(rows, "Signal 4", GREEN)["packets"].extend(contrary)
    head, *lines = table(program, rows).splitlines()
    cells = [line.split(",") for line in lines]
    made = [",".join([*row[:2], "" if row[0] == "Signal 4" else row[2], *row[3:]]) for row in cells]
    path = tmp_path / "t.csv"
    path.write_text("\n".join([head, *made]) + "\n", "utf-8")
    checked = checking.check(program, reader.read(str(path)))
    remarks = RULES["E15"].find(LineOfTable.of(checked), ASKED).found
    assert not checked.refused and len(remarks) == (0 if linked else 1), [each.sentence for each in remarks]


def test_e15_of_a_balise_without_direction(found: Found) -> None:
    """It is a single balise that no link names. It faces its signal, whose group is laid for the other direction."""

    def single(rows: List[Row]) -> None:
        rows[:] = [row for row in rows if row.group != SITE or row.balise == 1]
        for row in rows:
            if row.group == SITE:
                row.form.update(n_pig=0, n_total=0)
                row.balise = 0
            elif row.group == "Signal 4":
                row.place = 29_000 - row.place
            for packet in row.form["packets"]:
                if row.group == "Signal 4":
                    packet["q_dir"] = 1 - packet["q_dir"]
                if packet["nid_packet"] == 5:
                    packet["links"] = [each for each in packet["links"] if each["nid_bg"] < 5000]

    assert not found("E15", INFILL, single)
    (one,) = found("E15", INFILL, all_of(single, set_in(SITE, GREEN, 12, v_main=10)))
    assert one.sentence.startswith("V_MAIN is 50 km/h in the infill, and ")


def test_e15_names_a_group_ahead(found: Found) -> None:
    (one,) = found("E15", INFILL, infill(2))
    assert (
        one.sentence
        == "packet 136 names Signal 2 (km 11.500), which is 2600 m in rear of Infill of Signal 4 (km 14.100)"
    )
    (one,) = found("E15", INFILL, infill(777))
    assert one.sentence == "packet 136 names group 777 of country or region 352, which the table has not"
    result = found.result("E15", INFILL, only(lambda row: row.place <= 14_103))
    assert not result.found and result.notes[0].endswith("which the table has not: it may be beyond the table")


def test_e16(found: Found) -> None:
    """Two links that disagree, and one that disagrees with the column."""
    assert not found("E16", SHORT, single_balise)
    (one,) = found("E16", SHORT, lambda rows: single_balise(rows, orientation=0))
    assert "rise in the nominal direction of the single balise Single (km 15.600)" in one.sentence
    assert rows_named(one) == (10, 14)


def test_e16_and_the_column_nominal(found: Found, program: Program) -> None:
    path = written(program, found.path, SHORT, single_balise)
    head, *lines = path.read_text("utf-8").splitlines()
    for word, count in (("rising", 0), ("falling", 1)):
        named = [f"{head},nominal", *(f"{each},{word if each.startswith('Single') else ''}" for each in lines)]
        path.write_text("\n".join(named), "utf-8")
        line = LineOfTable.of(checking.check(program, reader.read(str(path))))
        assert len(RULES["E16"].find(line, Options()).found) == count


def test_e16_of_a_balise_that_nobody_names(found: Found) -> None:
    """Q_LINK 0 is L5; a packet for both directions, or a balise that no packet 5 leads past, is none."""

    def changed(**values: Any) -> Change:
        def set_(rows: List[Row]) -> None:
            single_balise(rows, named=False)
            form = form_of(rows, "Single", "")
            form["packets"][0].update({key: each for key, each in values.items() if key == "q_dir"})
            form.update({key: each for key, each in values.items() if key == "q_link"})

        return set_

    several: List[Dict[str, int]] = [{}, {"q_link": 0}, {"q_dir": 2}]
    assert [len(found("E16", SHORT, changed(**each))) for each in several] == [1, 0, 0]
    assert not found("E16", SHORT, all_of(without_links, changed()))
    assert not found("E16", SHORT, lambda rows: single_balise(rows, named=False, position=8000))


def test_e16_of_a_balise_that_infill_names(found: Found) -> None:
    """A packet 5 after a packet 136 names it too."""

    def named(rows: List[Row]) -> None:
        single_balise(rows, named=False)
        links = change(rows, "Signal 4", FIXED, 5)
        own = {**links, "links": [{**links["links"][0], "nid_bg": 7000}]}
        form_of(rows, "Infill of Signal 4", GREEN)["packets"].append(own)

    assert len(found("E16", INFILL, lambda rows: single_balise(rows, named=False))) == 1
    assert not found("E16", INFILL, named)


def repositioned(metres: int, with_packet_16: bool = True) -> Change:
    """Signals 3 and 4 name a group that is not known, this far from signal 5, in its place."""

    def change_(rows: List[Row]) -> None:
        single_balise(rows, named=False)
        if with_packet_16:
            form_of(rows, "Single", "")["packets"].append(raw(16, f"01{400:015b}"))
        for signal in ("Signal 3", "Signal 4"):
            links = change(rows, signal, FIXED, 5)["links"]
            at = [link["nid_bg"] for link in links].index(5)
            links[at:] = [{**links[at], "nid_bg": 16_383, "d_link": 1500 + metres}]

    return change_


def test_e16_of_repositioning(found: Found) -> None:
    """A balise with a packet 16 near a link with NID_BG 16,383 is none. Far from it, or without the packet, it is."""
    assert not found("E16", SHORT, repositioned(-400))
    assert len(found("E16", SHORT, repositioned(200))) == 1
    assert len(found("E16", SHORT, repositioned(-300, with_packet_16=False))) == 1


@pytest.mark.parametrize("metres, with_packet_16", [(-400, True), (200, True), (-400, False)])
def test_e16_of_repositioning_on_another_track(found: Found, metres: int, with_packet_16: bool) -> None:
    """Signal 3 leads to the balise of a route to track 2, with its own kilometres, where signal 4 leads past it."""

    def to_track_2(rows: List[Row]) -> None:
        for row in rows:
            row.track = "2" if row.group in ("Single", "Signal 4", "Signal 5") else "1"
        links = change(rows, "Signal 4", FIXED, 5)["links"]
        links[:] = [{**links[0], "nid_bg": 5, "d_link": 1500}]

    made = found("E16", SHORT, all_of(repositioned(metres, with_packet_16), to_track_2))
    assert len(made) == (not with_packet_16)


def test_e17(found: Found) -> None:
    made = found("E17", SHORT, meaning_mistakes.links_shortened)
    assert [each.location.row.group for each in made if each.location.row] == [
        f"Signal {each}" for each in (1, 2, 3, 4)
    ]
    assert "and the packets 5 of this group and of those before it lead to km 11.500 only" in made[0].sentence
    assert made[0].sentence.endswith("the last 1500 m are without links, although Signal 3 (km 13.000) follows")
    (one,) = found("E17", SHORT, without_links)
    assert one.sentence == (
        "no group or message has a packet 5 (linking), and 12 authorities of 6 groups have a V_MAIN above 0"
    )


def test_e17_names_all_groups_without_a_link(found: Found) -> None:
    """In the order of passing. From the sixth one on they are counted."""
    made = found("E17", Line(signals=9, aspects=(RED, *"abcdefg")), meaning_mistakes.links_shortened)
    longest = next(each.sentence for each in made if "ends at km 20.500" in each.sentence)
    wanted = [f"Signal {number} (km {10 + 1.5 * (number - 1):.3f})" for number in (3, 4, 5, 6, 7)]
    assert longest.endswith(f"although {', '.join(wanted)} and 1 more follow"), longest


def test_e18_names_all_that_announce(found: Found) -> None:
    """One remark is on all packets 41 for the place at which no group orders the level."""
    (one,) = found("E18", BORDER, only(lambda row: row.group != "Border"))
    assert one.location.row and one.words.endswith("in this direction; row 18 too"), one.words
    assert [where.row and where.row.group for where in one.everywhere] == ["Signal 4", "Signal 5"]


def test_e15_counts_the_other_fields(found: Found) -> None:
    changes = [set_in(SITE, GREEN, 12, v_main=10), added(SITE, GREEN, "l_endsection", 12, -150)]
    (one,) = found("E15", INFILL, all_of(*changes))
    assert one.sentence.endswith(' aspect "green", row 21 (and 1 field more of it)'), one.sentence


def test_e17_without_links_that_count_from_their_group(found: Found) -> None:
    """A packet 5 after a packet 136 does not count. One authority has the singular."""

    def behind_infill(rows: List[Row]) -> None:
        linking = copy.deepcopy(change(rows, "Signal 4", FIXED, 5))
        without_links(rows)
        for row in rows:
            row.form["packets"] += [linking] if any(each["nid_packet"] == 136 for each in row.form["packets"]) else []

    (one,) = found("E17", INFILL, behind_infill)
    assert one.sentence.startswith("no group or message has a packet 5 (linking) before a packet 136, and ")
    stops = only(lambda row: row.aspect in (FIXED, RED) or (row.group, row.aspect) == ("Signal 2", GREEN))
    (one,) = found("E17", SHORT, all_of(without_links, stops))
    assert one.sentence.endswith(" and 1 authority of 1 group has a V_MAIN above 0")


def test_e17_of_a_balise_that_is_linked_from_outside(found: Found) -> None:
    """Its first link shows its direction."""

    def begins_with_it(rows: List[Row], with_links: bool = True) -> None:
        both = (change(rows, f"Signal {signal}", FIXED, 5)["links"] for signal in (1, 4))
        links = [copy.deepcopy(each) for some in both for each in some]
        rows[:] = [row for row in rows if row.group != "Signal 1" or row.aspect == FIXED]
        own = change(rows, "Signal 1", FIXED, 5)
        form_of(rows, "Signal 1", FIXED)["n_total"] = 0
        own["links"] = links if with_links else own["links"][:1]
        form_of(rows, "Signal 2", FIXED)["packets"] = [
            each for each in form_of(rows, "Signal 2", FIXED)["packets"] if each["nid_packet"] != 5
        ]

    def of_signal_2(with_links: bool) -> int:
        made = found("E17", SHORT, lambda rows: begins_with_it(rows, with_links))
        return sum(bool(each.location.row and each.location.row.group == "Signal 2") for each in made)

    assert not of_signal_2(True) and of_signal_2(False)


@pytest.mark.parametrize("metres, is_remarked", [(1600, False), (3000, True)])
def test_e17_of_a_linked_group_whose_kilometre_is_rounded_up(found: Found, metres: int, is_remarked: bool) -> None:
    def rounded(rows: List[Row]) -> None:
        meaning_mistakes.links_shortened(rows)
        change(rows, "Signal 2", GREEN, 12)["l_endsection"] = metres
        for row in rows:
            row.place += row.group == "Signal 3"

    groups = [each.location.row.group for each in found("E17", SHORT, rounded) if each.location.row]
    assert ("Signal 2" in groups) == is_remarked


@pytest.mark.parametrize("is_named", [True, False])
def test_e17_of_a_group_without_a_kilometre(program: Program, tmp_path: Path, is_named: bool) -> None:
    """It is in rear of signal 3, and its packet 5 leads to the end of that authority."""
    rows = SHORT.rows
    links = change(rows, "Signal 2", FIXED, 5)["links"]
    full = copy.deepcopy(change(rows, "Signal 3", FIXED, 5))
    middle = {**links[0], "d_link": 700, "nid_bg": 800}
    if is_named:
        links[:] = [middle, {**links[0], "d_link": links[0]["d_link"] - 700}]
    full["links"].insert(0, {**links[0], "d_link": 800, "nid_bg": 3})
    for row in rows:
        row.form["packets"] = [
            each for each in row.form["packets"] if row.group != "Signal 3" or each["nid_packet"] != 5
        ]
    for row in [row for row in rows if row.group == "Signal 5" and row.aspect in (FIXED, RED)]:
        form: Any = {**row.form, "nid_bg": 800, "m_mcount": 255, "packets": [] if row.balise else [full]}
        rows.append(Row("Links", f"Links {row.balise}", row.place, "", row.balise, form))
    for group in ("Signal 1", "Signal 2"):
        change(rows, group, FIXED, 5)["links"][2:] = []
    head, *lines = table(program, rows).splitlines()
    cells = [line.split(",") for line in lines]
    unplaced = [",".join([*row[:2], "" if row[0] == "Links" else row[2], *row[3:]]) for row in cells]
    path = tmp_path / "t.csv"
    path.write_text("\n".join([head, *unplaced]) + "\n", "utf-8")
    remarks = RULES["E17"].find(LineOfTable.of(checking.check(program, reader.read(str(path)))), ASKED).found
    groups = [each.location.row.group for each in remarks if each.location.row]
    assert ("Signal 3" in groups) != is_named, groups


def test_e17_of_groups_that_are_not_linked(found: Found) -> None:
    """Groups with Q_LINK 0 need no link."""

    def unlinked(rows: List[Row]) -> None:
        meaning_mistakes.links_shortened(rows)
        for row in rows:
            row.form["q_link"] = 0

    assert not found("E17", SHORT, unlinked)


@pytest.mark.parametrize("identity, groups", [(16_383, []), (16_382, ["Signal 4"])])
def test_e17_of_repositioning(found: Found, identity: int, groups: List[str]) -> None:
    """The authority of signal 4 goes beyond its last link. One with NID_BG 16,383 leads to one that names the rest."""

    def last_link(rows: List[Row]) -> None:
        for signal in ("Signal 3", "Signal 4"):
            change(rows, signal, FIXED, 5)["links"][-1]["nid_bg"] = identity

    made = found("E17", SHORT, all_of(repositioned(0), last_link))
    assert [each.location.row.group for each in made if each.location.row] == groups


@pytest.mark.parametrize("metres, count", [(50, 1), (3, 0), (-400, 1), (-900, 1)])
def test_e18(found: Found, metres: int, count: int) -> None:
    made = found("E18", BORDER, added("Signal 4", FIXED, "d_leveltr", 41, metres))
    assert len(made) == count and all(rows_named(each)[0] == 14 for each in made)


def repeated_order(rows: List[Row], metres: int, level: int) -> None:
    """A second group orders the level at once, these metres from the border."""
    for row in [row for row in rows if row.group == "Border"]:
        form: Any = {**copy.deepcopy(row.form), "nid_bg": 6001}
        for each in form["packets"]:
            each["transitions"] = [{"m_leveltr": level, "l_ackleveltr": 0}]
        rows.append(Row("Again", f"Again {row.balise}", row.place + metres, "", row.balise, form))


@pytest.mark.parametrize("metres, level, count", [(200, 0, 0), (200, 2, 1), (-200, 0, 1)])
def test_e18_of_a_repeated_order(found: Found, metres: int, level: int, count: int) -> None:
    """An order at once beyond an equal one is none. One with other levels, or in rear of it, is one."""
    made = found("E18", BORDER, lambda rows: repeated_order(rows, metres, level))
    assert len(made) == count, [each.sentence for each in made]


def without_announcements(rows: List[Row]) -> None:
    for row in (row for row in rows if row.group not in ("Border", "Again")):
        row.form["packets"] = [each for each in row.form["packets"] if each["nid_packet"] != 41]


def test_e18_of_more_orders_beyond_the_border(found: Found) -> None:
    """Both balises of a group repeat the order: the first one along the way is that of the border."""

    def twice(rows: List[Row]) -> None:
        repeated_order(rows, 200, 0)
        again = [row for row in rows if row.group == "Again"]
        again[1].form["packets"] = copy.deepcopy(again[0].form["packets"])
        without_announcements(rows)

    assert not found("E18", BORDER, twice)


def test_e18_of_a_refused_border(found: Found) -> None:
    """The direction of the border is not known, and a group beyond it repeats its order. A wrong place is found."""
    hidden = all_of(lambda rows: repeated_order(rows, 200, 0), at_one_kilometre("Border"))
    assert not found("E18", BORDER, hidden)
    (one,) = found("E18", BORDER, all_of(hidden, added("Signal 4", FIXED, "d_leveltr", 41, 50)))
    assert rows_named(one)[0] == 14


def to_track_2(rows: List[Row]) -> None:
    """Signal 5, and the border of a route to it, are on another track with other kilometres."""
    for row in rows:
        row.track = "2" if row.place > 15_900 else "1"
    for row in [row for row in rows if row.group == "Border"]:
        form = {**copy.deepcopy(row.form), "nid_bg": 6001}
        rows.append(Row("Other", f"Other {row.balise}", row.place - 300, "", row.balise, form, "1"))


def test_e18_of_a_route_to_another_track(found: Found) -> None:
    """The announcements are for the border of track 2. That of track 1 has no other ones."""
    assert not found("E18", BORDER, to_track_2)


def test_e18_levels(found: Found) -> None:
    (one,) = found("E18", BORDER, set_in("Signal 4", FIXED, 41, transitions=[{"m_leveltr": 2, "l_ackleveltr": 0}]))
    assert one.sentence == "the levels are level 1, and Border (km 16.700), row 22, has level 0 at km 16.700"
    assert {"m_leveltr_1": 2, "other_m_leveltr_1": 0}.items() <= one.values.items()
    without = found("E18", BORDER, only(lambda row: row.group != "Border"))
    assert len(without) == 1 and "no group within 500 m of that place has a packet 41" in without[0].sentence
    cut = found("E18", BORDER, only(lambda row: row.place < 16_100))
    assert not cut


def test_e18_of_a_border_whose_direction_is_not_known(found: Found) -> None:
    """A single balise that no packet 5 names orders the transition in both directions, or only in one of them."""

    def single(q_dir: int, rows: List[Row]) -> None:
        rows[:] = [row for row in rows if row.group != "Border" or row.balise == 0]
        border = next(row for row in rows if row.group == "Border")
        border.form.update(n_total=0, q_link=0)
        for each in border.form["packets"]:
            each.update({"q_dir": q_dir} if each["nid_packet"] == 41 else {})
        for row in rows:
            for each in row.form["packets"]:
                if each["nid_packet"] == 5:
                    each["links"] = [one for one in each["links"] if one["nid_bg"] != border.form["nid_bg"]]

    for q_dir, count in ((2, 0), (1, 1)):
        made = found("E18", BORDER, partial(single, q_dir))
        assert len(made) == count and all(each.sentence.endswith(" in this direction") for each in made)


def at_one_kilometre(group: str) -> Change:
    """Both balises of a group have one kilometre, which shows no direction."""

    def move(rows: List[Row]) -> None:
        for row in rows:
            row.place -= 3 * row.balise if row.group == group else 0

    return move


def test_e18_of_a_border_without_a_direction(found: Found) -> None:
    """Its order may be for this direction: no remark says that there is none."""
    assert not found("E18", BORDER, at_one_kilometre("Border"))
    far = all_of(at_one_kilometre("Border"), added("Signal 4", FIXED, "d_leveltr", 41, -900))
    assert [rows_named(each)[0] for each in found("E18", BORDER, far)] == [14]


def test_e19_of_several_values(found: Found) -> None:
    """The values are those of the first stretch, and the other end is that of the last one."""

    line, turned = Line(signals=6, both=True), meaning_mistakes.reverse_gradients_turned
    line.gradients = [(0, 10), (11_500, 8)]
    (up,) = [each for each in found("E19", line, turned) if not each.urgency]
    assert "+10 per mille from km 10.000 to km 11.500 (1500 m), and +10 per mille" in up.sentence
    assert up.sentence.endswith(": they add up to 20 per mille, and to more than 1 per mille up to km 18.100")
    line.gradients = [(0, -10), (11_500, -8)]
    (down,) = [each for each in found("E19", line, turned) if each.urgency]
    assert "-10 per mille from km 10.000 to km 11.500 (1500 m), and -10 per mille" in down.sentence
    assert down.sentence.endswith(": up to km 18.100 both go down")


def test_e19(found: Found) -> None:
    """A sum of 1 per mille is none; both ways down over 1 km is of the lowest urgency."""
    for steep, count in ((0, 0), (1, 0), (2, 1)):
        line = Line(signals=6, both=True)
        line.gradients = [(0, 10)]

        def more(rows: List[Row], steep: int = steep) -> None:
            for row in rows:
                for each in row.form["packets"] if row.group.startswith("Signal R") else ():
                    for element in each["elements"] if each["nid_packet"] == 21 else ():
                        element["g_a"] = 10 - steep if element["g_a"] != 255 else 255

        made = found("E19", line, more)
        assert len(made) == count, steep
    assert made[0].values == {"g_a": Decimal(10), "other_g_a": Decimal(-8)}
    assert made[0].sentence.endswith("they add up to 2 per mille")
    down = [each for each in found("E19", BOTH, meaning_mistakes.reverse_gradients_turned) if each.urgency]
    assert down and all(each.urgency is Urgency.RULE_ONLY and each.sentence.endswith("both go down") for each in down)


def test_e13_of_q_front(found: Found) -> None:
    """The speed rises at km 12.950, by yellow and green of signal 2, and by green of signal 1."""

    def front(signal: str, aspect: str) -> Change:
        def change_(rows: List[Row]) -> None:
            elements = change(rows, signal, aspect, 27)["elements"]
            speeds = [each["v_static"] for each in elements]
            elements[speeds.index(20)]["q_front"] = 1

        return change_

    (one,) = found("E13", SHORT, front("Signal 2", GREEN))
    assert one.sentence == (
        "at km 12.950, where V_STATIC rises from 100 km/h to 140 km/h, Q_FRONT is 1 (holds until the front has passed)"
        ', and 0 by Signal 1 (km 10.000), aspect "green", row 5'
    )
    assert one.location.row and one.location.row.aspect == GREEN
    everywhere = [front("Signal 1", GREEN), front("Signal 2", YELLOW), front("Signal 2", GREEN)]
    assert not found("E13", SHORT, all_of(*everywhere))


def of_messages(found: Found, rule: str, line: Line, *forms: Any) -> Result:
    """What a rule finds of a line with radio messages."""
    path = written(found.program, found.path, line)
    radio = path.with_name("m.txt")
    texts = found.program.encode(list(forms), radio=True)
    radio.write_text("".join(f"{text.line};M{place}\n" for place, text in enumerate(texts, 1)), "utf-8")
    checked = checking.check(found.program, reader.read(str(path)), messages_file.read(str(radio)))
    return RULES[rule].find(LineOfTable.of(checked), Options())


def faster(group: int, number: int = 27) -> Any:
    """A message 3 with another speed, or with gradients down instead of up."""
    form = meaning_mistakes.movement_authority(group)
    for element in next(each for each in form["packets"] if each["nid_packet"] == number)["elements"][:1]:
        element.update({"v_static": 40} if number == 27 else {"q_gdir": 1 - element["q_gdir"], "g_a": 20})
    return form


def test_e13_of_messages(found: Found) -> None:
    """The profiles of a message are compared with those of its group, or of the groups around it."""
    right = meaning_mistakes.movement_authority(3)
    sound = of_messages(found, "E13", SHORT, right)
    assert (sound.found, sound.looked_at) == ([], found.result("E13", SHORT).looked_at + 2)
    (one,) = of_messages(found, "E13", SHORT, right, faster(3)).found
    assert one.location.message and one.location.message.name == "M2" and not one.rows
    assert one.sentence.startswith("V_STATIC is 200 km/h from km 13.000 to km ")
    assert ' km/h by Signal 3 (km 13.000), aspect "' in one.sentence
    (one,) = of_messages(found, "E13", SHORT, faster(3, 21)).found
    assert one.location.message and one.sentence.startswith("G_A is ")


def test_e13_of_a_message_between_groups(found: Found) -> None:
    """The group from which it counts gives no profile, so one in rear of it and those ahead are compared."""
    made = of_messages(found, "E13", Line(border=0), faster(6000)).found
    assert (
        all(one.location.message for one in made) and "V_STATIC is 200 km/h from km 16.700 to km " in made[0].sentence
    )
    assert [where.group.group.name for where in made[0].compared if where.group] == ["Signal 5"]


def test_e13_of_a_long_message(found: Found) -> None:
    """It is compared with all groups along it: the tenth one describes its last 500 m."""
    line = Line()
    steps = line._steps(line.speeds, line.sites[2], 15_000, 1)
    elements = [{"d_static": at, "v_static": value // 5, "q_front": 0, "differences": []} for at, value in steps]
    elements[-1].update(v_static=127)
    right = meaning_mistakes.movement_authority(3)
    right["packets"] = [{**each, "elements": elements} for each in right["packets"] if each["nid_packet"] != 21]
    right["packets"][0].pop("elements")
    assert not of_messages(found, "E13", line, right).found
    wrong = copy.deepcopy(right)
    *own, end = wrong["packets"][1]["elements"]
    fast = {**own[0], "d_static": end["d_static"] - 500, "v_static": 40}
    wrong["packets"][1]["elements"] = [*own, fast, {**end, "d_static": 500}]
    (one,) = of_messages(found, "E13", line, wrong).found
    assert one.location.message and "V_STATIC is 200 km/h from km 27.500 to km 28.000" in one.sentence


def test_e13_of_messages_without_profiles_beside(found: Found) -> None:
    """Messages of which most differ, and those that no group is beside, are counted."""
    count = found.result("E13", SHORT).looked_at
    most = of_messages(found, "E13", SHORT, *([faster(3)] * 3), meaning_mistakes.movement_authority(3))
    assert not most.found and most.not_looked_at == {message_profiles.MOST: 3} and most.looked_at == count + 5
    unknown = of_messages(found, "E13", SHORT, faster(99))
    assert not unknown.found and list(unknown.not_looked_at.values()) == [2]


def test_e26(found: Found) -> None:
    """What no train can follow, each by itself. A mode may begin at a limit of authority, and shunting at each end."""
    for packet_, words in (
        (on_sight(1600), "D_MAMODE 1600 m is beyond the end of authority, 1500 m from the group"),
        (on_sight(1500), "D_MAMODE 1500 m is at the end of authority, 1500 m from the group"),
        (on_sight(1499), "D_MAMODE 1499 m is at the end of authority, 1500 m from the group"),
        (on_sight(0, 200), "V_MAMODE of the first mode is 200 km/h [40] on sight"),
        (on_sight(0, 40, 0), "L_MAMODE of the first mode is 0 m"),
    ):
        (one,) = found("E26", SHORT, with_packet("Signal 3", YELLOW, packet_))
        assert one.sentence == words and one.location.row and one.location.row.aspect == YELLOW
    (one,) = found("E26", SHORT, with_packet("Signal 3", FIXED, on_sight(1000)))
    assert one.sentence == "D_MAMODE 1000 m is beyond the end of authority, 0 m from the group"  # (at red)
    for packet_ in (on_sight(1490), on_sight(0, 100), on_sight(0, 635), on_sight(1500, mode=1)):
        assert not found("E26", SHORT, with_packet("Signal 3", YELLOW, packet_))
    (one,) = found("E26", SHORT, with_packet("Signal 3", YELLOW, on_sight(1600, mode=1)))
    assert one.sentence.startswith("D_MAMODE 1600 m is beyond the end of authority")
    assert not found("E26", SHORT, with_packet("Signal 3", RED, on_sight(0)))  # (its authority has no length)
    limit = set_in("Signal 3", YELLOW, 12, end_speed=8)
    assert not found("E26", SHORT, all_of(limit, with_packet("Signal 3", YELLOW, on_sight(1500))))

    def without_authority(rows: List[Row]) -> None:
        form_of(rows, "Signal 3", YELLOW)["packets"] = [on_sight(0)]

    (one,) = found("E26", SHORT, without_authority)
    assert one.sentence == "its message has no packet 12 or 15"


@pytest.mark.parametrize(
    "count, begin, mode, words",
    [
        (
            4,
            400,
            0,
            "D_MAMODE is 400 m, and 0 m at all 3 other signals with this mode, such as Signal 2 (km 11.500), aspect",
        ),
        (4, 1600, 0, "D_MAMODE 1600 m is beyond the end of authority, 1500 m from the group"),
        (3, 400, 0, ""),
        (4, 400, 1, ""),
    ],
)
def test_e26_of_one_signal(found: Found, count: int, begin: int, mode: int, words: str) -> None:
    """On sight begins at three signals, and elsewhere at a fourth one. One mistake is one remark."""
    usual = [with_packet(f"Signal {number}", YELLOW, on_sight(0)) for number in range(2, count + 1)]
    made = found("E26", SHORT, all_of(*usual, with_packet("Signal 1", YELLOW, on_sight(begin, mode=mode))))
    assert len(made) == bool(words) and all(words in each.sentence and each.blamed for each in made)
    two = with_packet("Signal 5", YELLOW, on_sight(500)), with_packet("Signal 1", YELLOW, on_sight(400))
    assert not found("E26", SHORT, all_of(*usual, *two))


def test_e17_of_one_signal_without_links(found: Found) -> None:
    """All other signals have a packet 5: the links of the signals in rear do not silence it. One remark is enough."""

    def without_links(*numbers: int) -> Change:
        def remove(rows: List[Row]) -> None:
            for number in numbers:
                form = form_of(rows, f"Signal {number}", FIXED)
                form["packets"] = [each for each in form["packets"] if each["nid_packet"] != 5]

        return remove

    (one,) = found("E17", SHORT, without_links(4))
    assert one.rows == (14, 15, 16, 17) and one.sentence == (
        "this group has no packet 5 for nominal direction, although its authorities lead past Signal 5 (km 16.000): "
        "all 4 other groups with such authorities have one"
    )
    assert not found("E17", Line(signals=5), without_links(4)) and not found("E17", SHORT, without_links(4, 5))
    assert not found(
        "E17",
        SHORT,
        all_of(without_links(4), set_in("Signal 4", YELLOW, 12, v_main=0), set_in("Signal 4", GREEN, 12, v_main=0)),
    )
    assert all("m are without links" in each.sentence for each in found("E17", Line(signals=8), without_links(1)))
    assert not found("E17", Line(signals=6, infill=(4,)), without_links(4))
    assert found("E17", Line(signals=6, infill=(1,)), without_links(4))


@pytest.mark.parametrize(
    "group, level, words",
    [
        ("Border", 0, ""),
        ("Signal 5", 2, ""),  # (in rear of the border)
        ("Signal 6", 2, ""),  # (more than 500 m beyond it)
        ("Border", 2, "the levels are level 1, and packet 41 of Border (km 16.700), row 22, has level 0 at km 16.700"),
    ],
)
def test_e18_of_packets_46(found: Found, group: str, level: int, words: str) -> None:
    """A conditional order at a border has the levels of the packets 41 for the border."""
    aspect = "" if group == "Border" else FIXED
    made = found("E18", BORDER, with_packet(group, aspect, raw(46, f"{level:03b}{0:05b}")))
    assert [each.sentence for each in made] == ([words] if words else [])
    assert all(rows_named(each) == (22,) for each in made)


def test_e18_of_a_packet_46_that_announcements_support(found: Found) -> None:
    """The announcements have its level: only they are reported, beside the order."""
    announced = [set_in_item(f"Signal {number}", FIXED, 41, "transitions", 0, m_leveltr=2) for number in (4, 5)]
    made = found("E18", BORDER, all_of(*announced, with_packet("Border", "", raw(46, f"{2:03b}{0:05b}"))))
    assert [rows_named(each)[0] for each in made] == [14, 18]


SAME = session(1, "0123456789")


@pytest.mark.parametrize(
    "packets, words",
    [
        ([SAME, SAME], ""),
        ([SAME, session(0, "0123456798")], ""),
        ([SAME, session(1, "")], ""),
        ([session(1, "0123456789", 16_383), session(1, "0123456798", 16_383)], ""),
        ([SAME, session(1, "0123456798")], "RBC 1 of country 352 has the number 0123456798, and 0123456789 by 1 other"),
        ([SAME, session(1, "0123456789", 2)], "the number 0123456789 is that of RBC 2 of country 352, and that of RBC"),
        ([SAME, announcement_by_radio(1000, 1, "0123456798")], "RBC 1 of country 352 has the number 0123456798"),
        ([session(1, "01234A6789")], "NID_RADIO is 01234A6789FFFFFF, which is no telephone number"),
        ([session(1, "F123456789")], "NID_RADIO is F123456789FFFFFF, which is no telephone number"),
        ([session(1, "012F456789")], "NID_RADIO is 012F456789FFFFFF, which is no telephone number"),
    ],
)
def test_e27(found: Found, packets: Sequence[Any], words: str) -> None:
    """One RBC has one number, and one number belongs to one RBC."""
    made = found("E27", SHORT, all_of(*(with_packet(f"Signal {n}", FIXED, each) for n, each in enumerate(packets, 1))))
    assert len(made) == bool(words) and all(words in each.sentence and each.blamed for each in made)
    assert all(each.location.row and each.location.row.group == f"Signal {len(packets)}" for each in made)


@pytest.mark.parametrize(
    "second, words",
    [
        (announcement_by_radio(1000), ""),
        (announcement_by_radio(1002), ""),
        (announcement_by_radio(32_767, 3), ""),
        (announcement_by_radio(1600, 3), ""),
        (announcement_by_radio(1150), "the border is at km 15.650 (1150 m from the group), and at km 15.500 (1000 m"),
        (announcement_by_radio(1000, 3), "trains change to RBC 3 of country 352, and by Signal 3 (km 13.000), row 10"),
    ],
)
def test_e27_of_borders(found: Found, second: Any, words: str) -> None:
    """Packets 131 for one border. Those for at once and those more than 500 m apart are for others."""
    first = with_packet("Signal 3", FIXED, announcement_by_radio(2500))
    made = found("E27", SHORT, all_of(first, with_packet("Signal 4", FIXED, second)))
    assert len(made) == bool(words) and all(words in each.sentence for each in made)
    assert all(rows_named(each) == (14, 10) for each in made)


@pytest.mark.parametrize(
    "packets, rows",
    [
        ([(1, announcement_by_radio(5500)), (2, announcement_by_radio(5000))], [(6, 2)]),
        (
            [(1, announcement_by_radio(8500)), (2, announcement_by_radio(4000)), (3, announcement_by_radio(2500))],
            [(2, 6)],
        ),
        ([(1, announcement_by_radio(5500)), (4, announcement_by_radio(32_767))], [(2, 14)]),
        ([(1, announcement_by_radio(4500)), (4, announcement_by_radio(32_767))], []),
        ([(1, announcement_by_radio(4500)), (3, announcement_by_radio(0)), (4, announcement_by_radio(0))], [(10, 2)]),
        ([(1, announcement_by_radio(4500)), (4, announcement_by_radio(0)), (6, announcement_by_radio(0))], []),
        ([(1, announcement_by_radio(2000)), (4, announcement_by_radio(2000)), (3, session())], []),
        ([(1, announcement_by_radio(2000)), (4, announcement_by_radio(2000)), (3, session(centre=2))], [(14, 2)]),
    ],
)
def test_e27_of_far_borders(found: Found, packets: Sequence[Tuple[int, Any]], rows: Sequence[Tuple[int, ...]]) -> None:
    """Packets 131 for one RBC have one place, however far, unless trains have another RBC in between."""
    made = found("E27", SHORT, all_of(*(with_packet(f"Signal {number}", FIXED, each) for number, each in packets)))
    assert [rows_named(each) for each in made] == rows and all("the border is at" in each.sentence for each in made)


def test_e27_of_another_track(found: Found) -> None:
    """A border beyond a route to another track may be on that track: it is counted."""

    def to_track_2(rows: List[Row]) -> None:
        for row in rows:
            row.track = "2" if row.group in ("Signal 4", "Signal 5") else "1"
        announcements = [(1, announcement_by_radio(5500)), (6, announcement_by_radio(2000))]
        all_of(*(with_packet(f"Signal {number}", FIXED, each) for number, each in announcements))(rows)

    result = found.result("E27", SHORT, to_track_2)
    assert result.found == [] and result.not_looked_at["another track"] == 1


def test_e28(found: Found) -> None:
    """A packet of its own direction, unless another group speaks to these trains, or it is one that others look at."""
    alone = with_packet("Signal 3", FIXED, session(direction=0))
    (one,) = found("E28", SHORT, alone)
    assert one.blamed == [(10, 1, "q_dir", None)] and "in 6 groups of the track" in one.sentence
    for others in (
        with_packet("Signal 4", FIXED, session(direction=0)),
        with_packet("Signal 3", FIXED, raw(137, "1", 0)),
        only(lambda row: row.group in ("Signal 1", "Signal 2", "Signal 3", "Signal 4")),
    ):
        assert not found("E28", SHORT, all_of(others, alone))
    for packet_ in (session(direction=2), session(), raw(44, "0" * 9, 0), raw(145, "", 0)):
        assert not found("E28", SHORT, with_packet("Signal 3", FIXED, packet_))
    assert not found("E28", BOTH, alone)


def test_e28_of_two_groups(found: Found) -> None:
    """Two wrong packets of a line are reported, and three are counted. Packets 41 show that trains leave the line."""
    line = Line(signals=15)
    reverse = [with_packet(f"Signal {number}", FIXED, session(direction=0)) for number in (3, 7, 9)]
    made = found("E28", line, all_of(*reverse[:2]))
    assert [rows_named(each) for each in made] == [(10,), (26,)]
    for each in made:
        assert each.sentence == (
            "it is for trains towards lower kilometres, as 1 other packet is, and all other packets for one direction, "
            "in 15 groups of the track, are for trains towards greater kilometres"
        )
    level = {"nid_packet": 41, "q_dir": 0, "q_scale": 1, "d_leveltr": 32_767}
    order = with_packet("Signal 7", FIXED, {**level, "transitions": [{"m_leveltr": 0, "l_ackleveltr": 0}]})
    for change_, lane, count in (
        (all_of(*reverse), line, 3),
        (all_of(reverse[0], order), line, 2),
        (all_of(*reverse[:2]), Line(signals=9), 2),
    ):
        result = found.result("E28", lane, change_)
        assert not result.found and list(result.not_looked_at.values()) == [count]
    assert found.result("E28", line, all_of(reverse[0])).not_looked_at == {}
    (one, other) = found("E28", line, with_packet("Signal 3", FIXED, session(direction=0), revocation(7, 0)))
    assert ", as 1 other packet is, and all other" in one.sentence and one.sentence == other.sentence


def test_e28_of_a_group_with_nothing_else(found: Found) -> None:
    """A group that only orders a session has it for the rare direction. An order of levels is counted."""

    def with_group(*packets: Any, name: str = "Session", number: int = 900) -> Change:
        site = Site(name, number, 12_200 + number // 10, 1, 1)
        rows_ = [Row(name, f"{name} {at}", site.place + 3 * at, "", at, line_telegram(site, at, 255)) for at in (0, 1)]
        rows_[0].form["packets"] = list(packets)
        return lambda rows: rows.extend(copy.deepcopy(rows_))

    line, wrong = Line(signals=8), with_group(session(direction=0))
    (one,) = found("E28", line, wrong)
    assert one.location.group and one.location.group.group.name == "Session" and "in 8 groups" in one.sentence
    level: Any = {"nid_packet": 41, "q_dir": 0, "q_scale": 1, "d_leveltr": 32_767}
    order = {**level, "transitions": [{"m_leveltr": 0, "l_ackleveltr": 0}]}
    second = with_group(session(direction=0), name="Second", number=901)
    for lane, change_, count in (
        (Line(signals=7), wrong, 1),
        (line, with_group(session(direction=0), order), 2),
        (line, all_of(wrong, second), 2),
    ):
        result = found.result("E28", lane, change_)
        assert not result.found and list(result.not_looked_at.values()) == [count]
    assert not found("E28", line, with_group(session()))


def crossing(distance: int, length: int = 20) -> Any:
    """A packet 88 in metres."""
    return raw(88, f"01{5:08b}{distance:015b}{length:015b}0")


@pytest.mark.parametrize(
    "first, second, count",
    [
        (condition(2500), condition(1000), 0),
        (condition(2500), condition(1002), 0),
        (condition(2500), condition(1150), 1),
        (condition(2500), condition(1000, 250), 1),
        (condition(2500), condition(1250), 1),  # (more than 200 m apart, and in one section)
        (condition(2500), condition(1250, 350), 0),
        (condition(2500, 300, 2), condition(1250, 300, 2), 0),  # (places to sound the horn)
        (condition(2500), condition(1900), 0),  # (beyond the next signal)
        (condition(1200), condition(200), 0),  # (in rear of the second signal)
        (condition(2500), condition(1150, 300, 3), 0),  # (another kind)
        (condition(1400, 300), condition(0, 200), 0),  # (the rest of it)
        (condition(1400, 300), condition(0, 150), 1),
        (raw(71, f"01{2500:015b}{300:015b}0"), raw(71, f"01{1100:015b}{300:015b}0"), 1),
        (raw(138, f"01{2500:015b}{300:015b}"), raw(138, f"01{1100:015b}{300:015b}"), 1),
        (raw(68, "011" + "0" * 15), condition(1000), 0),
        (crossing(2500), crossing(1150), 0),  # (its layout is less certain)
    ],
)
def test_e29(found: Found, first: Any, second: Any, count: int) -> None:
    made = found("E29", SHORT, all_of(with_packet("Signal 3", FIXED, first), with_packet("Signal 4", FIXED, second)))
    assert len(made) == count and all(rows_named(each) == (14, 10) for each in made)


def test_e29_of_layouts_that_a_project_has_compared(found: Found) -> None:
    """A level crossing has an identity, so that 1,500 m are no other one."""
    both = all_of(with_packet("Signal 3", FIXED, crossing(2500)), with_packet("Signal 4", FIXED, crossing(2500)))
    (one,) = found("E29", SHORT, both, Options(layouts=frozenset({88})))
    assert "at km 17.000 (2500 m from the group) for 20 m, and by Signal 3 (km 13.000), row 10 at km 15.500" in (
        one.sentence
    )


def test_e29_of_two_conditions(found: Found) -> None:
    """A packet that has both shows that there are two. Of three the one that differs is reported."""
    elements = f"{2500:015b}{50:015b}{9:04b}"
    two = raw(68, f"010{elements}{1:05b}{100:015b}{50:015b}{9:04b}")
    sent = with_packet("Signal 3", FIXED, two), with_packet("Signal 4", FIXED, condition(1100, 50))
    assert not found("E29", SHORT, all_of(*sent))
    second = with_packet("Signal 3", FIXED, condition(2600, 50))
    several = (with_packet("Signal 3", FIXED, condition(2500, 50)), with_packet("Signal 4", FIXED, condition(1100, 50)))
    assert len(found("E29", SHORT, all_of(*several))) == 1 and not found("E29", SHORT, all_of(*several, second))
    usual = (with_packet(f"Signal {number}", FIXED, condition(5500 - 1500 * number)) for number in (1, 3))
    (one,) = found("E29", SHORT, all_of(*usual, with_packet("Signal 2", FIXED, condition(2600))))
    assert one.location.row and one.location.row.group == "Signal 2"


def test_e29_of_two_packets_of_one_message(found: Found) -> None:
    """They show that there are two conditions, as two elements of one packet do. Two aspects are two messages."""
    both = with_packet("Signal 3", FIXED, condition(2500)), with_packet("Signal 3", YELLOW, condition(2600))
    for at in (FIXED, YELLOW, GREEN):
        assert not found("E29", SHORT, all_of(*both, with_packet("Signal 4", at, condition(1100))))
    apart = with_packet("Signal 3", GREEN, condition(2500)), with_packet("Signal 3", YELLOW, condition(2600))
    (one,) = found("E29", SHORT, all_of(*apart))
    assert rows_named(one) == (12, 13)


def test_e29_of_far_places(found: Found) -> None:
    """A group states another place than the groups in rear of it. Two groups, or one telegram, show two conditions."""
    usual = [with_packet(f"Signal {number}", FIXED, condition(7000 - 1500 * number)) for number in (1, 2)]
    far = with_packet("Signal 3", FIXED, condition(4500))
    (one,) = found("E29", SHORT, all_of(*usual, far))
    assert rows_named(one) == (10, 2) and "is at km 17.500 (4500 m from the group) for 300 m, and by" in one.sentence
    assert not found("E29", SHORT, all_of(*usual, far, with_packet("Signal 4", FIXED, condition(3000))))
    assert not found("E29", SHORT, all_of(*usual, far, with_packet("Signal 3", FIXED, condition(2500))))
    assert not found("E29", SHORT, all_of(*usual, with_packet("Signal 5", FIXED, condition(1500))))
    assert not found("E29", SHORT, all_of(usual[1], with_packet("Signal 1", FIXED, condition(7500))))


def kinds(*own: int, place: int = 1000) -> Any:
    """A packet 68 with conditions of these kinds at one place, in metres from its group."""
    first, *more = own
    rest = "".join(f"{0:015b}{300:015b}{kind:04b}" for kind in more)
    return raw(68, f"010{place:015b}{300:015b}{first:04b}{len(more):05b}{rest}")


def test_e29_of_two_kinds(found: Found) -> None:
    """Two aspects, or two groups, give one condition another kind. A message with both shows that there are two."""
    (one,) = found(
        "E29", SHORT, all_of(*(with_packet("Signal 4", at, kinds(n)) for at, n in ((YELLOW, 9), (GREEN, 3))))
    )
    assert one.location.row and one.location.row.aspect == GREEN and rows_named(one) == (17, 16)
    assert one.sentence == (
        "at km 15.500 (1000 m from the group) for 300 m, M_TRACKCOND is 3 (powerless section, lower pantograph), and 9 "
        '(powerless section, switch off main power switch) by Signal 4 (km 14.500), aspect "yellow", row 16'
    )
    assert one.values == {"place_m": Decimal(15_500), "m_trackcond": Decimal(3), "other_m_trackcond": Decimal(9)}
    third = with_packet("Signal 3", FIXED, condition(2500)), with_packet("Signal 2", FIXED, condition(4000, 300, 3))
    (one,) = found("E29", SHORT, all_of(*third, with_packet("Signal 4", FIXED, kinds(9))))
    assert rows_named(one) == (6, 10)
    assert not found("E29", SHORT, all_of(*third, with_packet("Signal 4", FIXED, kinds(9, 3))))
    elsewhere = with_packet("Signal 4", FIXED, kinds(9)), with_packet("Signal 3", FIXED, condition(2506, 300, 3))
    assert not found("E29", SHORT, all_of(*elsewhere))
    tunnel = with_packet("Signal 3", FIXED, kinds(0, 5, place=2500)), with_packet("Signal 4", FIXED, kinds(0, 6))
    (one,) = found("E29", SHORT, all_of(*tunnel))
    assert rows_named(one) == (14, 10) and "M_TRACKCOND is 6 (" in one.sentence
    slippery = (raw(71, f"01{at:015b}{300:015b}{bit}") for at, bit in ((2500, 0), (1000, 1)))
    (one,) = found(
        "E29", SHORT, all_of(*(with_packet(f"Signal {n}", FIXED, each) for n, each in enumerate(slippery, 3)))
    )
    assert "M_ADHESION is 1 (non slippery rail), and 0 (slippery rail) by Signal 3 (km 13.000), row 10" in one.sentence


def test_e29_counts_what_follows_a_packet_136(found: Found) -> None:
    """Their distances count from another group. A packet that is not decoded is counted by that reason."""
    line = Line(signals=6, infill=(3,))
    behind = with_packet("Infill of Signal 4", YELLOW, condition(1000))
    result = found.result("E29", line, all_of(behind, with_packet("Signal 3", FIXED, condition(2500))))
    assert (result.found, result.looked_at, result.not_looked_at) == ([], 1, {"behind a packet 136": 1})


def position(group: int, metres: int, offset: int = 0, direction: int = 1) -> Any:
    """A packet 79 with one position, from a group of the same country."""
    return raw(79, f"010{group:014b}{offset:015b}1{metres:024b}{0:05b}", direction)


@pytest.mark.parametrize(
    "metres, origin, count, words",
    [
        (13_000, 0, 5, ""),
        (13_001, 0, 5, ""),
        (
            14_000,
            0,
            5,
            "M_POSITION of the first position, from Signal 3 (km 13.000), is 14000 m: 13000 m would agree with",
        ),
        (
            13_000,
            500,
            5,
            "is 13000 m: 13500 m would agree with the kilometres as 4 others do, such as that of Signal 1",
        ),
        (14_000, 0, 4, ""),
    ],
)
def test_e14_of_positions(found: Found, metres: int, origin: int, count: int, words: str) -> None:
    """Four positions count from one origin. A fifth one differs: three others are too few."""
    own = {number: 8500 + 1500 * number + origin for number in range(1, count + 1)}
    own[3] = metres
    made = found("E14", SHORT, all_of(*(with_packet(f"Signal {n}", FIXED, position(n, at)) for n, at in own.items())))
    assert len(made) == bool(words) and all(words in each.sentence and rows_named(each) == (10, 2) for each in made)


@pytest.mark.parametrize("offset", [0, 100])
def test_e14_of_positions_for_both_directions(found: Found, offset: int) -> None:
    """Each is one position, and one remark, although D_POSOFF leads to another place in each direction."""
    own = {number: 8500 + 1500 * number for number in range(1, 6)}
    own[3] = 14_000
    packets = {n: position(n, at, offset * (n == 3), 2) for n, at in own.items()}
    (one,) = found("E14", SHORT, all_of(*(with_packet(f"Signal {n}", FIXED, each) for n, each in packets.items())))
    assert rows_named(one) == (10, 2) and "as 4 others do" in one.sentence


def test_e14_of_positions_ahead(found: Found) -> None:
    """D_POSOFF counts along the way. Two groups that differ show nothing."""
    ahead = [with_packet(f"Signal {n}", FIXED, position(n, 8600 + 1500 * n, 100)) for n in (1, 2, 4, 5)]
    assert not found("E14", SHORT, all_of(*ahead, with_packet("Signal 3", FIXED, position(3, 13_100, 100))))
    (one,) = found("E14", SHORT, all_of(*ahead, with_packet("Signal 3", FIXED, position(3, 13_100))))
    assert one.values == {"m_position_m": Decimal(13_100), "by_kilometres_m": Decimal(13_000)}
    two = [with_packet(f"Signal {n}", FIXED, position(n, 20_000)) for n in (3, 6)]
    assert not found("E14", SHORT, all_of(*ahead, *two))


def repositioning(section: int, announced: int = 16_383) -> Change:
    """A group 500 m in rear of signal 4 with a packet 16, which signal 3 announces."""

    def insert(rows: List[Row]) -> None:
        site = meaning_line.Site("Repositioning", 7000, 14_000, 1, 1)
        link = {"d_link": 500, "nid_bg": 4, "q_linkorientation": 1, "q_linkreaction": 1, "q_locacc": 5}
        own = meaning_line.packet(site, 5, links=[link]), raw(16, f"01{section:015b}")
        place = next(index for index, row in enumerate(rows) if row.group == "Signal 4")
        made = [meaning_line.telegram(site, 0, 255, *own), meaning_line.telegram(site, 1, 255)]
        rows[place:place] = [Row(site.name, f"R{n}", 14_000 + 3 * n, "", n, form) for n, form in enumerate(made)]
        meaning_mistakes.unknown_ahead(1000)(rows)
        change(rows, "Signal 3", FIXED, 5)["links"][0]["nid_bg"] = announced

    return insert


def test_e30(found: Found) -> None:
    """A group that is announced and not there, and a section that ends at no group."""
    (one,) = found("E30", SHORT, meaning_mistakes.unknown_ahead(1000))
    assert one.location.link == 0 and one.location.row and one.location.row.group == "Signal 3"
    for change_ in (repositioning(500), repositioning(540), meaning_mistakes.unknown_ahead(9000)):
        assert not found("E30", SHORT, change_)  # (the last one is beyond the end of the table)
    for section in (400, 700):
        (one,) = found("E30", SHORT, repositioning(section))
        assert one.sentence.startswith(
            f"L_SECTION is {section} m, and the nearest group that packets 5 of this message"
        )
    assert not found("E30", SHORT, with_packet("Signal 6", FIXED, raw(16, f"01{500:015b}")))  # (without a packet 5)


def test_e18_of_acknowledgements(found: Found) -> None:
    """Two announcements of one border with the same levels have the same L_ACKLEVELTR."""

    def set_length(rows: List[Row]) -> None:
        change(rows, "Signal 4", FIXED, 41)["transitions"][0]["l_ackleveltr"] = 20

    (one,) = found("E18", meaning_mistakes.BORDER, set_length)
    assert one.sentence == "L_ACKLEVELTR is 200 m, and 20 m by Signal 4 (km 14.500), row 14"
    assert rows_named(one) == (18, 14) and one.blamed == [(18, 1, "l_ackleveltr", 0)]


def revocation(number: int, direction: int = 1) -> Any:
    """A packet 66."""
    return raw(66, f"{number:08b}", direction)


@pytest.mark.parametrize(
    "first, second, words",
    [
        ([restriction(7, 700, 200, 40)], [revocation(7)], ""),
        ([], [revocation(7)], ""),
        (
            [restriction(255, 700, 200, 40)],
            [revocation(7)],
            "which nothing can revoke, although the packet 66 in row 14",
        ),
        ([restriction(255, 700, 200, 40)] * 2, [revocation(7)], ""),
        ([restriction(255, 700, 200, 40)], [revocation(7, 0)], ""),
        (
            [restriction(255, 700, 200, 40), restriction(7, 900, 200, 40)],
            [revocation(8)],
            "packet 66 in row 14 revokes 8",
        ),
        ([], [revocation(255)], "NID_TSR is 255, and nothing can revoke a restriction with this number"),
        ([restriction(7, 700, 200, 40)], [revocation(8)], "NID_TSR is 8, and no packet 65 of the table has it"),
        ([restriction(7, 700, 200, 40)], [revocation(7, 0)], "only packets 65 for trains of the other direction"),
        ([], [restriction(7, 700, 200, 40), revocation(7)], "it revokes the restriction 7 of its own telegram"),
        ([restriction(7, 700, 0, 40)], [], "L_TSR is 0 m"),
        ([restriction(7, 700, 200, 250)], [], "V_TSR is 250 km/h [50], above each V_STATIC of the table, at most 140"),
        ([restriction(7, 700, 200, 140)], [], ""),
        ([restriction(7, 700, 200, 400)], [], ""),  # (E2 reports it)
    ],
)
def test_e22_without_effect(found: Found, first: Sequence[Any], second: Sequence[Any], words: str) -> None:
    """A packet 65 that restricts nobody, and a packet 66 that revokes nothing."""
    changes = with_packet("Signal 2", FIXED, *first), with_packet("Signal 4", FIXED, *second)
    made = found("E22", SHORT, all_of(*changes))
    assert len(made) == bool(words) and all(words in each.sentence for each in made)


def test_e19_passes_over_stretches_without_length(found: Found) -> None:
    def empty(rows: List[Row]) -> None:
        meaning_mistakes.reverse_gradients_turned(rows)
        elements_of = change(rows, "Signal 3", GREEN, 21)["elements"]
        elements_of.insert(1, {**elements_of[0], "d_gradient": 0})

    assert found("E19", BOTH, empty) and not found("E13", BOTH, empty)


def test_e19_passes_over_an_element_without_length(found: Found) -> None:
    empty = [set_in_item("Signal R3", each, 21, "elements", 1, d_gradient=0) for each in (YELLOW, GREEN)]
    assert found("E19", BOTH, all_of(meaning_mistakes.reverse_gradients_turned, *empty))


def test_e20(found: Found) -> None:
    """A value that other links of the table have too is only compared if the rule is asked for."""
    for group, words in ((5, "as its first link does"), (4, "which sends it")):
        (one,) = found("E20", SHORT, set_in_item("Signal 4", FIXED, 5, "links", 1, nid_bg=group), Options())
        assert words in one.sentence and one.values["nid_bg"] == group
    for key, value in (("q_locacc", 12), ("q_linkreaction", 2)):
        changed = set_in_item("Signal 4", FIXED, 5, "links", 0, **{key: value})
        (one,) = found("E20", SHORT, changed)
        usual = {"q_locacc": 5, "q_linkreaction": 1}[key]
        assert one.values == {key: Decimal(value), f"other_{key}": Decimal(usual)}
        assert [each.sentence for each in found("E20", SHORT, changed, Options())] == [one.sentence]
        other = set_in_item("Signal 1", FIXED, 5, "links", 1, **{key: value})
        assert not found("E20", SHORT, all_of(changed, other), Options())
        assert len(found("E20", SHORT, all_of(changed, other))) == 2
        few = Line(signals=5)
        assert not found("E20", few, changed, Options()) and found("E20", few, changed)


def test_e21(found: Found) -> None:
    assert not found("E21", LEVEL_2, with_packet("Signal 4", FIXED, session()))
    late = found("E21", LEVEL_2, with_packet("Signal 5", FIXED, session()))
    assert [rows_named(each) for each in late] == [(14,)]
    unknown = all_of(with_packet("Signal 3", FIXED, session()), at_one_kilometre("Signal 3"))
    assert not found("E21", LEVEL_2, unknown)
    (one,) = found("E21", LEVEL_2)
    assert rows_named(one) == (14, 18, 22) and one.sentence.startswith("it names level 2, and no group")
    assert len(found("E21", SHORT, with_packet("Signal 4", FIXED, raw(46, f"{3:03b}{0:05b}")))) == 1
    assert not found("E21", SHORT, with_packet("Signal 4", FIXED, raw(46, f"{2:03b}{0:05b}"))) and not found(
        "E21", BORDER
    )


@pytest.mark.parametrize(
    "number, distance, length, speed, count",
    [(7, 0, 500, 40, 1), (7, 4, 500, 40, 1), (255, 100, 500, 40, 0), (7, 5000, 500, 40, 1), (8, 100, 500, 40, 0)],
)
def test_e22(found: Found, number: int, distance: int, length: int, speed: int, count: int) -> None:
    """One number at two places is reported. Other numbers, and restrictions without one, are not compared."""
    changes = all_of(RESTRICTED, with_packet("Signal 4", FIXED, restriction(number, distance, length, speed)))
    made = found("E22", SHORT, changes)
    assert len(made) == count and all(rows_named(each) == (14, 6) for each in made)
    names = [f"{other}{name}" for other in ("", "other_") for name in ("d_tsr_m", "l_tsr_m", "v_tsr_kmh")]
    assert all(list(each.values) == names for each in made)


def test_e22_of_one_number_far_apart(found: Found) -> None:
    """Two restrictions with one number that are 19.5 km apart are reported, and at 21 km they are counted."""
    for number, groups, counts in ((15, 1, 2), (16, 0, 0)):
        far = with_packet(f"Signal {number}", FIXED, restriction(7, 500, 500, 40))
        made = found.result("E22", Line(signals=16), all_of(with_packet("Signal 2", FIXED, far_away()), far))
        assert (len(made.found), made.looked_at) == (groups, counts)
        assert made.not_looked_at == ({} if groups else {e22_temporary_restriction.FAR: 2})
    line = Line(signals=16)
    two = with_packet("Signal 16", FIXED, restriction(7, 500, 500, 40), restriction(8, 500, 500, 40))
    made = found.result("E22", line, all_of(with_packet("Signal 2", FIXED, far_away()), two))
    assert not made.found and not made.is_empty and made.looked_at == 1


def test_e22_of_one_restriction(found: Found) -> None:
    """One packet has another number, or another Q_FRONT. A number of another restriction is one remark too."""
    second = with_packet("Signal 2", FIXED, restriction(7, 2500, 500, 40))
    third = with_packet("Signal 3", FIXED, restriction(7, 1000, 500, 40))
    for number, said in ((8, "8"), (255, "255 (not revocable)")):
        off = with_packet("Signal 3", FIXED, restriction(number, 1000, 500, 40))
        (one,) = found("E22", SHORT, all_of(second, off))
        assert one.sentence == (
            f"NID_TSR of the restriction at km 14.000 (1000 m from the group), 500 m with 40 km/h is {said}, and 7 by "
            "Signal 2 (km 11.500), row 6"
        )
        assert one.blamed == [(10, 1, "nid_tsr", None)] and rows_named(one) == (10, 6)
    front = with_packet("Signal 3", FIXED, raw(65, f"01{7:08b}{1000:015b}{500:015b}1{8:07b}"))
    (one,) = found("E22", SHORT, all_of(second, front))
    assert "Q_FRONT of the restriction at km 14.000" in one.sentence and one.values["q_front"] == 1
    both = with_packet("Signal 3", FIXED, restriction(8, 1000, 500, 40))
    assert not found("E22", SHORT, all_of(second, third, both))
    twin = [
        with_packet(f"Signal {n}", FIXED, restriction(m, 700 + 1500 * (5 - n), 300, 60)) for n, m in ((4, 9), (5, 7))
    ]
    (one,) = found("E22", SHORT, all_of(second, third, *twin))
    assert "is 7, and 9 by Signal 4" in one.sentence


def in_reverse(number: int, begin: int, length: int, speed: int, group: str = "Signal R4") -> Change:
    """A restriction of this number for trains towards lower kilometres, which begins at this place in metres."""

    def add(rows: List[Row]) -> None:
        place = next(row.place for row in rows if row.group == group)
        with_packet(group, FIXED, restriction(number, place - begin, length, speed))(rows)

    return add


@pytest.mark.parametrize(
    "number, begin, length, speed, words",
    [
        (7, 14_500, 500, 40, ""),
        (7, 14_501, 501, 40, ""),
        (8, 14_600, 500, 40, ""),
        (7, 12_000, 500, 40, ""),  # (elsewhere)
        (
            7,
            14_600,
            500,
            40,
            "the restriction with NID_TSR 7 is from km 14.100 to km 14.600 with 40 km/h, and for trains",
        ),
        (
            7,
            14_500,
            600,
            40,
            "is from km 13.900 to km 14.500 with 40 km/h, and for trains of the other direction from km",
        ),
        (7, 14_500, 500, 50, "km 14.000 to km 14.500 with 40 km/h by Signal 2 (km 11.500), row"),
    ],
)
def test_e22_of_both_directions(found: Found, number: int, begin: int, length: int, speed: int, words: str) -> None:
    """A restriction is one stretch with one speed for trains of both directions."""
    made = found("E22", BOTH, all_of(RESTRICTED, in_reverse(number, begin, length, speed)))
    assert len(made) == bool(words) and all(words in each.sentence for each in made)
    assert all(each.location.row and each.location.row.group == "Signal R4" for each in made)


def test_e22_of_numbers_by_direction(found: Found) -> None:
    """Four restrictions that agree show that the fifth one is elsewhere. Two that differ are counted."""
    line = Line(signals=15, both=True)
    agreeing = [
        change_
        for number, group in ((1, 5), (2, 7), (3, 9), (4, 11))
        for change_ in (
            with_packet(f"Signal {group}", FIXED, restriction(number, 1000, 500, 40)),
            in_reverse(number, 10_000 + 1500 * (group - 1) + 1500, 500, 40, "Signal R15"),
        )
    ]
    assert not found("E22", line, all_of(RESTRICTED, *agreeing))
    far = in_reverse(7, 13_000, 500, 40, "Signal R15")
    (one,) = found("E22", line, all_of(RESTRICTED, *agreeing, far))
    assert "is from km 12.500 to km 13.000 with 40 km/h" in one.sentence
    second = with_packet("Signal 3", FIXED, restriction(9, 1000, 500, 40)), in_reverse(9, 14_700, 500, 40, "Signal R4")
    result = found.result("E22", BOTH, all_of(RESTRICTED, in_reverse(7, 14_600, 500, 40), *second))
    assert not result.found and result.not_looked_at == {opposite_restrictions.OPPOSITE: 4}


@pytest.mark.parametrize(
    "distance, length, speed, count",
    [
        (1000, 500, 40, 0),
        (1100, 500, 40, 1),
        (1000, 500, 50, 1),
        (1000, 600, 40, 1),
        (1100, 600, 40, 0),
        (1300, 500, 40, 0),
    ],
)
def test_e22_without_a_number(found: Found, distance: int, length: int, speed: int, count: int) -> None:
    """Two groups give one restriction with NID_TSR 255 otherwise. A telegram with both has two."""
    second = with_packet("Signal 2", FIXED, restriction(255, 2500, 500, 40))
    third = restriction(255, distance, length, speed)
    made = found("E22", SHORT, all_of(second, with_packet("Signal 3", FIXED, third)))
    assert len(made) == count
    both = with_packet("Signal 3", FIXED, third, restriction(255, 1000, 500, 40))
    assert not found("E22", SHORT, all_of(second, both))


def test_e22_of_packets_with_numbers_of_their_own(found: Found) -> None:
    """A project may number each packet by itself: then nothing is reported, and it is counted."""
    own = [
        with_packet(f"Signal {n}", FIXED, restriction(n, 1000, 500, 40), restriction(20 + n, 2500, 500, 40))
        for n in (2, 3, 4)
    ]
    result = found.result("E22", SHORT, all_of(*own))
    assert not result.found and result.not_looked_at == {e22_temporary_restriction.NUMBERED: 4}


def far_away() -> Any:
    """A restriction with the number 7 at once."""
    return restriction(7, 500, 500, 40)


@pytest.mark.parametrize("distance, length, speed, count", [(0, 1000, 40, 0), (0, 900, 40, 1), (0, 1000, 50, 1)])
def test_e22_of_the_rest(found: Found, distance: int, length: int, speed: int, count: int) -> None:
    """Signal 4 is 500 m within the restriction of signal 3. The rest of it is no difference."""
    first = with_packet("Signal 3", FIXED, restriction(7, 1000, 1500, 40))
    rest = with_packet("Signal 4", FIXED, restriction(7, distance, length, speed))
    assert len(found("E22", SHORT, all_of(first, rest))) == count


def test_e22_of_a_restriction_that_begins_at_its_group(found: Found) -> None:
    """One with D_TSR 0 whose group is in rear of the restriction begins too early."""
    first = with_packet("Signal 3", FIXED, restriction(7, 0, 2000, 40))
    assert len(found("E22", SHORT, all_of(first, with_packet("Signal 2", FIXED, restriction(7, 2000, 1500, 40))))) == 1


def test_e22_near_and_slow(found: Found) -> None:
    same = RESTRICTED, with_packet("Signal 2", YELLOW, restriction(7, 2503, 500, 40))
    assert not found("E22", SHORT, all_of(*same))
    for length, speed in ((600, 40), (500, 45)):
        (one,) = found(
            "E22", SHORT, all_of(RESTRICTED, with_packet("Signal 2", YELLOW, restriction(7, 2500, length, speed)))
        )
        assert f"{length} m with {speed} km/h" in one.sentence


def test_e23(found: Found) -> None:
    """Groups of another country at an end of the line are none."""

    def other(*groups: str) -> Change:
        def set_(rows: List[Row]) -> None:
            for row in rows:
                row.form["nid_c"] = 353 if row.group in groups else 352

        return set_

    assert [
        len(found("E23", SHORT, other(*each))) for each in (("Signal 6",), ("Signal 1", "Signal 2"), ("Signal 3",))
    ] == [0, 0, 1]
    versions = all_of(
        only(lambda row: (row.group, row.balise) == ("Signal 1", 0) or (row.group, row.aspect) == ("Signal 1", RED)),
        lambda rows: rows[1].form.update(m_version=32),
    )
    (one,) = found("E23", SHORT, versions)
    assert one.sentence.endswith(" in 1 other telegram of the table")


def test_a_finding_may_be_the_cause(run: Run, program: Program, tmp_path: Path) -> None:
    """A remark on rows whose group has F1 or F3 says so, and no other remark does."""

    def strange(rows: List[Row]) -> None:
        one, other = (telegram(rows, signal, "yellow") for signal in (4, 6))
        one.update(other)

    def turned_group(rows: List[Row]) -> None:
        for row in rows:
            if row.group == "Signal R3":
                row.form["n_pig"] = 1 - row.form["n_pig"]

    for line, changes, rule, end in (
        (Line(), [strange], "E10", "; F3 is found in Signal 4: a wrong telegram may be the cause"),
        (
            BOTH,
            [meaning_mistakes.reverse_gradients_turned, turned_group],
            "E19",
            "; F1 is found in Signal R3: rows in a wrong order may be the cause",
        ),
    ):
        out = run("check", written(program, tmp_path / "t.csv", line, *changes), "--rules", rule, "--folded")[1]
        said = [one for one in out if f": {rule}: " in one and not one.endswith(CORRECTED)]
        group = end.split("found in ")[1].split(":")[0]
        assert any(one.endswith(end) for one in said)
        assert all(one.endswith(end) == (group in one) for one in said)


@pytest.mark.parametrize(
    "group, speed, named",
    [
        ("Signal 4", 100, {"E10": "E2", "E15": "E2"}),
        ("Signal 4", 4, {"E15": "E10"}),
        ("Infill of Signal 4", 100, {"E15": "E2"}),
    ],
)
def test_one_field_may_be_the_cause(
    run: Run, program: Program, tmp_path: Path, group: str, speed: int, named: Dict[str, str]
) -> None:
    """What copies the signal may copy a wrong speed: the remark names the one that blames the same field of a row."""
    wrong = meaning_mistakes.set_in_item(group, "yellow", 27, "elements", 0, v_static=speed)
    path = written(program, tmp_path / "t.csv", meaning_mistakes.INFILL, wrong)
    rows = [each.split(",")[0::4] for each in path.read_text("utf-8").splitlines()]
    row = 1 + next(at for at, (name, aspect, *_) in enumerate(rows) if (name, aspect) == (group, "yellow"))
    out = run("check", path, "--only", "E", "--folded")[1]
    for rule in ("E2", "E10", "E15"):
        (one,) = [line for line in out if f": {rule}: " in line and not line.endswith(CORRECTED)] or [""]
        cause = f"; {named.get(rule)} is about the same V_STATIC of row {row}, and may be the cause: look there first"
        assert one.endswith(cause) == (rule in named), one


def repeated(place: int, metres: int) -> Options:
    """Kilometres that are given twice: from this place on they are `metres` less."""
    before = Decimal(place) / 1000
    return ASKED._replace(jumps=(Jump(before, before - Decimal(metres) / 1000),))


def test_a_border_where_the_kilometres_are_repeated(found: Found) -> None:
    """Its group has no place of its own, and may be what looks missing."""
    assert not found("E18", Line(border=0), shifted(16_720, -100), repeated(16_720, 100))


@pytest.mark.parametrize("details", [{"q_front": 1}, {"differences": [{"q_diff": 1, "nc": 2, "v_diff": 10}]}])
def test_e15_of_the_end_mark_of_speeds(found: Found, details: Dict[str, Any]) -> None:
    """V_STATIC 127 is no speed: nothing more is said of it."""
    assert not found("E15", INFILL, set_in_item(SITE, GREEN, 27, "elements", -1, **details))
    assert len(found("E15", INFILL, set_in_item(SITE, GREEN, 27, "elements", 0, **details))) == 1


def both_ways(rows: List[Row]) -> None:
    """All authorities and profiles are for both directions."""
    for each in (each for row in rows for each in row.form["packets"]):
        each.update({"q_dir": 2} if each["nid_packet"] in (12, 21, 27) else {})


@pytest.mark.parametrize("rule", ["E9", "E10"])
def test_groups_are_counted(found: Found, rule: str) -> None:
    """One that sends in both directions is one group."""
    groups = len({row.group for row in SHORT.rows})
    assert [found.result(rule, SHORT, each).looked_at for each in (unchanged, both_ways)] == [groups, groups]


def test_what_is_passed_over_is_not_counted(found: Found) -> None:
    """Ends beyond a point, infill whose signal may be beyond the table, and orders for another track."""
    beyond = found.plan("point,15.000,,,rising,,W1")
    counts = [found.result("E12", SHORT, options=options).looked_at for options in (ASKED, beyond)]
    assert counts[0] > counts[1]
    is_last = only(lambda row: row.place <= 14_103)
    counts = [found.result("E15", INFILL, each).looked_at for each in (unchanged, infill(777), is_last)]
    assert counts[0] == counts[1] > counts[2] == 0
    counts = [found.result("E18", BORDER, each).looked_at for each in (unchanged, to_track_2)]
    assert counts == [3, 3], "a border more, and an announcement less"


def test_e25(found: Found) -> None:
    """Green of signal 3 and yellow of signal 4 end at signal 5. Danger points and overlaps are of that signal."""

    def overlap(group: str, aspect: str, **values: int) -> Change:
        return lambda rows: change(rows, group, aspect, 12)["overlap"].update(values)

    def without_overlap(rows: List[Row]) -> None:
        del change(rows, "Signal 3", GREEN, 12)["overlap"]

    danger = {"danger_point": {"d_dp": 50, "v_releasedp": 126}}
    cases: List[Tuple[List[Change], str]] = [
        ([overlap("Signal 3", GREEN, d_ol=150, v_releaseol=6)], "D_OL is 150 m, and 200 m by Signal 4 (km 14.500)"),
        ([overlap("Signal 3", GREEN, v_releaseol=6)], "V_RELEASEOL is 30 km/h, and calculated on board by Signal 4"),
        ([without_overlap], "D_OL is absent, and 200 m by Signal 4"),
        ([set_in("Signal 3", GREEN, 12, end_speed=28)], "V_LOA is 140 km/h, and 0 km/h, stop by Signal 4"),
        ([set_in("Signal 3", GREEN, 12, **danger)], "D_DP is 50 m, and absent by Signal 4"),
    ]
    for changes, words in cases:
        (one,) = found("E25", SHORT, all_of(*changes))
        assert words in one.sentence and one.sentence.endswith(", whose authority ends there too")
        assert one.location.row and one.location.row.aspect == GREEN and one.others == [16]
    assert not found("E25", SHORT, overlap("Signal 3", GREEN, d_ol=201))
    elsewhere = [set_in("Signal 3", GREEN, 12, **danger), set_in("Signal 4", YELLOW, 12, **danger)]
    assert not found("E25", SHORT, all_of(*elsewhere))
    assert not found("E25", SHORT, all_of(without_overlap, with_packet("Signal 3", GREEN, on_sight(0))))


def test_e25_of_limits(found: Found) -> None:
    """V_LOA may depend on the aspect, at a level border also whether it is 0. Beside it no overlap is compared."""

    def as_far(first: int, second: int, third: int) -> Change:
        def end(rows: List[Row]) -> None:
            yellow, green = (change(rows, "Signal 4", aspect, 12) for aspect in (YELLOW, GREEN))
            other = change(rows, "Signal 3", GREEN, 12)
            green.update(l_endsection=yellow["l_endsection"])
            for form, speed in ((yellow, first), (green, second), (other, third)):
                form.update(end_speed=speed)
            other["overlap"].update(d_ol=150 if third else 200)

        return end

    order = meaning_line.packet(
        meaning_line.Site("Signal 5", 5, 16_000, 1, 1),
        41,
        d_leveltr=32_767,
        transitions=[{"m_leveltr": 0, "l_ackleveltr": 0}],
    )
    border = with_packet("Signal 5", FIXED, order)
    assert not found("E25", SHORT, as_far(12, 20, 20))
    assert len(found("E25", SHORT, as_far(12, 12, 20))) == 1
    assert len(found("E25", SHORT, as_far(0, 20, 20))) == 1
    assert not found("E25", SHORT, all_of(as_far(0, 20, 20), border))
    (left,) = {why for why in found.result("E25", SHORT, as_far(12, 20, 20)).not_looked_at if "V_LOA" in why}
    assert left == "without its overlap or V_LOA, which depends on the aspect"
    (left,) = {why for why in found.result("E25", SHORT, as_far(12, 12, 12)).not_looked_at if "V_LOA" in why}
    assert left == "without its danger point and overlap, which mean nothing with V_LOA above 0"


def test_e25_of_overlaps_that_depend_on_the_aspect(found: Found) -> None:
    """If a group has two aspects with other overlaps for one end, a third one is not compared."""

    def as_far(rows: List[Row]) -> None:
        yellow, green = (change(rows, "Signal 4", aspect, 12) for aspect in (YELLOW, GREEN))
        green.update(l_endsection=yellow["l_endsection"])
        green["overlap"].update(d_ol=100)

    short = [as_far, lambda rows: change(rows, "Signal 3", GREEN, 12)["overlap"].update(d_ol=150)]
    assert not found("E25", SHORT, all_of(*short))


@pytest.mark.parametrize(
    ("name", "is_slip"),
    [
        ("yelow", True),
        ("yelllow", True),
        ("yelolw", True),
        ("yeliow", True),
        ("Yelow", True),
        ("yellows", False),
        ("fellow", False),
        ("yellow 40", False),
        ("blue", False),
        ("yllw", False),
    ],
)
def test_e32(found: Found, name: str, is_slip: bool) -> None:
    """One letter inside of a word, which one group has and others do not."""
    made = found("E32", SHORT, meaning_mistakes.renamed("Signal 3", YELLOW, name))
    assert [(list(each.rows), list(each.aspects)) for each in made] == ([([12], [name])] if is_slip else [])


def test_e32_of_names_that_are_meant(found: Found) -> None:
    """Two groups with a name, a group with both names, digits, short words, and too few groups."""
    twice = all_of(*(meaning_mistakes.renamed(group, YELLOW, "yelow") for group in ("Signal 3", "Signal 4")))
    assert not found("E32", SHORT, twice)
    assert not found("E32", SHORT, meaning_mistakes.renamed("Signal 3", GREEN, "yelow"))
    for line, name in ((Line(aspects=(RED, "slow 40", GREEN)), "slow 60"), (Line(aspects=(RED, "Ks2", GREEN)), "Kr2")):
        assert not found("E32", line, meaning_mistakes.renamed("Signal 3", line.aspects[1], name))
    few = all_of(meaning_mistakes.renamed("Signal 3", YELLOW, "yelow"), only(lambda row: row.place < 14_400))
    assert not found("E32", Line(signals=4), few)


@pytest.mark.parametrize(
    ("names", "count"),
    [
        (("Yellow", "yellow"), 1),
        (("yellow", "YELLOW"), 1),
        (("sig 4", "sig4"), 1),
        (("1 1", "11"), 0),
        (("y", "Y"), 0),
        (("yellow", "blue"), 0),
    ],
)
def test_e32_of_two_cases(found: Found, names: Tuple[str, str], count: int) -> None:
    """Half of the signals have the aspect in another case: one remark names all of them."""
    here = all_of(
        *(meaning_mistakes.renamed(f"Signal {number}", YELLOW, names[number % 2]) for number in (1, 2, 3, 4, 5, 6))
    )
    made = found("E32", SHORT, here)
    assert len(made) == count
    for each in made:
        assert each.words == (
            f'3 groups have the aspect "{names[0]}", and 3 "{names[1]}": they differ only in case or blanks; rows 16 '
            "and 24 too"
        )
        assert list(each.rows) == [8] and list(each.aspects) == [names[0]]
    both = meaning_mistakes.renamed("Signal 3", GREEN, names[0])
    assert not found("E32", SHORT, all_of(here, both))


def test_e32_of_tracks(found: Found) -> None:
    """A track of one group alone, whose name is one letter away from that of the others."""

    def tracks(name: str, usual: str) -> Change:
        def name_tracks(rows: List[Row]) -> None:
            for row in rows:
                row.track = name if row.group == "Signal 4" else usual

        return name_tracks

    (one,) = found("E32", SHORT, tracks("trak 1", "track 1"))
    assert one.sentence == 'no other group has the track "trak 1", and 5 groups have "track 1": it looks typed wrongly'
    assert list(one.rows) == [14, 15, 16, 17] and not one.aspects
    for name, usual in (("track 2", "track 1"), ("trackA", "trackB"), ("up", "un"), ("", "1")):
        assert not found("E32", SHORT, tracks(name, usual))

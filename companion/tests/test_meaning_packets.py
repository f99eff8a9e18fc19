"""The rules E1 to E6: each is about one telegram or message."""
from __future__ import annotations

from pathlib import Path
from typing import Any, List, Tuple

import meaning_line
import pytest
from meaning_line import Row, change
from meaning_mistakes_of_groups import (
    FIXED,
    GREEN,
    MISTAKES,
    MISTAKES_FOLDER,
    RED,
    SHORT,
    YELLOW,
    Change,
    answer,
    element_with,
    packet_with,
    packets_added,
    raw,
    restriction,
    row_of,
)
from test_meaning import remarks, written

from balisekit.engine.program import Program
from balisekit.rules import checking, meaning
from balisekit.rules.line import Line as LineOfTable
from balisekit.rules.rule import ALL, Options
from balisekit.tables import messages as messages_file, reader

ASKED = Options(asked=frozenset({ALL}))


def found(
    program: Program, path: Path, rule: str, changes: List[Change], options: Options = Options()
) -> List[Tuple[int, str]]:
    """The rows and the sentences of the remarks of one rule."""
    made = remarks(program, written(program, path, SHORT, *changes), options, [rule])
    assert all(each.values or "end mark" in each.sentence for each in made)
    return [(each.location.row.number if each.location.row else 0, each.sentence) for each in made]


@pytest.mark.parametrize("name", MISTAKES)
def test_examples_of_mistakes(program: Program, name: str) -> None:
    """Each table is made of its mistake, and gets what is written beside it: at least a remark of its rule."""
    path = MISTAKES_FOLDER / f"{name}.csv"
    assert path.read_text("utf-8") == meaning_line.table(program, MISTAKES[name].rows)
    said = answer(name)
    assert path.with_suffix(".txt").read_text("utf-8") == said and f": {name}: " in said


def test_e1(program: Program, tmp_path: Path) -> None:
    """Too many bits, a spare number, and a number that no packet has. What fits is passed over."""
    changes = [
        packets_added(1, RED, restriction(8, "00000000")),
        packets_added(2, RED, restriction(121)),
        packets_added(3, RED, restriction(120), raw(99, "1010")),
    ]
    made = found(program, tmp_path / "t.csv", "E1", changes)
    assert [row for row, _ in made] == [row_of(1, RED), row_of(2, RED), row_of(3, RED)]
    assert "8 bits more than its layout" in made[0][1] and "V_TSR has the spare number 121" in made[1][1]
    assert made[0][1].endswith("; its L_PACKET is 79 bits")
    assert made[2][1] == "no packet to trains has NID_PACKET 99 in system versions 1 and 2"


CROSSING = raw(88, f"01{5:08b}{500:015b}{20:015b}0")
"""A packet whose layout is less certain, and that fits it."""


@pytest.mark.parametrize(
    "packet, words",
    [
        (CROSSING, ""),
        (raw(88, f"01{5:08b}{500:015b}{20:015b}0000"), "the packet has 3 bits more than its layout: bits 64 to 66"),
        (raw(39, f"01{500:015b}{5:08b}"), "the packet has 4 bits more than its layout"),
        (raw(79, f"010{3:014b}{0:015b}1{13000:020b}{0:05b}"), "the packet ends within N_ITER, which needs 5 bits"),
        (raw(6, f"0{1:06b}{352:010b}"), ""),
        (raw(6, f"0{1:06b}{352:010b}{0:08b}"), ""),
        (raw(6, f"0{1:06b}{352:010b}{0:07b}"), "the packet has 7 bits more than its layout"),
        (raw(52, "0101"), ""),
        (raw(13, "0101"), ""),
        (raw(180, "0101"), ""),
        (raw(88, f"11{5:08b}{500:015b}{20:015b}0"), ""),
    ],
)
def test_e1_of_bodies_that_fit_no_form(program: Program, tmp_path: Path, packet: Any, words: str) -> None:
    """A layout that is less certain finds a wrong length only, and no spare number: Q_SCALE 3 is not reported."""
    made = found(program, tmp_path / "t.csv", "E1", [packets_added(3, RED, packet)])
    assert len(made) == bool(words) and all(words in each and "% sure of this layout" in each for _, each in made)


def test_e1_of_layouts_that_a_project_has_compared(program: Program, tmp_path: Path) -> None:
    """They are compared completely, and without a doubt."""
    compared = Options(layouts=frozenset({52, 88}))
    changes = [packets_added(3, RED, raw(88, f"11{5:08b}{500:015b}{20:015b}0")), packets_added(4, RED, raw(52, "0101"))]
    made = found(program, tmp_path / "t.csv", "E1", changes, compared)
    assert [row for row, _ in made] == [row_of(4, RED), row_of(3, RED)] and "Q_SCALE has the spare number" in made[1][1]
    assert not any("sure" in each for _, each in made)


def test_e2(program: Program, tmp_path: Path) -> None:
    """The limits themselves and special values are no remark."""
    changes = [
        packet_with(1, YELLOW, 12, v_main=100),
        element_with(2, YELLOW, 27, 0, v_static=71, differences=[{"q_diff": 0, "nc": 0, "v_diff": 72}]),
        element_with(3, YELLOW, 21, 0, g_a=41),
        packet_with(4, YELLOW, 12, overlap={"d_startol": 0, "t_ol": 1, "d_ol": 200, "v_releaseol": 9}),
        packets_added(5, RED, restriction(71), place=0),
        packets_added(5, YELLOW, raw(80, f"01{1:05b}{'0' * 15}{0:02b}{100:07b}{'0' * 31}"[:62]), place=0),
        packet_with(6, YELLOW, 12, v_main=70, overlap={"d_startol": 0, "t_ol": 1, "d_ol": 200, "v_releaseol": 8}),
        element_with(6, YELLOW, 21, 0, g_a=40),
    ]
    made = found(program, tmp_path / "t.csv", "E2", changes)
    assert [each for each in made if each[0] != row_of(5, YELLOW)] == [
        (row_of(1, YELLOW), "V_MAIN is 500 km/h [100], above 350 km/h (--line-speed); 100 km/h are sent as 20"),
        (row_of(4, YELLOW), "V_RELEASEOL is 45 km/h [9], above 40 km/h (--release-speed)"),
        (row_of(3, YELLOW), "at km 13.000, G_A of the first element is 41 ‰, above 40 ‰"),
        (
            row_of(2, YELLOW),
            "at km 11.500, V_STATIC of the first element is 355 km/h [71], above 350 km/h (--line-speed); "
            "at km 11.500, V_DIFF of the first element is 360 km/h [72], above 350 km/h (--line-speed)",
        ),
        (row_of(5, RED), "V_TSR is 355 km/h [71], above 350 km/h (--line-speed)"),
    ]


def test_e2_of_a_mode_profile(program: Program, tmp_path: Path) -> None:
    """V_MAMODE 127 is the national value, and 71 is above the limit."""
    profile = [f"{place:015b}{0:02b}{speed:07b}{100:015b}{50:015b}0" for place, speed in ((0, 127), (200, 71))]
    one = raw(80, f"01{profile[0]}{1:05b}{profile[1]}")
    assert found(program, tmp_path / "t.csv", "E2", [packets_added(1, RED, one)]) == [
        (row_of(1, RED), "V_MAMODE of the second element is 355 km/h [71], above 350 km/h (--line-speed)")
    ]


def test_e2_by_the_speeds_of_the_line(program: Program, tmp_path: Path) -> None:
    """The signals allow 100 to 160 km/h. Several values of one packet are one remark."""
    made = found(program, tmp_path / "t.csv", "E2", [], Options(line_speed=120))
    assert made and all("above 120 km/h (--line-speed)" in each for _, each in made)
    assert len({row for row, _ in made}) * 2 >= len(made)
    changes = [packet_with(1, YELLOW, 12, overlap={"d_startol": 0, "t_ol": 1, "d_ol": 200, "v_releaseol": 8})]
    assert len(found(program, tmp_path / "t.csv", "E2", changes, Options(release_speed=35))) == 1


def test_e2_above_the_profile_is_asked_for(program: Program, tmp_path: Path) -> None:
    changes = [packet_with(1, YELLOW, 12, v_main=24)]
    assert found(program, tmp_path / "t.csv", "E2", changes) == []
    assert found(program, tmp_path / "t.csv", "E2", changes, ASKED) == [
        (row_of(1, YELLOW), "V_MAIN is 120 km/h [24], above the greatest speed of the profile with it, 100 km/h [20]")
    ]
    faster = element_with(1, YELLOW, 27, 0, differences=[{"q_diff": 0, "nc": 4, "v_diff": 24}])
    assert found(program, tmp_path / "t.csv", "E2", [*changes, faster], ASKED) == []


def overlap(start: int, length: int) -> Any:
    """An overlap in metres."""
    return {"d_startol": start, "t_ol": 60, "d_ol": length, "v_releaseol": 126}


def test_e3(program: Program, tmp_path: Path) -> None:
    timer = {"t_sectiontimer": 60, "d_sectiontimerstoploc": 700}
    changes = [
        packet_with(1, YELLOW, 12, sections=[{"l_section": 600, "section_timer": timer}], l_endsection=900),
        packet_with(1, GREEN, 12, sections=[{"l_section": 0}]),
        packet_with(2, YELLOW, 12, end_timer={"t_endtimer": 60, "d_endtimerstartloc": 1501}),
        packet_with(2, GREEN, 12, overlap=overlap(3001, 200)),
        packet_with(3, YELLOW, 12, danger_point={"d_dp": 201, "v_releasedp": 126}),
        packet_with(3, GREEN, 12, end_speed=100, overlap=None),
        packet_with(4, YELLOW, 12, end_timeout=60),
        packet_with(4, GREEN, 12, end_speed=4),
        packet_with(5, YELLOW, 12, l_endsection=0),
        packet_with(5, GREEN, 12, section_timer={**timer, "d_sectiontimerstoploc": 3001}),
    ]
    main = change(SHORT.rows, "Signal 3", GREEN, 12)["v_main"]
    assert found(program, tmp_path / "t.csv", "E3", changes) == [
        (row_of(1, YELLOW), "D_SECTIONTIMERSTOPLOC 700 m is beyond the first section, L_SECTION 600 m"),
        (row_of(1, GREEN), "L_SECTION of the first section is 0 m"),
        (row_of(2, YELLOW), "D_ENDTIMERSTARTLOC 1501 m is greater than the sum of all lengths, 1500 m"),
        (row_of(2, GREEN), "D_STARTOL 3001 m is greater than the sum of all lengths, 3000 m"),
        (row_of(3, YELLOW), "the overlap ends before the danger point: D_OL 200 m, D_DP 201 m"),
        (row_of(3, GREEN), f"V_LOA 500 km/h [100] is above V_MAIN {main * 5} km/h [{main}]"),
        (row_of(4, YELLOW), "T_LOA is 60 s and V_LOA is 0 km/h"),
        (row_of(4, GREEN), "V_LOA is 20 km/h [4], and an overlap is there, which is for V_LOA 0 km/h"),
        (row_of(5, YELLOW), f"V_MAIN is {_main(5)}, and the sum of all lengths is 0 m"),
        (row_of(5, GREEN), "D_SECTIONTIMERSTOPLOC 3001 m is beyond the end section, L_ENDSECTION 3000 m"),
    ]


def test_e3_of_timers_that_run_out_at_once(program: Program, tmp_path: Path) -> None:
    timer = {"t_sectiontimer": 0, "d_sectiontimerstoploc": 100}
    changes = [
        packet_with(1, YELLOW, 12, section_timer=timer),
        packet_with(2, YELLOW, 12, end_timer={"t_endtimer": 0, "d_endtimerstartloc": 400}),
        packet_with(3, YELLOW, 12, overlap={**overlap(100, 200), "t_ol": 0}),
        packet_with(4, YELLOW, 12, overlap=None, end_speed=4, end_timeout=0),
    ]
    words = ("T_SECTIONTIMER is 0 s", "T_ENDTIMER is 0 s", "T_OL is 0 s", "T_LOA is 0 s, and V_LOA is 20 km/h [4]")
    assert found(program, tmp_path / "t.csv", "E3", changes) == [
        (row_of(signal, YELLOW), each) for signal, each in enumerate(words, 1)
    ]


def _main(signal: int) -> str:
    main = change(SHORT.rows, f"Signal {signal}", YELLOW, 12)["v_main"]
    return f"{main * 5} km/h [{main}]"


def test_e3_of_equal_values(program: Program, tmp_path: Path) -> None:
    """Each limit itself is in order, a stop aspect with an overlap and without length, and V_LOA with a time limit."""
    timer = {"t_sectiontimer": 60, "d_sectiontimerstoploc": 1500}
    changes = [
        packet_with(1, YELLOW, 12, section_timer=timer, end_timer={"t_endtimer": 60, "d_endtimerstartloc": 1500}),
        packet_with(2, YELLOW, 12, overlap=overlap(1500, 200), danger_point={"d_dp": 200, "v_releasedp": 126}),
        packet_with(3, YELLOW, 12, end_speed=_raw_main(3), end_timeout=60, overlap=None),
        packet_with(4, RED, 12, overlap=overlap(300, 200)),
        packet_with(4, GREEN, 12, end_speed=4, end_timeout=60, danger_point={"d_dp": 100, "v_releasedp": 126}),
    ]
    assert found(program, tmp_path / "t.csv", "E3", changes) == []


def _raw_main(signal: int) -> int:
    main: int = change(SHORT.rows, f"Signal {signal}", YELLOW, 12)["v_main"]
    return main


def gradients(*elements: Tuple[int, int]) -> Any:
    """The elements of a gradient profile: distances in metres, and signed gradients."""
    return [{"d_gradient": at, "q_gdir": int(0 <= value < 255), "g_a": abs(value)} for at, value in elements]


def speeds(*elements: Tuple[int, int]) -> Any:
    """The elements of a speed profile."""
    return [{"d_static": at, "v_static": value, "q_front": 0, "differences": []} for at, value in elements]


def with_differences(*differences: Tuple[int, int, int]) -> Any:
    """A speed profile of 100 km/h with the speeds of categories: Q_DIFF, NC and V_DIFF."""
    elements = speeds((0, 20), (1700, 127))
    elements[0]["differences"] = [{"q_diff": kind, "nc": nc, "v_diff": value} for kind, nc, value in differences]
    return elements


def test_e4(program: Program, tmp_path: Path) -> None:
    changes = [
        packet_with(1, YELLOW, 21, elements=gradients((0, 3), (0, 5), (1700, 255))),
        packet_with(2, YELLOW, 21, elements=gradients((0, 3), (1700, 255), (100, 5), (100, 255))),
        packet_with(3, YELLOW, 21, elements=gradients((0, 255))),
        packet_with(4, YELLOW, 21, elements=gradients((0, 3), (500, 3), (1200, 255))),
        packet_with(5, YELLOW, 21, elements=gradients((0, 3), (1700, -3), (0, 255))),
        packet_with(1, GREEN, 27, elements=speeds((0, 20), (1000, 0), (2200, 127))),
        packet_with(2, GREEN, 27, elements=speeds((0, 20), (1000, 20), (2200, 127))),
        packet_with(3, GREEN, 27, elements=with_differences((0, 2, 24), (0, 2, 25))),
        packet_with(4, GREEN, 27, elements=with_differences((0, 2, 24), (0, 4, 22))),
        packet_with(5, GREEN, 27, elements=with_differences((0, 2, 19), (1, 0, 10))),
    ]
    assert found(program, tmp_path / "t.csv", "E4", changes) == [
        (
            row_of(1, YELLOW),
            "at km 10.000, D_GRADIENT of the second element is 0 m: it begins where the one before it does",
        ),
        (row_of(2, YELLOW), "2 elements follow the end mark, the second element"),
        (row_of(3, YELLOW), "the end mark is the first element"),
        (row_of(4, YELLOW), "at km 15.000, the second element repeats the one before it, +3 ‰"),
        (
            row_of(5, YELLOW),
            "at km 17.700, D_GRADIENT of the third element is 0 m: it begins where the one before it does",
        ),
        (row_of(1, GREEN), "at km 11.000, V_STATIC of the second element is 0 km/h"),
        (row_of(2, GREEN), "at km 12.500, the second element repeats the one before it, V_STATIC 100 km/h [20]"),
        (row_of(3, GREEN), "the first element has a train category twice"),
        (
            row_of(4, GREEN),
            "V_DIFF of the first element is 120 km/h [24] for cant deficiency 130 mm, and 110 km/h [22] for cant "
            "deficiency 165 mm",
        ),
        (
            row_of(5, GREEN),
            "V_DIFF of the first element is 95 km/h [19] for cant deficiency 130 mm, and V_STATIC 100 km/h [20]",
        ),
    ]


def test_e4_of_profiles_in_order(program: Program, tmp_path: Path) -> None:
    """Equal speeds with other categories or another Q_FRONT are no repetition; freight trains may be slower."""
    again = with_differences((0, 2, 20), (0, 4, 20), (1, 0, 10), (2, 0, 12))
    again[1:1] = speeds((500, 20))
    front = speeds((0, 20), (500, 20), (1200, 127))
    front[1]["q_front"] = 1
    changes = [
        packet_with(1, YELLOW, 27, elements=again[:2] + again[2:]),
        packet_with(2, YELLOW, 27, elements=front),
        packet_with(3, YELLOW, 21, elements=gradients((0, 3), (500, -3), (1200, 255))),
    ]
    made = found(program, tmp_path / "t.csv", "E4", changes)
    assert made == [(row_of(1, YELLOW), "the first element has a train category twice")]


def test_e4_of_what_one_distance_cannot_hold(program: Program, tmp_path: Path) -> None:
    """With Q_SCALE 0 one distance ends at 3,276.7 m: 32,767 units together are a repetition, and one more is none."""
    line = [(16_000, 16_767), (16_000, 16_768)]
    changes = [
        packet_with(signal, GREEN, 21, q_scale=0, elements=gradients((0, 3), (one, 3), (other, 255)))
        for signal, (one, other) in enumerate(line, 1)
    ]
    made = found(program, tmp_path / "t.csv", "E4", changes)
    assert made == [(row_of(1, GREEN), "at km 11.600, the second element repeats the one before it, +3 ‰")]


def level(direction: int, distance: int) -> Any:
    """A level transition order."""
    order = [{"m_leveltr": 2, "l_ackleveltr": 0}]
    return {"nid_packet": 41, "q_dir": direction, "q_scale": 1, "d_leveltr": distance, "transitions": order}


def test_e5(program: Program, tmp_path: Path) -> None:
    """Several packets of one telegram are one remark. A level that changes at the group may do so both ways."""

    def all_of_them(rows: List[Row]) -> None:
        for number in (12, 21, 27):
            change(rows, "Signal 1", YELLOW, number)["q_dir"] = 2

    changes = [
        all_of_them,
        packets_added(2, RED, level(2, 500)),
        packets_added(3, RED, level(2, 0)),
        packets_added(4, RED, level(2, 32_767)),
        packets_added(5, RED, raw(44, "0" * 9, 2), raw(137, "0", 2)),
        packets_added(6, RED, {**restriction(8), "q_dir": 2}),
        packets_added(6, YELLOW, raw(68, f"011{0:015b}", 2)),
        packets_added(6, GREEN, raw(68, f"011{100:015b}", 2)),
    ]
    words = "and Q_DIR 2, both directions: it would count on both sides of the group"
    assert found(program, tmp_path / "t.csv", "E5", changes) == [
        (
            row_of(1, YELLOW),
            "the packets 12 (movement authority of level 1), 21 (gradient profile), 27 (international static speed "
            "profile) have distances, and Q_DIR 2, both directions: they would count on both sides of the group",
        ),
        (row_of(6, RED), f"it has a distance, {words}"),
        (row_of(6, GREEN), f"it has a distance, {words}"),
        (row_of(2, RED), f"it has a distance, D_LEVELTR 500 m, {words}"),
    ]


PLACES: List[Tuple[int, str]] = [
    (39, "{:015b}0000"),
    (40, "{:015b}0000000001"),
    (70, f"0{{:015b}}00{1:08b}{0:05b}"),
    *((number, "1{:015b}") for number in (51, 52, 68, 69, 70)),
    (131, f"{{:015b}}{352:010b}{2:014b}{'1' * 64}0"),
]
"""Packets with one distance, and their bits after Q_SCALE."""


@pytest.mark.uncovered
@pytest.mark.parametrize("number, bits", PLACES)
@pytest.mark.parametrize("distance", (0, 100, 32_767))
def test_e5_of_the_place_of_the_group(program: Program, tmp_path: Path, number: int, bits: str, distance: int) -> None:
    """D_RBCTR 32,767 means the place of the group too."""
    change_ = packets_added(3, RED, raw(number, f"01{bits.format(distance)}", 2))
    words = "it has a distance, and Q_DIR 2, both directions: it would count on both sides of the group"
    assert (
        found(program, tmp_path / "t.csv", "E5", [change_])
        == [(row_of(3, RED), words)][: distance == 100 or distance > 0 and number != 131]
    )


def test_e5_of_a_stop(program: Program, tmp_path: Path) -> None:
    """An authority without any length has no distance, and stops the trains of both directions."""

    def both(rows: List[Row]) -> None:
        change(rows, "Signal 1", RED, 12)["q_dir"] = 2
        for number in (12, 27):
            change(rows, "Signal 2", RED, number)["q_dir"] = 2

    words = "and Q_DIR 2, both directions:"
    assert found(program, tmp_path / "t.csv", "E5", [both]) == [
        (row_of(1, RED), f"it has no length, {words} it stops the trains of both"),
        (row_of(2, RED), f"it has a distance, {words} it would count on both sides of the group"),
    ]


def test_e6(program: Program, tmp_path: Path) -> None:
    second = {"nid_packet": 5, "q_dir": 1, "q_scale": 1, "links": change(SHORT.rows, "Signal 3", FIXED, 5)["links"]}
    cover = {"nid_packet": 0, "nid_vbcmk": 1}
    reference = raw(136, f"0{2:014b}")
    changes = [
        packets_added(1, RED, raw(58, "0" * 40), raw(140, "1" * 32)),
        packets_added(2, RED, cover),
        packets_added(2, GREEN, cover, place=0),
        packets_added(3, YELLOW, second),
        packets_added(4, YELLOW, {**second, "q_dir": 0}),
        packets_added(4, GREEN, reference, second),
        packets_added(5, RED, raw(13, "0" * 40), raw(64, "")),
    ]
    assert found(program, tmp_path / "t.csv", "E6", changes) == [
        (row_of(1, RED), "a balise has it, and only radio sends it"),
        (row_of(1, RED), "a balise has it, and only radio sends it"),
        (row_of(5, RED), "a balise has it, and only loops send it"),
        (row_of(2, RED), "it is the fourth packet of its telegram, and a train looks for it at the beginning"),
        (
            row_of(3, YELLOW),
            f"a train gets 2 packets 5 (linking) in nominal direction, in rows {row_of(3, FIXED)} and "
            f"{row_of(3, YELLOW)}: nobody knows which of them it uses",
        ),
    ]


def test_e6_names_other_packets_if_asked(program: Program, tmp_path: Path) -> None:
    def twice(rows: List[Row]) -> None:
        packets_added(1, YELLOW, change(rows, "Signal 1", GREEN, 21))(rows)

    assert found(program, tmp_path / "t.csv", "E6", [twice]) == []
    assert found(program, tmp_path / "t.csv", "E6", [twice], ASKED) == [
        (
            row_of(1, YELLOW),
            "a train gets 2 packets 21 (gradient profile) in nominal direction: nobody knows which of them it uses",
        )
    ]


@pytest.mark.parametrize(
    "number, name, changed",
    [
        (12, "movement authority of level 1", {"v_main": 24}),
        (80, "mode profile", raw(80, f"01{100:015b}00{8:07b}{1500:015b}{0:015b}0{0:05b}")),
        (132, "danger for shunting information", raw(132, "1")),
        (137, "stop if in staff responsible", raw(137, "1")),
    ],
)
def test_e6_of_two_orders(program: Program, tmp_path: Path, number: int, name: str, changed: Any) -> None:
    """Of two orders of a red aspect the second one may let trains run. No other rule looks at it."""

    def added(changed: Any) -> Change:
        def add(rows: List[Row]) -> None:
            first = {
                12: change(rows, "Signal 3", RED, 12),
                80: raw(80, f"01{100:015b}00{4:07b}{1500:015b}{0:015b}0{0:05b}"),
                132: raw(132, "0"),
                137: raw(137, "0"),
            }[number]
            packets_added(3, RED, *([] if number == 12 else [first]), {**first, **changed})(rows)

        return add

    assert found(program, tmp_path / "t.csv", "E6", [added({})]) == []
    words = f"a train gets 2 packets {number} ({name}) in nominal direction: nobody knows which of them it uses"
    assert found(program, tmp_path / "t.csv", "E6", [added(changed)]) == [(row_of(3, RED), words)]
    assert found(program, tmp_path / "t.csv", "E6", [added({**changed, "q_dir": 0})]) == []


def test_e6_names_packet_64_if_asked(program: Program, tmp_path: Path) -> None:
    """It is less sure that only radio sends it."""
    added = packets_added(1, RED, raw(64, ""))
    assert found(program, tmp_path / "t.csv", "E6", [added]) == []
    assert found(program, tmp_path / "t.csv", "E6", [added], ASKED) == [
        (row_of(1, RED), "a balise has it, and only radio sends it")
    ]


def test_e6_leaves_out_equal_packets(program: Program, tmp_path: Path) -> None:
    """A packet that is sent twice on purpose says one thing."""

    def twice(rows: List[Row]) -> None:
        packets_added(1, YELLOW, change(rows, "Signal 1", YELLOW, 21))(rows)

    assert found(program, tmp_path / "t.csv", "E6", [twice], ASKED) == []


@pytest.mark.parametrize(
    "further, words",
    [
        ([], []),
        ([{"nid_packet": 21}], []),
        ([{"nid_packet": 15}], ["the message has 2 packets 15, and a message 3 has exactly one"]),
        ([{"nid_packet": 15}] * 2, ["the message has 3 packets 15, and a message 3 has exactly one"]),
        (
            [{"nid_packet": 12, "v_main": 10}],
            ["a message 3 has it, and only balises, loops or radio infill units send it"],
        ),
    ],
)
def test_e6_of_authorities(program: Program, tmp_path: Path, further: List[Any], words: List[str]) -> None:
    """A message 3 has exactly one packet 15 and no packet 12. Equal ones and those of the other direction count too."""
    authority: Any = {"q_scale": 1, "end_speed": 0, "end_timeout": 1023, "sections": [], "l_endsection": 900}
    level: Any = {"q_scale": 1, "elements": [{"d_gradient": 0, "q_gdir": 1, "g_a": 255}]}
    others = [{"q_dir": 0, **(level if each["nid_packet"] == 21 else authority), **each} for each in further]
    form: Any = {"nid_message": 3, "t_train": 1, "m_ack": 0, "nid_c": 352, "nid_bg": 1}
    (made,) = program.encode([{**form, "packets": [{"nid_packet": 15, "q_dir": 1, **authority}, *others]}], radio=True)
    path = tmp_path / "m.txt"
    path.write_text(f"{getattr(made, 'line')}\n", "utf-8")
    table = reader.read(str(written(program, tmp_path / "t.csv", SHORT)))
    line = LineOfTable.of(checking.check(program, table, messages_file.read(str(path))))
    (rule,) = [each for each in meaning.RULES if each.name == "E6"]
    for options in (Options(), ASKED):
        remarks_ = [each for each in rule.find(line, options).found if each.location.message]
        assert [each.sentence for each in remarks_] == words
        assert all(each.location.packet == len(further) for each in remarks_)


def test_messages_are_looked_at(program: Program, tmp_path: Path) -> None:
    """A message 3 with a packet of balises, a V_LOA with T_LOA, and an authority for both directions."""
    authority: Any = {"q_dir": 2, "q_scale": 1, "end_speed": 0, "end_timeout": 30, "sections": [], "l_endsection": 900}
    packets = [{"nid_packet": 15, **authority}, {"nid_packet": 254, "q_dir": 1, "l_packet": 23, "body": ""}]
    form = {"nid_message": 3, "t_train": 1, "m_ack": 0, "nid_c": 352, "nid_bg": 1, "packets": packets}
    (text,) = program.encode([form], radio=True)
    path = tmp_path / "m.txt"
    path.write_text(f"{getattr(text, 'line')}\n", "utf-8")
    table = reader.read(str(written(program, tmp_path / "t.csv", SHORT)))
    line = LineOfTable.of(checking.check(program, table, messages_file.read(str(path))))
    made = [each for rule in meaning.RULES if rule.name in ("E3", "E5", "E6") for each in rule.find(line, ASKED).found]
    assert [(each.rule, each.location.message is not None, each.location.direction) for each in made] == [
        ("E3", True, ""),
        ("E5", True, ""),
        ("E6", True, ""),
    ]


def report(number: int, distance: int, time: int, **values: Any) -> Any:
    """A position report at a distance from a group."""
    own = {"nid_packet": 0, "q_scale": 1, "nid_c": 352, "nid_bg": number, "d_lrbg": distance, "q_dirlrbg": 1}
    own.update({"q_dlrbg": 1, "l_doubtover": 10, "l_doubtunder": 10, "q_length": 0, "v_train": 24, "q_dirtrain": 1})
    own.update({"m_mode": 0, "m_level": 3, **values})
    return {"nid_message": 136, "t_train": time, "nid_engine": 1, "packets": [own]}


def of_messages(program: Program, path: Path, *forms: Any) -> List[Tuple[int, str]]:
    """The lines and sentences of rule E31 about messages beside the short line."""
    lines = path.with_name("messages.txt")
    lines.write_text("".join(f"{text.line}\n" for text in program.encode(forms, radio=True)), "utf-8")
    checked = checking.check(program, reader.read(str(written(program, path, SHORT))), messages_file.read(str(lines)))
    (rule,) = [each for each in meaning.RULES if each.name == "E31"]
    made = rule.find(LineOfTable.of(checked), Options())
    assert made.looked_at + made.skipped == len(forms)
    return [(each.location.message.number if each.location.message else 0, each.sentence) for each in made.found]


def test_e31(program: Program, tmp_path: Path) -> None:
    """A group that is not there, a train beyond the next group, and one that is at two places at once."""
    group = "NID_LRBG is that of group 88 of country or region 352, and the table has no such group"
    forms = [report(3, 500, 1), report(88, 500, 2), report(3, 1600, 3), report(3, 1511, 4), report(3, 600, 1)]
    assert of_messages(program, tmp_path / "t.csv", *forms) == [
        (2, group),
        (
            3,
            "the train is 1600 m from Signal 3 (km 13.000), and has passed Signal 4 (km 14.500), 1500 m from it, which "
            "has Q_LINK 1: its NID_LRBG would be that group",
        ),
        (
            5,
            "at T_TRAIN 1 the train 1 is 600 m from group 3 of country or region 352, and 500 m from group 3 of "
            "country or region 352 by the message of line 1",
        ),
    ]


@pytest.mark.parametrize(
    "form",
    [
        report(16_383, 500, 1),
        report(3, 1600, 1, q_dlrbg=0),  # (behind the train the next group is 1,500 m away, and it has Q_LINK 1)
        report(1, 1600, 1, q_dlrbg=0),
        report(3, 32_767, 1),
        report(6, 5000, 1),
    ],
)
def test_e31_of_what_is_not_known(program: Program, tmp_path: Path, form: Any) -> None:
    """A group that is not known, a distance that is not known, and a place beyond the table."""
    behind = form["packets"][0]["q_dlrbg"] == 0 and form["packets"][0]["nid_bg"] == 3
    assert len(of_messages(program, tmp_path / "t.csv", form)) == behind


@pytest.mark.parametrize(
    ("values", "why"),
    [
        ({"nid_bg": 16_383}, "no group, side or distance"),
        ({"q_dlrbg": 2}, "no group, side or distance"),
        ({"d_lrbg": 32_767}, "no group, side or distance"),
        ({"l_doubtover": 32_767}, "L_DOUBTOVER is not known"),
        ({"nid_bg": 4}, "of a group without a kilometre or direction"),
    ],
)
def test_e31_counts_what_it_passes_over(program: Program, tmp_path: Path, values: Any, why: str) -> None:
    form, lines, path = report(3, 1600, 1), tmp_path / "m.txt", tmp_path / "t.csv"
    form["packets"][0].update(values)
    (text,) = program.encode([form], radio=True)
    lines.write_text(f"{getattr(text, 'line')}\n", "utf-8")
    written(program, path, SHORT)
    path.write_text(path.read_text("utf-8").replace("14.503", "").replace("14.500", ""), "utf-8")
    line = LineOfTable.of(checking.check(program, reader.read(str(path)), messages_file.read(str(lines))))
    (rule,) = [each for each in meaning.RULES if each.name == "E31"]
    made = rule.find(line, Options())
    assert not made.found and made.looked_at == 0 and made.not_looked_at == {why: 1}


def test_e31_tolerates_rounding(program: Program, tmp_path: Path) -> None:
    """By the greater unit if Q_SCALE differs. Beyond the next group: L_DOUBTOVER, Q_SCALE, 1 m and 1 m."""
    both = [report(3, 500, 1), report(3, 5009, 1, q_scale=0)]
    assert of_messages(program, tmp_path / "t.csv", *both) == []
    assert len(of_messages(program, tmp_path / "t.csv", both[0], report(3, 5011, 1, q_scale=0))) == 1
    assert len(of_messages(program, tmp_path / "t.csv", both[0], report(3, 501, 1))) == 1
    assert of_messages(program, tmp_path / "t.csv", report(3, 1500 + 10 + 1 + 1 + 1, 1)) == []
    assert len(of_messages(program, tmp_path / "t.csv", report(3, 1500 + 10 + 1 + 1 + 2, 1))) == 1


def test_e31_of_a_time_that_is_not_known(program: Program, tmp_path: Path) -> None:
    reports = [report(3, distance, 4_294_967_295) for distance in (100, 200)]
    assert of_messages(program, tmp_path / "t.csv", *reports) == []

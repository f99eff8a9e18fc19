"""The same authorities and profiles in the picture of a group and in that of a track: one renderer draws both."""
from __future__ import annotations

import re
from collections import Counter
from decimal import Decimal
from pathlib import Path
from typing import Any, Counter as Counts, Dict, List, Sequence, Tuple

import picture_lines
import pytest
from test_links import group, header
from test_track import drawn

from balisekit.cli import main as cli
from balisekit.drawing.group import PictureRow, draw
from balisekit.drawing.sheet import Picture, Shape
from balisekit.engine.program import Program
from balisekit.etcs.geometry import Kilometres
from balisekit.present.pages import TEMPLATES

Form = Dict[str, Any]
STYLES = {
    *("speed", "step", "step open", "up", "down", "level", "none", "endmark", "arrow", "pale", "timer"),
    *("section0", "section1", "overlap", "end", "danger", "supervised", "vmain", "category", "acknowledged", "area41"),
}


def speeds(*elements: Tuple[int, int]) -> Form:
    """A static speed profile: D_STATIC and V_STATIC of its elements."""
    parts = [{"d_static": at, "v_static": speed, "q_front": 0, "differences": []} for at, speed in elements]
    return {"nid_packet": 27, "q_scale": 1, "elements": parts}


def gradients(*elements: Tuple[int, int, int]) -> Form:
    """A gradient profile: D_GRADIENT, Q_GDIR and G_A of its elements."""
    parts = [{"d_gradient": at, "q_gdir": up, "g_a": value} for at, up, value in elements]
    return {"nid_packet": 21, "q_scale": 1, "elements": parts}


def authority(end: int, *sections: int, **parts: Form) -> Form:
    """An authority with an end section of this length, and sections before it."""
    head = {"nid_packet": 12, "q_scale": 1, "v_main": 24, "end_speed": 4, "end_timeout": 60}
    return {**head, "sections": [{"l_section": length} for length in sections], "l_endsection": end, **parts}


DANGER_POINT = {"d_dp": 60, "v_releasedp": 5}
OVERLAP = {"d_startol": 100, "t_ol": 30, "d_ol": 120, "v_releaseol": 126}
TIMER = {"t_sectiontimer": 40, "d_sectiontimerstoploc": 200}
END_TIMER = {"t_endtimer": 1023, "d_endtimerstartloc": 300}
WAYS: Dict[str, Sequence[Form]] = {
    "timers of sections": [authority(900, 300, section_timer=TIMER, end_timer=END_TIMER)],
    "an authority by itself": [authority(900)],
    "sections, danger point and overlap": [authority(900, 300, 0, 200, danger_point=DANGER_POINT, overlap=OVERLAP)],
    "a danger point without an overlap": [authority(700, danger_point=DANGER_POINT)],
    "profiles with end marks": [
        authority(900),
        speeds((0, 20), (400, 24), (500, 127)),
        gradients((0, 1, 5), (300, 0, 7), (100, 1, 0), (500, 1, 255)),
    ],
    "profiles that begin beyond the group": [speeds((50, 20), (400, 127)), gradients((30, 0, 4), (300, 1, 255))],
    "open profiles": [authority(900), speeds((0, 20), (300, 10)), gradients((0, 1, 5))],
    "elements after the end mark": [
        speeds((0, 20), (300, 127), (100, 10), (200, 30)),
        gradients((0, 1, 5), (9, 1, 255)),
    ],
    "categories and a level": [
        authority(900),
        {
            **speeds((0, 16), (800, 127)),
            "elements": [
                {**speeds((0, 16))["elements"][0], "differences": [{"q_diff": 0, "nc": 1, "v_diff": 20}]},
                *speeds((800, 127))["elements"],
            ],
        },
        picture_lines.level(1, 700, 3, 200),
    ],
    "two of each": [
        authority(900),
        authority(500, 20),
        speeds((0, 20)),
        speeds((0, 4), (90, 127)),
        gradients((0, 1, 9)),
    ],
}


IN_ONE = re.compile(r"[0-9.]+ m, (?=km)|, nominal|, Group A|, release speed (calculated on board|[0-9]+ km/h)")
"""What only the titles of one of the two pictures have."""


def titles(picture: Picture) -> Counts[Tuple[str, str]]:
    """The shapes of a picture with their titles, in which metres from the group and its name are left out.

    The picture of a group for nominal direction alone does not name the direction. It has release speeds as texts.
    """
    shapes = [shape for shape in picture.shapes if shape.style in STYLES and shape.title]
    return Counter((shape.style, re.sub(IN_ONE, "", shape.title)) for shape in shapes)


@pytest.mark.parametrize("rising", [1, -1])
@pytest.mark.parametrize("direction", [0, 1, 2])
@pytest.mark.parametrize("name", WAYS)
def test_both_pictures_have_the_same_shapes(name: str, direction: int, rising: int) -> None:
    form = header(1, *({**packet, "q_dir": direction} for packet in WAYS[name]))
    (page,) = drawn((group("Group A", "2.5", nominal="rising" if rising > 0 else "falling"), [form]))
    picture = draw("Group A", [PictureRow("", [form])], Kilometres(Decimal("2.5"), rising))
    shapes = titles(picture)
    assert shapes and titles(page) == shapes
    said = sum("release speed" in shape.title for shape in page.shapes)
    assert said == sum("release speed" in shape.text for shape in picture.shapes) and bool(said) == ("danger" in name)
    looks: List[str] = [style for style, _ in shapes]
    assert ("pale" in looks) == ("after" in name) and ("arrow" in looks) == (name in ("open profiles", "two of each"))


@pytest.mark.parametrize("direction", [0, 1])
def test_an_open_profile_ends_a_tenth_and_100_m_beyond_the_last_place(direction: int) -> None:
    """In both pictures, whatever else they show."""
    form = header(1, *({**packet, "q_dir": direction} for packet in (authority(1000), speeds((0, 20), (300, 10)))))
    far = header(1, {**authority(2400), "q_dir": direction})
    (page,) = drawn((group("A", "2.5", nominal="rising"), [form]))
    picture = draw("A", [PictureRow("", [form]), PictureRow("", [far])], Kilometres())
    for shapes, reach in ((page.shapes, 5000), (picture.shapes, 2400)):
        (step,) = [shape for shape in shapes if shape.style == "step open"]
        begin, end = (float(number) for number in re.findall(r"[0-9.]+", step.path)[::2])
        assert abs((end - begin) / 682 * reach - 900) < 10, step


def pictured(*packets: Form) -> Picture:
    """The picture of a group that has these packets for nominal direction."""
    return draw("A", [PictureRow("", [header(1, *packets)])], Kilometres(Decimal(10), 1))


def of(picture: Picture, style: str) -> List[Shape]:
    """The shapes of a style."""
    return [shape for shape in picture.shapes if shape.style == style]


def words(picture: Picture) -> List[str]:
    """The texts of a picture."""
    return [shape.text for shape in picture.shapes if shape.tag == "text"]


def test_speeds_of_categories_are_thin_lines() -> None:
    """Each at its height, with the category in short beside it and in full in its title."""
    profile = picture_lines.speeds(1, (0, 80), reach=1000, cd100=100, cd130=110, freight=60)
    picture = pictured(picture_lines.authority(1, 1000, 120), profile)
    assert [shape.title for shape in of(picture, "category")] == [
        f"{speed} km/h for {who}, from 0 m, km 10.000 to 1000 m, km 11.000: end mark"
        for speed, who in (
            (100, "cant deficiency 100 mm (by cant deficiency)"),
            (110, "cant deficiency 130 mm (by cant deficiency)"),
            (60, "freight trains braked in position P (by another category, in place of cant deficiency)"),
        )
    ]
    assert {"100 CD 100", "110 CD 130", "60 freight P", "V_MAIN 120", "80"} <= set(words(picture))
    heights = [int(shape.path.split()[1].split("H")[0]) for shape in (*of(picture, "category"), *of(picture, "vmain"))]
    assert heights[3] < heights[1] < heights[0] < heights[2]


def test_v_main_is_a_line_to_the_end_of_the_authority() -> None:
    profile = picture_lines.speeds(1, (0, 80), reach=1000)
    (line,) = of(pictured(picture_lines.authority(1, 500, 120), profile), "vmain")
    begin, end = (float(number) for number in re.findall(r"[0-9.]+", line.path)[::2])
    assert abs((end - begin) / 682 - 0.5) < 0.01 and not line.title
    assert not of(pictured(picture_lines.authority(1, 0, 0), profile), "vmain")


def test_timers_of_sections_are_flags() -> None:
    """At the places where they stop, that of the end section also where it starts, with their seconds."""
    form = authority(900, 300, 400, section_timer=TIMER, end_timer=END_TIMER)
    form["sections"][1]["section_timer"] = {**TIMER, "t_sectiontimer": 25}
    picture = pictured({**form, "q_dir": 1})
    assert [shape.title for shape in of(picture, "timer")] == [
        "T_SECTIONTIMER 25 s stops at 500 m, km 10.500",
        "T_SECTIONTIMER 40 s stops at 900 m, km 10.900",
        "T_ENDTIMER no time-out starts at 1300 m, km 11.300",
    ]
    assert {"25 s", "40 s", "no time-out"} <= set(words(picture))


@pytest.mark.parametrize("speed", [5, 40])
def test_a_limit_of_authority_has_no_supervised_location(speed: int) -> None:
    """With V_LOA above 0 the words say so, and there is no mark for one."""
    picture = pictured(picture_lines.authority(1, 900, 100, end_speed=speed))
    assert [shape.title for shape in of(picture, "end")] == [
        f"limit of authority: 900 m, km 10.900, V_LOA {speed} km/h, no supervised location"
    ]
    assert not of(picture, "supervised") and "limit of authority 900 m, no supervised location" in words(picture)
    assert "end 900 m; SvL" in words(pictured(picture_lines.authority(1, 900, 100)))


def test_where_a_level_and_a_mode_are_acknowledged() -> None:
    """From the group on, if that is where it begins; with words at their places."""
    later, at_once = picture_lines.level(1, 700, 3, 200), picture_lines.level(1, 100, 2, 300)
    picture = pictured(later, at_once, picture_lines.mode(1, (400, 300, 100)))
    assert [shape.title for shape in of(picture, "acknowledged")] == [
        "change to level 1: acknowledged from -200 m, km 9.800",
        "change to level 2: acknowledged from 500 m, km 10.500",
        "mode on sight, 40 km/h: acknowledged from 300 m, km 10.300",
    ]
    assert of(picture, "acknowledged")[0].x == "84"
    assert {"level 2 at 700 m, acknowledged from 500 m", "level 1 at 100 m, acknowledged from -200 m"} <= set(
        words(picture)
    )


def test_what_a_picture_says_without_being_seen() -> None:
    """The group, its authorities, speeds, gradients and levels, in a few sentences."""
    picture = pictured(*picture_lines.run(1, 1000, 100), picture_lines.level(1, 700, 3, 200))
    assert picture.description == (
        "km 10.000. : nominal, authority to 1000 m. speeds 80 to 100 km/h; gradients \u22123 to 3 \u2030; "
        "change to level 2 at 700 m, acknowledged from 500 m"
    )


def test_colours_are_those_of_the_palette() -> None:
    """By classes and variables, so that a page can be dark. No pattern, which makes a large print of 300 groups."""
    light, dark = (TEMPLATES / "palette.css").read_text("utf-8").split("@media")
    known = set(re.findall(r"(--\w+):", light))
    assert set(re.findall(r"(--\w+):", dark)) == known
    for name in ("picture.css", "track.css", "group.svg", "track.svg"):
        sheet = (TEMPLATES / name).read_text("utf-8")
        assert set(re.findall(r"var\((--\w+)\)", sheet)) <= known
        assert not re.search(r"#[0-9a-f]{3}|rgb|url\(|pattern|(fill|stroke)=", sheet), name


@pytest.mark.uncovered
def test_pictures_of_300_groups_are_small(program: Program, tmp_path: Path) -> None:
    """Less than 1.6 MB of a report, for signals of three aspects."""
    path, page = tmp_path / "t.csv", tmp_path / "r.html"
    path.write_text(picture_lines.table(program, list(picture_lines.signals(300, 1.4))), "utf-8")
    assert cli.main(["report", str(path), "--only", "F", "--html", str(page)]) == 0
    found = re.findall(r'<figure class="wide".*?</figure>', page.read_text("utf-8"), re.DOTALL)
    assert len(found) == 300 and sum(len(one.encode()) for one in found) < 1_600_000

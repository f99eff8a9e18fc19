"""A complete track in `draw` and `report`: what is on which page, and where."""
from __future__ import annotations

import json
import re
import xml.etree.ElementTree as ElementTree
from decimal import Decimal
from pathlib import Path
from typing import Any, Callable, List, Tuple

import link_tables
import pytest
from cases_of_program import TOP
from conftest import Run
from picture_lines import restriction
from telegrams import ALONE, MESSAGE
from test_links import group, header, line_with
from test_text_boxes import Written, overlaps, written

from balisekit.drawing.flags import Mark
from balisekit.drawing.letters import width
from balisekit.drawing.sheet import LEFT, RIGHT, WIDTH, Picture, Shape
from balisekit.drawing.track import LANES, track_pictures, tracks_of
from balisekit.drawing.track_pages import at_km, pages
from balisekit.etcs.geometry import kilometre
from balisekit.io import csv_writing
from balisekit.rules.links import compare
from balisekit.tables.model import Aspect, Group, Row

Write = Callable[..., Path]
Form = Any
LINE = TOP / "examples" / "table" / "line.csv"
LINKS = TOP / "examples" / "links"
ROOM = WIDTH - LEFT - RIGHT
SVG = "{http://www.w3.org/2000/svg}"


def drawn(*some: Tuple[Any, List[Form]], track: str = "", aspect: Any = None) -> List[Picture]:
    """The pictures of a line."""
    line = line_with(*some)
    return list(track_pictures(line, compare(line), track, aspect))


def looks(picture: Picture, look_wanted: str) -> List[Shape]:
    """The shapes of a look."""
    return [one for one in picture.shapes if one.style == look_wanted]


def place(picture_x: str) -> float:
    """The kilometre of a coordinate on a page that begins at km 0."""
    return (float(picture_x) - LEFT) / ROOM * 5


def authority(direction: int = 1) -> List[Form]:
    """An authority of 1,000 m with its profiles."""
    return [{**packet, "q_dir": direction} for packet in link_tables.authority()]


@pytest.mark.parametrize(
    "nominal, direction, wanted",
    [("rising", 1, (2, 3)), ("rising", 0, (1, 2)), ("falling", 1, (1, 2)), ("falling", 0, (2, 3))],
)
def test_directions(nominal: str, direction: int, wanted: Tuple[int, int]) -> None:
    """What a group sends is drawn up or down the kilometres, as the train runs."""
    (picture,) = drawn((group("A", "2", nominal=nominal), [header(1, *authority(direction))]))
    for name in ("speed", "up", "section0"):
        (one,) = looks(picture, name)
        assert abs(place(one.x) - wanted[0]) < 0.01
        assert abs(place(one.x) + float(one.width) / ROOM * 5 - wanted[1]) < 0.01
    assert looks(picture, "end") and looks(picture, "supervised")
    to, whose = f"to km {sum(wanted) - 2}.000", f"{'nominal' if direction else 'reverse'}, A"
    assert looks(picture, "section0")[0].title == f"end section: 1000 m, {to} (SvL), {whose}"
    assert looks(picture, "speed")[0].title == f"100 km/h from km 2.000 {to}: end mark, {whose}"


def test_pages_of_five_kilometres() -> None:
    """Only pages on which there is something, each shape within its page; what goes on is on both."""
    some = [
        (
            group("A", "4.5", nominal="rising"),
            [header(1, *authority(), link_tables.linking(1, link_tables.link(1000, 2, 1)))],
        ),
        (group("B", "5.5", nominal="rising"), [header(2)]),
        (group("C", "93", nominal="rising"), [header(3)]),
    ]
    pictures = drawn(*some)
    assert [one.title for one in pictures] == ["km 0 to 5", "km 5 to 10", "km 90 to 95"]
    for picture in pictures[:2]:
        (one,) = looks(picture, "section0")
        assert abs(float(one.width) - ROOM / 10) < 0.2
        assert len(looks(picture, "arc")) == 1
        for shape in picture.shapes:
            if shape.tag == "rect":
                assert LEFT - 0.1 <= float(shape.x) and float(shape.x) + float(shape.width) <= LEFT + ROOM + 0.2
    ends = [
        [float(number) for number in re.findall(r"-?[0-9.]+", looks(picture, "arc")[0].path)]
        for picture in pictures[:2]
    ]
    assert ends[0][4] == LEFT + ROOM and ends[1][0] == LEFT and abs(ends[0][5] - ends[1][1]) < 1
    line = line_with(*some)
    assert [len(page.stations) for page in pages(line, compare(line), "", None)] == [1, 1, 1]


def test_wrong_distances_are_red() -> None:
    links = [link_tables.link(1010, 2, 1), link_tables.link(1000, 3, 1)]
    back = link_tables.linking(0, link_tables.link(1000, 2, 0))
    (picture,) = drawn(
        (group("A", "0", nominal="rising"), [header(1, link_tables.linking(1, *links))]),
        (group("B", "1.000", nominal="rising"), [header(2)]),
        (group("C", "2", nominal="rising"), [header(3, back)]),
    )
    assert [one.title.split(";")[0] for one in looks(picture, "arc wrong")] == ["A links B: 1010 m by D_LINK, nominal"]
    assert len(looks(picture, "arc")) == 1 and len(looks(picture, "arc back")) == 1
    assert len(looks(picture, "way red")) == 1 and len(looks(picture, "way")) == 2
    assert [one.text for one in looks(picture, "red middle")] == ["L2: 1010 m, by km 1000 m"]


def test_a_group_without_direction_is_a_mark_alone() -> None:
    (picture,) = drawn((group("A", "1"), [header(1, *authority())]))
    assert len(looks(picture, "station")) == 1 and not looks(picture, "speed")
    assert [one.text for one in looks(picture, "name middle")] == ["\u2022 A"]


def test_names_and_bands_do_not_overlap() -> None:
    """Groups that are close have names and lanes below each other. Too many lanes continue in another picture."""
    some = [
        (
            group(f"Group {chr(65 + number)}{chr(65 + number // 2)}", f"1.{number:03}", nominal="rising"),
            [header(number, *authority())],
        )
        for number in range(20)
    ]
    pictures = drawn(*some)
    assert [one.title for one in pictures] == ["km 0 to 5, part 1 of 2", "km 0 to 5, part 2 of 2"]
    assert [len(looks(one, "section0")) for one in pictures] == [LANES, 20 - LANES]
    for picture in pictures:
        assert picture.height < 1400 and not overlaps(picture)


def test_an_open_profile_is_dashed_and_ends_somewhere() -> None:
    packets = authority()
    packets[2]["elements"].pop()
    (picture,) = drawn((group("A", "1", nominal="rising"), [header(1, *packets)]))
    (one,) = looks(picture, "step open")
    assert one.title == "100 km/h from km 1.000 on: an open profile, nominal, A"


def test_tracks_are_apart() -> None:
    some = [
        (
            group("A", "1", nominal="rising", track="1"),
            [header(1, link_tables.linking(1, link_tables.link(1000, 2, 1)))],
        ),
        (group("B", "2", nominal="rising", track="2"), [header(2)]),
    ]
    assert tracks_of(line_with(*some)) == ["1", "2"]
    for track, name in (("1", "A"), ("2", "B")):
        (picture,) = drawn(*some, track=track)
        assert [one.text[2:] for one in looks(picture, "name middle")] == [name] and not looks(picture, "arc")


def test_the_example(run: Run, tmp_path: Path) -> None:
    """The picture beside the example is what is written; a refused telegram is named, with status 2."""
    status = run("draw", LINE, "--track", "--aspect", "green", "--svg", tmp_path / "t.svg")[0]
    assert status == 2
    assert (tmp_path / "t.svg").read_bytes() == LINE.with_name("track-green.svg").read_bytes()
    tree = ElementTree.parse(tmp_path / "t.svg")
    titles = [one.text or "" for one in tree.iter(f"{SVG}title")]
    assert any(title.startswith("Signal A links Signal C: 3000 m by D_LINK, nominal") for title in titles)
    assert len(list(tree.iter(f"{SVG}svg"))) == 6


def test_what_was_written(run: Run, table: Write, tmp_path: Path) -> None:
    """What is refused is marked and named. The file, its groups and what was left out are reported."""
    radio = table(f"{MESSAGE};to train 7", "0304;cut", "03;short", name="messages.txt")
    words = ["draw", LINE, "--track", "--aspect", "yellow", "--messages", radio]
    status, out, err = run(*words, "--svg", tmp_path / "t.svg")
    assert status == 2 and out == [
        f"written: {tmp_path / 't.svg'}: 9 groups of the track, aspect \"yellow\"",
        'only a mark, no aspect "yellow": Infill of D',
        "only a mark, refused: Signal F",
        "left out: 1 message, which --message draws",
    ]
    assert [line.split(": ")[1] for line in err] == [
        'row 26  Signal F  km 19.803  aspect "yellow"  balise "F2" (second of its group)',
        "message of line 2  cut",
        "message of line 3  short",
    ]
    tree = ElementTree.parse(tmp_path / "t.svg")
    texts = [one.text or "" for one in tree.iter(f"{SVG}text")]
    assert texts[0] == "refused telegrams by row: 26; refused messages by line: 2, 3"
    assert "\u25b8 Signal F: refused" in texts and sum("refused" in text for text in texts) == 2
    ((refused,),) = [one for one in tree.iter(f"{SVG}g") if one.get("class") == "station refused"]
    assert str(refused.findtext(f"{SVG}title")).endswith("; refused: row 26")
    assert run(*words)[2][-4:] == [out[0].replace(str(tmp_path / "t.svg"), "standard output"), *out[1:]]


def test_groups_that_are_left_out(run: Run, table: Write) -> None:
    """By the reason, five names of each. A sound track has no line of what is refused."""
    rows = [
        f"G{number},{'' if number > 2 else number},{number // 2 % 2},{'rising' if number else ''},{ALONE}"
        for number in range(10)
    ]
    status, _, err = run("draw", table("group,km,track,nominal,telegram", *rows), "--track", "0")
    assert (status, err) == (
        0,
        [
            'written: standard output: 2 groups of track "0", each in the aspect with the farthest end of authority',
            "only a mark, the direction of its kilometres is not known: G0",
            "left out, on another track: G2",
            "left out, no kilometre: G3, G4, G5, G6, G7 and 2 more",
        ],
    )


def test_columns_passed_over_are_named(run: Run, table: Write) -> None:
    """A mistyped one may be that of the track or of the kilometres."""
    heading, *lines = (LINKS / "line.csv").read_text("utf-8").splitlines()
    said = 'columns passed over: {} (did you mean "{}"?)'
    path = table(heading.replace("nominal", "nominl"), *lines)
    assert run("draw", path, "--track")[2][0] == said.format("nominl", "nominal")
    path = table(heading.replace("km", "kmm"), *lines)
    why = f"there is no track without a name with kilometres in {path}: no group has a kilometre"
    assert run("draw", path, "--track")[2] == [f"balisekit: {why}; {said.format('kmm', 'km')}"]


def test_aspects(run: Run, tmp_path: Path) -> None:
    for aspect, wanted in (("green", "160 km/h"), ("yellow", "120 km/h"), ("red", "train trip")):
        run("draw", LINE, "--track", "--aspect", aspect, "--force", "--svg", tmp_path / "t.svg")
        texts = [one.text or "" for one in ElementTree.parse(tmp_path / "t.svg").iter(f"{SVG}text")]
        labels = [text for text in texts if text.startswith("Signal A, ")]
        assert labels and all(f"{aspect}, V_MAIN" in text and wanted in text for text in labels)


def test_bad_input(run: Run, table: Write, tmp_path: Path) -> None:
    line = LINKS / "line.csv"
    assert run("draw", line)[0] == run("draw", line, "--group", "A", "--track")[0] == 2
    status, _, err = run("draw", line, "--track", "2")
    assert (status, err) == (2, [f'balisekit: there is no track "2" with kilometres in {line}: ""'])
    assert run("draw", line, "--track", "--aspect", "x")[2] == [f'balisekit: there is no aspect "x" in {line}']
    assert run("report", line, "--aspect", "x", "--html", tmp_path / "r.html")[0] == 2
    bare = table("group,telegram", "A,a1007f802000ffffffffffffffffffffffffffffffffffffffffc0")
    status, _, err = run("draw", bare, "--track")
    assert status == 2 and err[0].endswith("no group has a kilometre")
    assert run("draw", line, "--track", "--svg", tmp_path)[0] == 3
    assert run("draw", line, "--track", "--program", "/bin/false", "--svg", tmp_path / "x.svg")[0] == 3
    assert run("report", bare, "--html", tmp_path / "bare.html")[0] == 0
    assert 'class="strip"' not in (tmp_path / "bare.html").read_text("utf-8") and not (tmp_path / "x.svg").exists()


def test_names_do_no_harm(run: Run, table: Write, tmp_path: Path) -> None:
    name = "<script>&\"'\u202e"
    rows = [line.split(",") for line in (LINKS / "distance-differs.csv").read_text("utf-8").splitlines()]
    named = csv_writing.text(
        [*rows[0], "track"], [[name if row[0] == "A" else row[0], *row[1:], name] for row in rows[1:]]
    )
    path = table(content=named.encode())
    status, out, _ = run("draw", path, "--track", "--svg", tmp_path / "t.svg")
    assert status == 0 and out[0].endswith(
        '4 groups of track "<script>&"\'\\u202e", each in the aspect with the farthest end of authority'
    )
    tags = {one.tag.split("}")[1] for one in ElementTree.parse(tmp_path / "t.svg").iter()}
    assert tags <= {"svg", "title", "desc", "style", "rect", "g", "path", "text", "tspan"}
    run("report", path, "--html", tmp_path / "r.html")
    page = (tmp_path / "r.html").read_text("utf-8")
    assert page.count("<script") == 1 and "\u202e" not in page and "links L2: " in page


def test_the_report_has_the_track(run: Run, tmp_path: Path) -> None:
    assert run("report", LINE, "--aspect", "green", "--html", tmp_path / "r.html")[0] == 2
    page = (tmp_path / "r.html").read_text("utf-8")
    assert page.count('class="strip wide"') == 4 and "Signal A links Signal B: 1550 m by D_LINK" in page
    assert "L2, a rule of balisekit" in page and "km 10 to 15" in page


@pytest.mark.parametrize(
    "nominal, title, km", [("rising", "km 325 to 330", 328.67), ("falling", "km -330 to -325", -326.67)]
)
def test_far_away_ends_make_no_pages(nominal: str, title: str, km: float) -> None:
    """An authority of hundreds of kilometres has a page for its end. Pages on which nothing begins are left out."""
    packets = authority()
    packets[0].update(q_scale=2, l_endsection=32_767)
    pictures = drawn((group("A", "1", nominal=nominal), [header(1, *packets)]))
    first, last = ("km 0 to 5", title) if km > 0 else (title, "km 0 to 5")
    assert [one.title for one in pictures] == [first, last]
    far = pictures[-1 if km > 0 else 0]
    (bar,) = looks(far, "section0")
    begin = float(bar.x) if km > 0 else float(bar.x) + float(bar.width)
    assert abs(begin - (LEFT if km > 0 else LEFT + ROOM)) < 0.2
    assert abs(place(looks(far, "end")[0].path[1:].split()[0]) + int(title.split()[1]) - km) < 0.01
    (note,) = [one.text for each in pictures for one in each.shapes if one.text.startswith("left out: ")]
    assert note == f"left out: km {'5 to 325' if km > 0 else '-325 to 0'}, where nothing begins or ends"
    assert sum(len(looks(one, "break")) for one in pictures) == 2


def test_falling_lines_are_whole() -> None:
    """Pages reach from the least to the greatest place of any authority or profile, below km 0 as well."""
    pictures = drawn((group("A", "0.4", nominal="falling"), [header(1, *authority())]))
    assert [one.title for one in pictures] == ["km -5 to 0", "km 0 to 5"]
    assert [len(looks(one, "end")) for one in pictures] == [1, 0]
    assert [one.text for one in pictures[0].shapes if one.text.startswith("A")] == ["A, V_MAIN 100 km/h, from km 0.400"]


def _is_beside(arrow: Shape, text: Shape) -> bool:
    """Whether a text is of the height of an arrow, and on the side to which it points."""
    x, y = re.findall("[0-9.]+", arrow.path)[:2]
    return int(y) + 8 == int(text.y) and (float(text.x) > float(x)) == ("l8 4l-8" in arrow.path)


def test_directions_have_labels_of_their_own() -> None:
    """A name is at its group, with an arrow to where its band runs along the kilometres, and each V_MAIN is its own."""
    back = authority(0)
    back[0]["v_main"] = 16
    for nominal, sign in (("rising", 1), ("falling", -1)):
        (picture,) = drawn((group("G", "2.5", nominal=nominal), [header(1, *authority(), *back)]))
        said = {one.text: float(one.x) for one in picture.shapes if "V_MAIN" in one.text}
        assert set(said) == {"G, nominal, V_MAIN 100 km/h", "G, reverse, V_MAIN 80 km/h"}
        for shape in looks(picture, "run"):
            text = next(one.text for one in picture.shapes if one.text in said and _is_beside(shape, one))
            up = ("nominal" in text) == (sign > 0)
            assert ("l8 4l-8" in shape.path) == up
            begin, end = said[text], said[text] + width("", text) / 10
            assert abs(place(str(begin if up else end)) - 2.5) < 0.1


def test_the_farthest_authority_is_shown() -> None:
    """Of each group, in either direction. Only an aspect of this name is shown if one is named."""
    rows = {name: Row(number, "A", "", km=Decimal(2), nominal="rising") for number, name in enumerate("rgy")}
    group_of_three = Group("A", tuple(Aspect(name, (row,)) for name, row in rows.items()))
    lengths = {"r": (0, 1), "g": (900, 0), "y": (400, 1)}
    forms = [
        header(
            1,
            *({**one, "q_dir": way, **({"l_endsection": to} if "l_endsection" in one else {})} for one in authority()),
        )
        for to, way in lengths.values()
    ]
    for aspect, wanted in ((None, "g"), ("r", "r"), ("y", "y")):
        (picture,) = drawn((group_of_three, forms), aspect=aspect)
        assert [one.text.split(",")[1].strip() for one in picture.shapes if "V_MAIN" in one.text] == [wanted]
        shown = (
            "each group in the aspect with the farthest end of authority" if aspect is None else f'aspect "{aspect}"'
        )
        assert [one.text for one in looks(picture, "ending")] == [shown]


def test_links_have_arrows_and_distances() -> None:
    """An arrow to the linked group, and the sum of D_LINK. Links in both directions have one text."""
    some = [
        (group("A", "1", nominal="rising"), [header(1, link_tables.linking(1, link_tables.link(2000, 2, 1)))]),
        (group("B", "3", nominal="rising"), [header(2, link_tables.linking(0, link_tables.link(2000, 1, 0)))]),
    ]
    (picture,) = drawn(*some)
    backs = [float(one.path.split("l")[1].split()[0]) for one in looks(picture, "way")]
    assert sorted(back > 0 for back in backs) == [False, True]
    assert [one.text for one in picture.shapes if one.text == "2000 m"] == ["2000 m"]


def test_marks_are_flags() -> None:
    """At their places; all about a group together, those of other tracks not. What is accepted is quiet."""
    marks = [
        Mark("", Decimal("2.1"), "F11", "gradient short", (4,), "A"),
        Mark("", Decimal("2.0"), "E3", "<b>", (2, 3), "A"),
        Mark("", Decimal("17.0"), "X1", "not on the plan", is_quiet=True),
        Mark("other", Decimal("3.0"), "L1", "not there"),
    ]
    line = line_with((group("A", "2", nominal="rising"), [header(1)]))
    near, far = track_pictures(line, compare(line), "", None, marks)
    assert [one.title for one in (near, far)] == ["km 0 to 5", "km 15 to 20"]
    (flag,), (quiet,) = looks(near, "flag"), looks(far, "flag quiet")
    assert (
        flag.title == "F11: row 4: gradient short; E3: rows 2, 3: <b>"
        and abs(place(flag.path[1:].split()[0]) - 2) < 0.01
    )
    assert quiet.title == "X1: not on the plan" and [one.text for one in looks(near, "red middle")] == ["F11, E3"]


def test_rules_are_below_the_name_of_their_group() -> None:
    """Also if they are wider, and if the balise that they are about has a kilometre of its own."""
    marks = [Mark("", Decimal("2.003"), rule, "wrong", (4,), "A") for rule in ("X5", "X3", "X2")]
    line = line_with((group("A", "2", nominal="rising"), [header(1)]))
    (picture,) = track_pictures(line, compare(line), "", None, marks)
    (name,), (rules,) = looks(picture, "name middle"), looks(picture, "red middle")
    assert (name.text, rules.text) == ("\u25b8 A", "X5, X3, X2") and int(name.y) < int(rules.y)


def test_areas_are_told_apart() -> None:
    """Those that overlap are below each other, and each has its words in its row, which no other bar hides."""
    speeds = {80: (300, 500), 40: (700, 600), 60: (1500, 20)}
    some = [restriction(1, *places, speed, speed) for speed, places in speeds.items()]
    (picture,) = drawn((group("A", "1", nominal="rising"), [header(1, *authority(), *some)]))
    bars = looks(picture, "area65")
    boxes = [
        Written(one.title, x, y, x + float(one.width), y + int(one.height))
        for one in bars
        for x, y in [(float(one.x), int(one.y))]
    ]
    words = [written("", one.text, float(one.x), int(one.y)) for one in looks(picture, "") if "km/h" in one.text]
    words = [one for one in words if one.text.split()[0] in map(str, speeds)]
    assert len(words) == len(bars) == 3
    assert not any(one.meets(other) for number, one in enumerate(boxes) for other in (*boxes[:number], *words))
    for bar in boxes:
        (own,) = (one for one in words if one.text in bar.text)
        assert abs(own.left - bar.right) < 5 and bar.top <= own.top < own.bottom <= bar.bottom + 1


def test_areas_have_words_on_their_page_only() -> None:
    near, far = drawn((group("A", "4.5", nominal="rising"), [header(1, *authority(), restriction(1, 1000, 200, 80))]))
    assert [[one.text for one in looks(page, "") if one.text == "80 km/h"] for page in (near, far)] == [[], ["80 km/h"]]
    assert len(looks(near, "area65")) == 0 and len(looks(far, "area65")) == 1


def test_what_a_picture_says_without_being_seen() -> None:
    """Its groups, authorities, speeds and gradients, in a few sentences."""
    (picture,) = drawn((group("A", "2", nominal="falling"), [header(1, *authority())]))
    assert picture.description == (
        "A at km 2.000, each group in the aspect with the farthest end of authority. A, V_MAIN 100 km/h, "
        "authority to km 1.000; speeds 100 km/h; gradients 5 \u2030"
    )


@pytest.mark.parametrize("place", [0, 1, 10, 123_450, 123_456, -5, -123_450, 99_999_999])
def test_kilometres_are_written_as_elsewhere(place: int) -> None:
    assert at_km(place) == f"km {kilometre(Decimal(place).scaleb(-4))}"


def _titles(path: Path, look_wanted: str) -> List[str]:
    """The titles of the shapes of a look."""
    some = (one for one in ElementTree.parse(path).iter(f"{SVG}g") if one.get("class") == look_wanted)
    return [path.findtext(f"{SVG}title") or "" for one in some for path in one]


def test_links_have_a_flag_of_their_own() -> None:
    """A ring, if only rules L have found something in a group; quiet as any other flag."""
    some = [(group(name, str(at), nominal="rising"), [header(at, *authority())]) for at, name in enumerate("ABC", 1)]
    marks = [
        Mark("", Decimal(1), "L2", "far", group="A"),
        Mark("", Decimal(2), "L2", "far", group="B"),
        Mark("", Decimal(2), "F11", "short", group="B"),
        Mark("", Decimal(3), "L5", "late", group="C", is_quiet=True),
    ]
    line = line_with(*some)
    (picture,) = track_pictures(line, compare(line), "", None, marks)
    found = [(one.style, one.path.split("v")[1]) for one in picture.shapes if one.style.startswith("flag")]
    ring, flag = "-16a4 4 0 1 1 .1 0", "-24l9 4l-9 4"
    assert found == [("flag links", ring), ("flag", flag), ("flag links quiet", ring)]


def test_gaps_and_end_marks(run: Run, tmp_path: Path) -> None:
    """F10 to F13 of the aspect that is shown, where a profile is missing, and beside the group's name; end marks."""
    for aspect, gaps, said in (
        ("green", ["F11: 100 m are missing, from km 21.500 to km 21.600, nominal, Signal E"], ["F11: 100 m missing"]),
        ("yellow", [], []),
        (
            "red",
            [
                "F10: no gradient, from km 15.300 to km 15.500, nominal, Signal C",
                "F12: no speed profile, from km 15.300 to km 15.500, nominal, Signal C",
            ],
            ["F10: no gradient; F12: no speed profile"],
        ),
    ):
        run("draw", LINE, "--track", "--aspect", aspect, "--force", "--svg", tmp_path / "t.svg")
        assert sorted(_titles(tmp_path / "t.svg", "gap")) == gaps
        texts = [one.text or "" for one in ElementTree.parse(tmp_path / "t.svg").iter(f"{SVG}text")]
        assert sorted({text for text in texts if re.match("F[0-9]+: ", text)}) == said
        speeds = _titles(tmp_path / "t.svg", "speed")
        assert any(one.endswith(" to km 15.500: end mark, nominal, Signal A") for one in speeds) or aspect != "green"
        found = (one for one in ElementTree.parse(tmp_path / "t.svg").iter() if one.get("class") == "endmark")
        assert "".join(one.get("d", "") for one in found).count("M") == {"green": 16, "yellow": 14, "red": 14}[aspect]


@pytest.mark.parametrize(
    "name, wanted",
    [
        ("gradient-short", "F11: 10 m are missing, from km 1.010 to km 1.000, nominal, A"),
        ("speed-profile-short", "F13: 50 m are missing, from km 1.000 to km 0.950, nominal, A"),
    ],
)
def test_a_gap_down_the_kilometres(name: str, wanted: str, run: Run, table: Write, tmp_path: Path) -> None:
    document = json.loads((TOP / "examples" / "check" / f"{name}.json").read_text())
    rows = [f"A,2.000,falling,{text}" for text in document["groups"][0]["balises"]]
    path = table("group,km,nominal,telegram", *rows)
    assert run("draw", path, "--track", "--svg", tmp_path / "t.svg")[0] == 0
    assert set(_titles(tmp_path / "t.svg", "gap")) == {wanted}


def test_what_a_profile_does_not_give() -> None:
    """An open one has an arrow in place of its end mark; the track before its first element is grey."""
    packets = authority()
    packets[2]["elements"].pop()
    packets[2]["elements"][0]["d_static"] = 100
    (picture,) = drawn((group("A", "1", nominal="rising"), [header(1, *packets)]))
    assert [one.title for one in looks(picture, "arrow")] == [
        "the speed profile has no end mark: it is open, nominal, A"
    ]
    assert [one.title for one in looks(picture, "none")] == ["not given here: up to km 1.100, nominal, A"]
    (mark,) = looks(picture, "endmark")
    assert place(mark.path[1:].split()[0]) == 2
    assert any(one.title.endswith(" to km 2.000: end mark, nominal, A") for one in picture.shapes)


def test_a_minus_is_as_wide_as_a_plus(run: Run, tmp_path: Path) -> None:
    """In either picture: a hyphen is not seen on the dots of downhill."""
    for words in (["--track"], ["--group", "Signal B"]):
        run("draw", LINE, *words, "--aspect", "green", "--svg", tmp_path / "t.svg")
        texts = [one.text for one in ElementTree.parse(tmp_path / "t.svg").iter(f"{SVG}text")]
        assert "\u22125 \u2030" in texts and "-5 \u2030" not in texts and "+2 \u2030" in texts


def test_a_file_that_is_not_read_is_noted(run: Run, table: Write, tmp_path: Path) -> None:
    """Its [check] may ask for rules whose entries have flags."""
    path = table("group,km,telegram", f"A,1.0,{ALONE}")
    beside = table(content=b"[check]\nrules = 'E2'\n", name="balisekit.toml")
    other = table(content=b"group = 'group'", name="c.toml")
    note = f"note: {beside} is not read: --columns names another file"
    assert note in run("draw", path, "--track", "--columns", other)[2]
    assert note in run("draw", path, "--all", tmp_path / "all", "--columns", other)[1]
    assert note not in run("draw", path, "--track")[2]

"""The track plan: what the telegrams imply agrees with them, and one other cell gets exactly the remark of its rule."""
from __future__ import annotations

import copy
import csv
import io
import json
import re
import xml.etree.ElementTree as ElementTree
from collections import Counter
from dataclasses import replace
from decimal import Decimal
from itertools import count
from pathlib import Path
from typing import Any, Callable, Dict, Iterator, List, Optional, Sequence, Tuple

import meaning_line
import plan_example
import pytest
from conftest import Run, without_program
from legal_lines import KINDS, legal_line
from meaning_line import SOUND, Line, Row, change, random_line
from plan_example import Cells, rows_of, text_of
from test_check_outputs import schema

from balisekit.engine.program import Program, Text
from balisekit.errors import TableErrors
from balisekit.io import csv_writing
from balisekit.present import links_text
from balisekit.present.explanations import WHOLE
from balisekit.rules import checking, telegrams, track_plan
from balisekit.rules.chainage import Jump
from balisekit.rules.line import Line as LineOfTable
from balisekit.rules.rule import Options, Remark, Result
from balisekit.rules.track_plan import implied_profiles
from balisekit.rules.track_plan.implied import implied
from balisekit.rules.track_plan.unnamed_borders import UNSURE
from balisekit.tables import messages as messages_file, plan, plan_things, reader

Change = Callable[[List[Row]], Any]
TOP = Path(__file__).resolve().parents[2]
RULE_OF = {"speed": "X1", "gradient": "X2", "signal": "X3", "aspect": "X4", "level": "X5", "rbc": "X5"}
RBC = (352, 17)


def bits(value: int, width: int) -> str:
    """A number in `width` bits."""
    return f"{value:0{width}b}"


def raw(number: int, direction: int, content: str) -> Any:
    """A packet that the program keeps as bits."""
    filled = content + "0" * (-len(content) % 8)
    digits = f"{int(filled, 2):0{len(filled) // 4}x}"
    return {"nid_packet": number, "q_dir": direction, "l_packet": 23 + len(content), "body": digits}


def rbc_order(metres: int, rbc: Tuple[int, int] = RBC, direction: int = 1) -> Any:
    """A packet 131."""
    content = [bits(1, 2), bits(metres, 15), bits(rbc[0], 10), bits(rbc[1], 14), "1" * 64, "0"]
    return raw(131, direction, "".join(content))


def session(rbc: Tuple[int, int] = RBC, establishes: int = 1) -> Any:
    """A packet 42."""
    return raw(42, 1, "".join([bits(establishes, 1), bits(rbc[0], 10), bits(rbc[1], 14), "1" * 64, "0"]))


def conditional(*levels: int) -> Any:
    """A packet 46 for levels other than NTC."""
    first, *others = [bits(level, 3) for level in levels]
    return raw(46, 1, f"{first}{bits(len(others), 5)}{''.join(others)}")


def fixed(rows: List[Row], group: str) -> List[Any]:
    """The packets of the fixed balise of a group."""
    found: List[Any] = next(row for row in rows if row.group == group and row.balise == 0).form["packets"]
    return found


def with_rbc(rows: List[Row]) -> None:
    """Two groups announce the border of an RBC at km 16.700, and the first one of them its session."""
    fixed(rows, "Signal 4").extend([rbc_order(2200), session()])
    fixed(rows, "Signal 5").append(rbc_order(700))


def other_session(rows: List[Row]) -> None:
    """A session with another RBC after the border."""
    fixed(rows, "Signal 8").append(session((352, 18)))


def written(program: Program, path: Path, line: Line = Line(), *changes: Change) -> Path:
    """The table of a line with these changes of its rows."""
    rows = copy.deepcopy(line.rows)
    for each in changes:
        each(rows)
    path.write_text(meaning_line.table(program, rows), "utf-8")
    return path


def read(program: Program, path: Path, jumps: Sequence[Jump] = (), radio: Optional[Path] = None) -> LineOfTable:
    """The line of a table."""
    sent = messages_file.read(str(radio)) if radio else None
    return LineOfTable.of(checking.check(program, reader.read(str(path)), sent), jumps)


def results(line: LineOfTable, rows: List[Cells], folder: Path, options: Options = Options()) -> Dict[str, Result]:
    """What each rule finds with a plan of these rows."""
    stated = options._replace(plan=plan_of(rows, folder))
    return {rule.name: rule.find(line, stated) for rule in track_plan.RULES}


def plan_of(rows: List[Cells], folder: Path) -> plan.Plan:
    """The plan of these rows, which is written and read."""
    path = folder / "plan.csv"
    path.write_text(text_of(rows), "utf-8")
    return plan.read(str(path))


def remarks(line: LineOfTable, rows: List[Cells], folder: Path, options: Options = Options()) -> List[Remark]:
    """All remarks with a plan of these rows."""
    return [remark for result in results(line, rows, folder, options).values() for remark in result.found]


def implied_rows(line: LineOfTable, options: Options = Options()) -> List[Cells]:
    """The plan that a line implies."""
    return rows_of(csv_writing.text(plan.COLUMNS, map(plan.cells, implied(line, options).rows)))


def of_kind(rows: List[Cells], kind: str, **cells: str) -> Cells:
    """The first row of a kind with these cells."""
    return next(row for row in rows if row["kind"] == kind and all(row[key] == cell for key, cell in cells.items()))


@pytest.fixture
def sound(program: Program, tmp_path: Path) -> Tuple[LineOfTable, List[Cells]]:
    """A sound line with a level border and an RBC border, and its plan."""
    line = read(program, written(program, tmp_path / "t.csv", SOUND["level-border"], with_rbc))
    return line, implied_rows(line)


@pytest.mark.uncovered
@pytest.mark.parametrize("name", SOUND)
def test_round_trip(run: Run, program: Program, tmp_path: Path, name: str) -> None:
    """A plan that is written from a table agrees with it."""
    table, file = written(program, tmp_path / "t.csv", SOUND[name]), tmp_path / "plan.csv"
    status, out, err = run("plan", table, "--csv", file)
    assert (status, err) == (0, []) and out[-1].startswith(f"written: {file}: speed ")
    assert run("plan", table)[1] == file.read_text("utf-8").splitlines()
    status, out, _ = run("check", table, "--plan", file, "--only", "X")
    assert status == 0 and out[-1].startswith("track plan: none found, ") and out[-1].endswith(" compared")


@pytest.mark.uncovered
def test_round_trip_of_random_lines(program: Program, tmp_path: Path) -> None:
    """So does that of lines of all kinds and scales."""
    for seed in range(9):
        line = read(program, written(program, tmp_path / "t.csv", random_line(seed)))
        found = results(line, implied_rows(line), tmp_path)
        assert all(not result.found and not result.skipped for result in found.values()), seed


@pytest.mark.uncovered
@pytest.mark.parametrize("kind", KINDS)
def test_round_trip_of_legal_lines(program: Program, tmp_path: Path, kind: str) -> None:
    """So does that of lines whose routes leave the track, and whose groups round by different units."""
    compared = 0
    for seed in range(10):
        path = tmp_path / "t.csv"
        path.write_text(meaning_line.table(program, legal_line(kind, seed).rows), "utf-8")
        line = read(program, path)
        found = results(line, implied_rows(line), tmp_path)
        assert [each.sentence for result in found.values() for each in result.found] == [], seed
        compared += sum(result.looked_at for result in found.values())
    assert compared > 10 * 100


def test_a_point_is_where_trains_are_told_another_thing(program: Program, tmp_path: Path) -> None:
    """Their packet 5 leads to another track. Without one that does, the difference stays a remark."""
    path = tmp_path / "t.csv"
    path.write_text(meaning_line.table(program, legal_line("single track", 1).rows), "utf-8")
    points = [row for row in implied_rows(read(program, path)) if row["kind"] == "point"]
    assert {(row["km"], row["way"]) for row in points if row["track"] == "1"} >= {("10.150", "rising")}
    line = read(program, written(program, path, Line(), speeds("Signal 5", v_static=12)))
    assert not any(row["kind"] == "point" for row in implied_rows(line))
    assert [each.rule for each in remarks(line, implied_rows(line), tmp_path)] == ["X1"]


def test_round_trip_of_borders(sound: Tuple[LineOfTable, List[Cells]], tmp_path: Path) -> None:
    """Packets 42 and 131 are in the plan too."""
    line, rows = sound
    assert of_kind(rows, "rbc") == {**of_kind(rows, "level"), "kind": "rbc", "value": "352/17"}
    assert not remarks(line, rows, tmp_path)


OTHER_TERMS = {
    "v=[0-9]+": "v=5",
    "end=": "end=1",
    "overlap=200": "overlap=none",
    "overlap=none": "overlap=50",
    "onboard": "20",
}
"""Other values for the terms of an aspect."""


def shifted(cell: str, metres: int) -> str:
    """A kilometre farther on."""
    return f"{Decimal(cell) + Decimal(metres) / 1000:.3f}"


def other_cells(rows: List[Cells], index: int) -> Iterator[Tuple[str, str]]:
    """The cells of a row that may be other ones, and what they may be."""
    row, before = rows[index], rows[index - 1] if index else {}
    if row["kind"] in ("speed", "gradient"):
        yield "value", str(int(row["value"]) + 5)
        if before and before["kind"] == row["kind"] and before["way"] == row["way"] and not before["km_to"]:
            end = row["km_to"] or rows[index + 1]["km"]
            yield from [("km", shifted(row["km"], 50))] if Decimal(end) - Decimal(row["km"]) > Decimal("0.06") else []
            yield "km", shifted(row["km"], -5)
    if row["kind"] in ("signal", "level", "rbc"):
        yield "km", shifted(row["km"], 50)
        yield "km", shifted(row["km"], -50)
    if row["kind"] == "aspect":
        for old, new in OTHER_TERMS.items():
            text = re.sub(old, new, row["value"])
            yield from [("value", text)] if text != row["value"] else []
    yield from [("value", "1")] if row["kind"] == "level" else []
    yield from [("value", "352/18")] if row["kind"] == "rbc" else []


def assert_one(found: List[Remark], row: Cells, column: str, cell: str) -> None:
    """One remark of the rule of the row, with the new value, and the rows that say something else."""
    assert [remark.rule for remark in found] == [RULE_OF[row["kind"]]], (row, column, cell, found)
    (remark,) = found
    assert remark.location.group is not None and remark.rows and " of the plan" in remark.sentence
    values = {f"{value.normalize():f}" for value in remark.values.values()}
    expected = cell.split("/") if column == "km" or row["kind"] in ("speed", "gradient", "rbc") else []
    expected += ["2"] if (row["kind"], column) == ("level", "value") else []  # M_LEVELTR of level 1
    assert values >= {f"{value.normalize():f}" for value in map(Decimal, expected)}, (row, column, cell, remark)


def rounds(rows: List[Cells]) -> List[List[Tuple[int, str, str]]]:
    """The other cells, each with the place of its row: in a round one for each rule, or of each aspect."""
    found: Dict[int, List[Tuple[int, str, str]]] = {}
    count: Counter[str] = Counter()
    for index, row in enumerate(rows):
        for place, other in enumerate(other_cells(rows, index)):
            rule = RULE_OF[row["kind"]]
            found.setdefault(place if rule == "X4" else count[rule], []).append((index, *other))
            count[rule] += 1
    return list(found.values())


@pytest.mark.uncovered
@pytest.mark.parametrize("name", ["level-border", "falling", "both-directions"])
def test_one_other_cell_gets_one_remark(program: Program, tmp_path: Path, name: str) -> None:
    """Each cell of the plan that rules compare: exactly the remark of its rule."""
    changes = [with_rbc] if name == "level-border" else []
    line = read(program, written(program, tmp_path / "t.csv", replace(SOUND[name], signals=15), *changes))
    rows = implied_rows(line)
    for tried in rounds(rows):
        others = {index: {**rows[index], column: cell} for index, column, cell in tried}
        found = remarks(line, [others.get(index, row) for index, row in enumerate(rows)], tmp_path)
        assert len(found) == len(tried), (tried, found)
        for index, column, cell in tried:
            rule, named = RULE_OF[rows[index]["kind"]], f"row {index + 2} of the plan"
            own = [each for each in found if each.rule == rule and (rule != "X4" or named in each.sentence)]
            assert_one(own, rows[index], column, cell)
    assert sum(map(len, rounds(rows))) > 10 * 15


def test_a_row_that_is_left_out_is_counted(sound: Tuple[LineOfTable, List[Cells]], tmp_path: Path) -> None:
    """What the plan says nothing of is no remark, and is counted."""
    line, rows = sound
    for kind in ("speed", "aspect"):
        row = next(row for row in rows[1:] if row["kind"] == kind)
        rest = [each for each in rows if each is not row]
        if kind == "speed":
            before = rows[rows.index(row) - 1]
            rest = [{**each, "km_to": row["km"]} if each is before else each for each in rest]
        result = results(line, rest, tmp_path)[RULE_OF[kind]]
        assert not result.found and result.skipped == result.not_looked_at["the plan says nothing"] > 0


def speeds(group: str, **values: int) -> Change:
    """The first element of the speeds of a group at green has other values."""
    return lambda rows: change(rows, group, "green", 27)["elements"][0].update(values)


def test_x1(run: Run, program: Program, tmp_path: Path) -> None:
    """A speed that is too high is graver than one that is too low, and has both values."""
    sound = written(program, tmp_path / "sound.csv")
    assert run("plan", sound, "--csv", tmp_path / "p.csv")[0] == 0
    path = written(
        program, tmp_path / "t.csv", Line(), speeds("Signal 5", v_static=120), speeds("Signal 8", v_static=1)
    )
    status, out, _ = run("check", path, "--plan", tmp_path / "p.csv", "--only", "X")
    assert status == 1 and out[-1].startswith("track plan: 2 found (X1 2), ")
    first, second = out.index("at worst wrong information:") + 1, out.index("at worst the train brakes:") + 1
    assert out[first].startswith(
        'row 21  Signal 5  km 16.003  aspect "green"  balise "Signal 5 2" (N_PIG 1)  nominal: X1: '
    )
    assert (
        "V_STATIC is 600 km/h from km 16.000 to km 17.990, and the line speed is 160 km/h by row 4 of the p"
        in out[first]
    )
    assert "V_STATIC is 5 km/h from km 20.500 to km 21.260, and the line speed is 100 km/h by row " in out[second]


def test_x1_of_short_rows(sound: Tuple[LineOfTable, List[Cells]], tmp_path: Path) -> None:
    """Many rows of one metre that touch each other are one remark, with both ends and all rows of the plan."""
    line, rows = sound
    whole = of_kind(rows, "speed")
    others = [row for row in rows if row["kind"] != "speed" or row is not whole]
    begin, end = Decimal(whole["km"]), Decimal(whole["km_to"] or rows[rows.index(whole) + 1]["km"])
    metre, middle = Decimal("0.001"), begin + Decimal("0.500")
    short = [
        {
            **whole,
            "km": f"{middle + metre * each}",
            "km_to": f"{middle + metre * (each + 1)}",
            "value": f"{30 + each % 2 * 5}",
        }
        for each in range(40)
    ]
    before, after = {**whole, "km_to": f"{middle}"}, {**whole, "km": f"{middle + 40 * metre}", "km_to": f"{end}"}
    found = [each for each in remarks(line, [*others, before, *short, after], tmp_path) if each.rule == "X1"]
    assert len(found) == 1
    first = len(others) + 3
    whole_stretch = f"it differs from km {middle} to km {middle + 40 * metre}, by rows {first} to {first + 39} of it"
    assert found[0].sentence.endswith(f"; with the stretches that touch it, {whole_stretch}"), found[0].sentence


def test_x2_of_the_other_way(sound: Tuple[LineOfTable, List[Cells]], tmp_path: Path) -> None:
    """Gradients of a falling line have the opposite sign in a row without a way."""
    line, rows = sound
    both = [{**row, "way": ""} if row["kind"] == "gradient" else row for row in rows]
    assert not remarks(line, both, tmp_path)
    other = [{**row, "value": str(-int(row["value"]))} if row["kind"] == "gradient" else row for row in rows]
    found = remarks(line, other, tmp_path)
    assert found and all(each.sentence.split(";")[0].endswith(": the sign is the other one") for each in found)
    falling = [{**row, "way": "falling"} if row["kind"] == "gradient" else row for row in other]
    result = results(line, falling, tmp_path)["X2"]
    assert not result.found and result.looked_at == 0 and result.is_empty


def test_x3_is_exact(sound: Tuple[LineOfTable, List[Cells]], tmp_path: Path) -> None:
    """One metre of Q_SCALE and one of the kilometres are allowed, and more by --tolerance."""
    line, rows = sound
    row = of_kind(rows, "signal", km="17.500")

    def found(metres: int, options: Options = Options()) -> List[str]:
        moved = [{**each, "km": shifted(each["km"], metres)} if each is row else each for each in rows]
        return [each.rule for each in remarks(line, moved, tmp_path, options)]

    assert found(2) == [] and found(-2) == [] and found(3) == ["X3"]
    assert found(3, Options(tolerance=Decimal(1))) == [] and found(4, Options(tolerance=Decimal(1))) == ["X3"]


def danger_point(rows: List[Row]) -> None:
    """The authority of signal 5 at green has a danger point instead of an overlap."""
    authority = change(rows, "Signal 5", "green", 12)
    del authority["overlap"]
    authority["danger_point"] = {"d_dp": 50, "v_releasedp": 4}


def test_x4_of_a_danger_point(program: Program, tmp_path: Path) -> None:
    """Without an overlap the release speed is that of the danger point."""
    line = read(program, written(program, tmp_path / "t.csv", Line(), danger_point))
    rows = implied_rows(line)
    row = of_kind(rows, "aspect", name="Signal 5/green")
    assert row["value"].endswith(" overlap=none release=20") and not remarks(line, rows, tmp_path)
    row["value"] = "v=160 overlap=100 release=national"
    (found,) = remarks(line, rows, tmp_path)
    assert found.sentence.startswith(
        "the overlap is none, and 100 m by the plan; the release speed is 20 km/h, and nat"
    )
    assert {name: int(value) for name, value in found.values.items()} == {
        "plan_overlap_m": 100,
        "release_kmh": 20,
        "plan_release_kmh": 635,
    }


TERMS = "danger=50 loa=0 loa_time=none end_time=60 end_start=300 overlap_time=45 overlap_start=100"


def with_timers(rows: List[Row]) -> None:
    """The authority of signal 5 at green has timers, a danger point and an overlap."""
    authority = change(rows, "Signal 5", "green", 12)
    authority["end_timer"] = {"t_endtimer": 60, "d_endtimerstartloc": 300}
    authority["danger_point"] = {"d_dp": 50, "v_releasedp": 4}
    authority["overlap"]["t_ol"] = 45


@pytest.mark.parametrize(
    "key, value, words",
    [
        ("danger", "60", "the danger point is 50 m, and 60 m by"),
        ("danger", "none", "the danger point is 50 m, and none by"),
        ("loa", "40", "V_LOA is 0 km/h, and 40 km/h by"),
        ("loa_time", "90", "T_LOA is none, and 90 s by"),
        ("end_time", "55", "T_ENDTIMER is 60 s, and 55 s by"),
        ("end_time", "none", "T_ENDTIMER is 60 s, and none by"),
        ("end_start", "302", "D_ENDTIMERSTARTLOC is 300 m, and 302 m by"),
        ("overlap_time", "46", "T_OL is 45 s, and 46 s by"),
        ("overlap_start", "90", "D_STARTOL is 100 m, and 90 m by"),
    ],
)
def test_x4_of_timers(program: Program, tmp_path: Path, key: str, value: str, words: str) -> None:
    """The danger point, V_LOA and the timers with their places: one other key is one remark."""
    line = read(program, written(program, tmp_path / "t.csv", Line(), with_timers))
    rows = implied_rows(line)
    row = of_kind(rows, "aspect", name="Signal 5/green")
    row["value"] = f"{row['value']} {TERMS}"
    assert not remarks(line, rows, tmp_path)
    row["value"] = re.sub(rf"\b{key}=\S+", f"{key}={value}", row["value"])
    (found,) = remarks(line, rows, tmp_path)
    assert found.rule == "X4" and found.sentence.startswith(words)
    assert ("plan_" in "".join(found.values)) == (value != "none")


def test_x4_of_an_aspect_without_authority(sound: Tuple[LineOfTable, List[Cells]], tmp_path: Path) -> None:
    """An aspect that the plan has and the telegrams lack is a remark of X4. One that the table lacks is one of X7."""
    line, rows = sound
    rows.append({**of_kind(rows, "aspect", name="Signal 5/green"), "name": "Border", "way": "falling"})
    rows.append({**of_kind(rows, "aspect", name="Signal 5/green"), "name": "Signal 5/blue"})
    found, other = remarks(line, rows, tmp_path)
    assert found.sentence == f"the aspect has no packet 12 for falling trains, and row {len(rows)} of the plan has one"
    words = f'the table has no aspect "Signal 5/blue", which row {len(rows) + 1} of the plan has: did you mean "'
    assert (found.rule, other.rule) == ("X4", "X7") and other.sentence.startswith(words)


@pytest.mark.parametrize(
    "way, words", [("rising", " for rising trains before its packet 136"), ("falling", " for falling trains")]
)
def test_x4_of_infill(program: Program, tmp_path: Path, way: str, words: str) -> None:
    """What follows a packet 136 is no authority of the aspect, and the words say so."""
    line = read(program, written(program, tmp_path / "t.csv", Line(infill=(4,))))
    rows = implied_rows(line)
    rows.append({**of_kind(rows, "aspect", name="Signal 5/green"), "name": "Infill of Signal 5/green", "way": way})
    (found,) = results(line, rows, tmp_path)["X4"].found
    assert found.sentence == f"the aspect has no packet 12{words}, and row {len(rows) + 1} of the plan has one"


@pytest.mark.parametrize("metres, is_named", [(0, False), (20, True)])
def test_x3_of_an_authority_without_length(program: Program, tmp_path: Path, metres: int, is_named: bool) -> None:
    """It ends at no signal, because it has no length."""

    def begins_there(rows: List[Row]) -> None:
        rows[:] = [row for row in rows if row.place >= 14_500]
        change(rows, "Signal 4", "green", 12)["l_endsection"] = metres

    line = read(program, written(program, tmp_path / "t.csv", Line(signals=6), begins_there))
    rows = [{**of_kind(implied_rows(line), "signal"), "km": "19.000"}]
    groups = [
        each.location.group for each in remarks(line, rows, tmp_path) if each.values.get("metres_apart", 0) > 4000
    ]
    assert [group.group.name for group in groups if group] == ["Signal 4"] * is_named


def test_x5_of_packets_without_a_place(program: Program, tmp_path: Path) -> None:
    """Packet 46 has the levels after the last border, packet 42 an RBC that is known around it."""

    def more(rows: List[Row]) -> None:
        with_rbc(rows)
        fixed(rows, "Signal 8").extend([conditional(0), session(establishes=0), session((1, 16_383))])

    line = read(program, written(program, tmp_path / "t.csv", SOUND["level-border"], more))
    rows = implied_rows(line)
    result = results(line, rows, tmp_path)["X5"]
    assert not result.found and result.looked_at == 7
    earlier = [*rows, {**of_kind(rows, "level"), "km": "20.000", "value": "2 NTC:7"}]
    sentences = [each.sentence for each in remarks(line, earlier, tmp_path)]
    assert sentences == [
        f"level 0 at km 20.500, and level 2 NTC:7 from km 20.000 on by row {len(rows) + 2} of the plan"
    ]
    wrong = [{**row, "value": "352/16"} if row["kind"] == "rbc" else row for row in rows]
    (found,) = remarks(line, wrong, tmp_path)
    row = rows.index(of_kind(rows, "rbc")) + 2
    assert (
        found.words
        == f"RBC 352/17 begins at km 16.700, and RBC 352/16 at km 16.700 by row {row} of the plan; row 18 too"
    )
    line = read(program, written(program, tmp_path / "t.csv", SOUND["level-border"], with_rbc, other_session))
    (found,) = remarks(line, rows, tmp_path)
    assert found.sentence == f"RBC 352/18 at km 20.500, and RBC 352/17 from km 16.700 on by row {row} of the plan"


@pytest.mark.parametrize(
    "metres, tolerance, level, is_named",
    [(0, 0, 0, False), (0, 0, 2, True), (1, 0, 0, False), (2, 0, 0, True), (4, 5, 0, False), (4, 5, 3, True)],
)
def test_x5_of_a_packet_46_near_the_border(
    program: Program, tmp_path: Path, metres: int, tolerance: int, level: int, is_named: bool
) -> None:
    """It may have the levels of the border that is ahead of it within the tolerance."""

    def before(rows: List[Row]) -> None:
        fixed(rows, "Border").append(conditional(level))
        for row in rows:
            row.place -= metres * (row.group == "Border")

    line = read(program, written(program, tmp_path / "t.csv", SOUND["level-border"], before))
    cells = dict.fromkeys(plan.COLUMNS, "")
    places = (("5.000", "1"), ("16.700", "0"))
    rows = [{**cells, "kind": "level", "km": km, "way": "rising", "value": value} for km, value in places]
    found = results(line, rows, tmp_path, Options(tolerance=Decimal(tolerance)))["X5"].found
    sentences = [each.sentence for each in found if each.location.number == 46]
    assert len(sentences) == is_named, sentences


def test_x5_of_the_rbc_in_whose_area_the_table_begins(program: Program, tmp_path: Path) -> None:
    """A session with it gets a remark, unless the plan has a row for it in rear of the first group."""

    def begins(rows: List[Row]) -> None:
        with_rbc(rows)
        fixed(rows, "Signal 2").append(session((352, 16)))

    line = read(program, written(program, tmp_path / "t.csv", SOUND["level-border"], begins))
    rows = [row for row in implied_rows(line) if (row["kind"], row["value"]) != ("rbc", "352/16")]
    (found,) = remarks(line, rows, tmp_path)
    number = rows.index(of_kind(rows, "rbc")) + 2
    assert found.sentence == f"RBC 352/16 at km 11.500, and RBC 352/17 from km 16.700 on by row {number} of the plan"
    assert not remarks(line, [*rows, {**of_kind(rows, "rbc"), "km": "9.000", "value": "352/16"}], tmp_path)


def test_x5_of_a_border_that_no_packet_names(sound: Tuple[LineOfTable, List[Cells]], tmp_path: Path) -> None:
    """It is a remark at the nearest group, unless it is beyond the table."""
    line, rows = sound
    for km, expected in (("25.020", ["Signal 11"]), ("9.000", []), ("40.000", [])):
        more = [*rows, {**of_kind(rows, "level"), "km": km, "way": "falling"}]
        found = remarks(line, more, tmp_path)
        assert [each.location.group.group.name for each in found if each.location.group] == expected
        assert all(each.sentence.startswith("no packet 41 or 46 names the level border of row ") for each in found)


def test_x5_of_a_border_whose_direction_is_not_known(program: Program, tmp_path: Path) -> None:
    """Its packet may name the border: no remark says that none does."""

    def only_at_the_border(rows: List[Row]) -> None:
        for row in rows:
            row.place -= 3 * row.balise if row.group == "Border" else 0
            row.form["packets"] = [
                each
                for each in row.form["packets"]
                if each["nid_packet"] not in ({5} if row.group == "Border" else {5, 41})
            ]

    rows = [{**dict.fromkeys(plan.COLUMNS, ""), "kind": "level", "km": "16.700", "way": "rising", "value": "0"}]
    line = read(program, written(program, tmp_path / "t.csv", SOUND["level-border"], only_at_the_border))
    result = results(line, rows, tmp_path)["X5"]
    assert not result.found and result.not_looked_at == {"no kilometre or direction": 1, UNSURE: 1}


def test_x5_of_packets_that_are_not_decoded(
    program: Program, tmp_path: Path, monkeypatch: pytest.MonkeyPatch, sound: Tuple[LineOfTable, List[Cells]]
) -> None:
    """They are counted, and no border is reported as missing because of them."""
    monkeypatch.setattr(telegrams, "FIELDS_OF", lambda packet: None)
    line = read(program, tmp_path / "t.csv")
    result = results(line, sound[1], tmp_path)["X5"]
    assert not result.found and result.looked_at == 3 and result.not_looked_at == {"not decoded": 3, UNSURE: 1}
    assert implied(line, Options()).notes == ["3 packets are not in the plan: not decoded"]


def test_points(program: Program, tmp_path: Path) -> None:
    """After a point nothing is compared unless a packet 5 names a group of the track there."""

    def without_links(rows: List[Row]) -> None:
        for row in rows:
            row.form["packets"] = [each for each in row.form["packets"] if each["nid_packet"] != 5]

    point = {"kind": "point", "km": "16.500", "km_to": "", "track": "", "way": "rising", "value": "", "name": "W1"}
    linked = read(program, written(program, tmp_path / "t.csv"))
    rows = implied_rows(linked)
    wrong = [{**row, "value": "5"} if row["kind"] == "speed" else row for row in rows]
    assert not any(each.skipped for each in results(linked, [*rows, point], tmp_path).values())
    unlinked = read(program, written(program, tmp_path / "t.csv", Line(), without_links))
    found = results(unlinked, [*rows, point], tmp_path)
    assert found["X3"].not_looked_at == {"behind a point of the plan": 3} and found["X1"].skipped > 0
    falling = results(unlinked, [*rows, {**point, "way": "falling"}], tmp_path)
    assert not any(each.skipped for each in falling.values())
    count = len(remarks(unlinked, wrong, tmp_path))
    assert 0 < len(remarks(unlinked, [*wrong, point], tmp_path)) <= count


def test_points_before_a_group_of_another_track(program: Program, tmp_path: Path) -> None:
    """Packets 5 that name signal 5 of track 2 do not show that the train is on track 1 after the point."""

    def to_track_2(rows: List[Row]) -> None:
        for row in rows:
            row.track = "2" if row.group == "Signal 5" else "1"

    point = {"kind": "point", "km": "15.800", "km_to": "", "track": "1", "way": "rising", "value": "", "name": "W1"}
    line = read(program, written(program, tmp_path / "t.csv", Line(), to_track_2))
    assert results(line, [*implied_rows(line), point], tmp_path)["X1"].skipped > 0


def jumped(path: Path) -> None:
    """From km 20 on the kilometres of a table are 5 km greater."""
    head, *rows = csv.reader(io.StringIO(path.read_text("utf-8")))
    column = head.index("km")
    for row in rows:
        row[column] = shifted(row[column], 5000) if Decimal(row[column]) > 20 else row[column]
    path.write_text("\n".join(map(",".join, [head, *rows])), "utf-8")


def test_jumps(run: Run, program: Program, tmp_path: Path) -> None:
    """Of the plan itself: places are compared beyond them. A row in the gap is named."""
    path, jumps, file = written(program, tmp_path / "t.csv"), tmp_path / "jumps.csv", tmp_path / "p.csv"
    jumped(path)
    jumps.write_text("km,km_after\n20.000,25.000\n", "utf-8")
    assert run("plan", path, "--jumps", jumps, "--csv", file)[0] == 0
    rows = rows_of(file.read_text("utf-8"))
    assert rows[0]["kind"] == "jump" and (rows[0]["km"], rows[0]["km_to"]) == ("20.000", "25.000")
    assert run("check", path, "--plan", file, "--only", "X")[0] == 0
    rows.append({**of_kind(rows, "signal"), "km": "22.000"})
    file.write_text(text_of(rows), "utf-8")
    status, out, _ = run("check", path, "--plan", file, "--only", "X")
    why = f"row {len(rows) + 1}: not compared: a jump leaves out or repeats the kilometre"
    assert status == 0 and f"note: {file}: {why}" in out
    file.write_text(text_of(rows[1:]), "utf-8")
    assert run("check", path, "--plan", file, "--only", "X")[0] == 1


def test_messages(program: Program, tmp_path: Path) -> None:
    """A radio message 3 is compared as the telegrams of its group are."""
    rows = Line().rows
    packets = [copy.deepcopy(change(rows, "Signal 5", "green", number)) for number in (12, 21, 27)]
    packets[0]["nid_packet"] = 15
    del packets[0]["v_main"]
    packets[2]["elements"][0]["v_static"] = 20
    packets[0]["l_endsection"] -= 100
    message = {"nid_message": 3, "t_train": 1, "m_ack": 0, "nid_c": 352, "nid_bg": 5, "packets": packets}
    (text,) = program.encode([message], radio=True)
    assert isinstance(text, Text)
    (tmp_path / "m.txt").write_text(f"{text.line};M1\n", "utf-8")
    path = written(program, tmp_path / "t.csv")
    found = remarks(read(program, path, radio=tmp_path / "m.txt"), implied_rows(read(program, path)), tmp_path)
    assert [each.rule for each in found] == ["X1", "X3"] and all(each.location.message for each in found)


def test_infill_and_unknown_directions_are_not_compared(program: Program, tmp_path: Path) -> None:
    """What follows a packet 136 counts from another group; without a direction nothing has a place."""

    def single(rows: List[Row]) -> None:
        rows[:] = [row for row in rows if row.group != "Signal 5" or row.balise == 1]
        for row in rows:
            row.form.update({"n_pig": 0, "n_total": 0} if row.group == "Signal 5" else {})
            row.form["packets"] = [each for each in row.form["packets"] if each["nid_packet"] != 5]

    line = read(program, written(program, tmp_path / "t.csv", SOUND["infill"]))
    assert not any(each.skipped for each in results(line, implied_rows(line), tmp_path).values())
    line = read(program, written(program, tmp_path / "t.csv", Line(), single))
    (note,) = implied(line, Options()).notes
    assert note.endswith(" packets are not in the plan: no kilometre or direction")
    found = results(line, implied_rows(read(program, written(program, tmp_path / "t.csv"))), tmp_path)
    assert [name for name in found if found[name].found] == ["X8"], "its group has another number of balises"
    assert found["X4"].not_looked_at == {"no kilometre or direction": 3} and found["X3"].skipped == 2


def test_an_open_profile_reaches_as_far_as_its_authority(program: Program, tmp_path: Path) -> None:
    """Without an authority its last element is not compared."""
    path = written(
        program, tmp_path / "t.csv", Line(), lambda rows: change(rows, "Signal 5", "green", 27)["elements"].pop()
    )
    line = read(program, path)
    assert not any(each.skipped for each in results(line, implied_rows(line), tmp_path).values())

    def lone(rows: List[Row]) -> None:
        change(rows, "Signal 5", "green", 27)["elements"].pop()
        row = next(row for row in rows if (row.group, row.aspect) == ("Signal 5", "green"))
        row.form["packets"] = [each for each in row.form["packets"] if each["nid_packet"] != 12]

    line = read(program, written(program, tmp_path / "t.csv", Line(), lone))
    assert results(line, implied_rows(line), tmp_path)["X1"].not_looked_at == {"an open profile without authority": 1}


def test_what_most_groups_say_is_in_the_plan(program: Program, tmp_path: Path) -> None:
    """One group against several gets the remark."""
    line = read(program, written(program, tmp_path / "t.csv", Line(), speeds("Signal 5", v_static=12)))
    rows = implied_rows(line)
    assert all(
        each.location.group and each.location.group.group.name == "Signal 5" for each in remarks(line, rows, tmp_path)
    )


def test_one_thing_is_named_by_the_singular() -> None:
    """Also if the plural is not the last word."""
    found = [links_text._things(rule, 1) for rule in track_plan.RULES]
    assert found == ["1 speed", "1 gradient", "1 end of authority", "1 authority of aspects", "1 border"] + [
        "1 row of the plan",
        "1 name of the plan",
        "1 statement about groups",
        "1 name of the table",
        "1 area of the plan",
        "1 radio centre of the plan",
    ]


def test_a_plan_that_compares_nothing(run: Run, program: Program, tmp_path: Path) -> None:
    """The answer is INCOMPLETE, if no row can be compared. A plan with rows of only one kind is accepted."""
    path, file = written(program, tmp_path / "t.csv"), tmp_path / "p.csv"
    for rows in ("jump,15,16,,,,", "signal,11.5,,other,,,"):
        file.write_text(f"kind,km,km_to,track,way,value,name\n{rows}\n", "utf-8")
        status, out, _ = run("check", path, "--plan", file)
        assert (
            status == 2 and out[-1].startswith("INCOMPLETE: ") and "X3 compared none of 30 ends of authority" in out[-1]
        )
    assert (
        'track plan  track other: X7: the table has no track "other", which row 2 of the plan has' in out
    ), "a row of another track is an open entry"
    file.write_text(OF_SIGNAL_5, "utf-8")
    status, out, _ = run("check", path, "--plan", file)
    assert status == 0 and out[-1].endswith(
        "track plan: none found, 9 compared, 216 not (the plan says nothing: 216)"
    ), out[-1]


OF_SIGNAL_5 = """kind,value,name
aspect,end=1500,Signal 5/yellow
aspect,v=0,Signal 5/red
aspect,loa=0,Signal 5/green
"""
"""A plan of one kind: all aspects of one signal."""


def without(group: str, aspect: str = "") -> Change:
    """The rows of a group, or those of an aspect of it, are gone."""

    def gone(rows: List[Row]) -> None:
        rows[:] = [row for row in rows if row.group != group or aspect not in ("", row.aspect)]

    return gone


def test_x7_of_an_aspect_whose_rows_are_gone(run: Run, program: Program, tmp_path: Path) -> None:
    """The answer is no yes: the aspect of the plan is an open entry at its signal, and X4 has nothing to compare."""
    sound, file = written(program, tmp_path / "sound.csv"), tmp_path / "p.csv"
    assert run("plan", sound, "--csv", file)[0] == 0
    path = written(program, tmp_path / "t.csv", Line(), without("Signal 5", "green"))
    status, out, _ = run("check", path, "--plan", file, "--only", "X")
    (entry,) = (line for line in out if ": X7: " in line)
    words = 'the table has no aspect "Signal 5/green", which row 52 of the plan has: did you mean "Signal 5/'
    assert status == 1 and entry.startswith("rows 18 to 20  Signal 5  km 16.000: X7: ") and words in entry
    assert out[-1].startswith("track plan: 1 found (X7 1), ")


def test_x7_of_a_group_whose_rows_are_gone(run: Run, program: Program, tmp_path: Path) -> None:
    """One entry for its aspects, in each output, which can be accepted by its name until a row of it is another one."""
    sound, file, signed = written(program, tmp_path / "sound.csv"), tmp_path / "p.csv", tmp_path / "accepted.csv"
    assert run("plan", sound, "--csv", file)[0] == 0
    path = written(program, tmp_path / "t.csv", Line(), without("Signal 5"))
    words = ("check", path, "--plan", file, "--only", "X")
    outputs = ("--json", tmp_path / "a.json", "--sarif", tmp_path / "a.sarif", "--junit", tmp_path / "a.xml")
    status, out, _ = run(*words, *outputs, "--propose", signed)
    sentence = (
        'the table has no group "Signal 5", which rows 50 to 52 and 87 of the plan have: did you mean "Signal 15"?'
    )
    assert status == 1 and f"track plan  Signal 5: X7: {sentence}" in out
    form = json.loads((tmp_path / "a.json").read_text("utf-8"))
    schema("kit-check").validate(form)
    (entry,) = (each for each in form["entries"] if each["rule"] == "X7")
    assert (entry["group"], entry["rows"], entry["values"]) == (None, [], {"plan_name": "Signal 5"})
    sarif = json.loads((tmp_path / "a.sarif").read_text("utf-8"))
    schema("kit-sarif").validate(sarif)
    assert [each["ruleId"] for each in sarif["runs"][0]["results"]].count("X7") == 1
    cases = ElementTree.parse(tmp_path / "a.xml").iter("testcase")
    (case,) = (each for each in cases if each.get("classname") == "plan")
    assert case.get("name") == "Signal 5" and sentence in str(case[0].get("message"))
    rows = list(csv.DictReader(io.StringIO(signed.read_text("utf-8"))))
    assert [(row["rule"], row["nid_bg"], row["aspect"]) for row in rows] == [("X7", "", "Signal 5")]
    rows[0].update(reason="the signal is in another file", who="me", date="2026-01-02")
    signed.write_text(text_of(rows), "utf-8")
    assert run(*words, "--accepted", signed)[0] == 0
    file.write_text(file.read_text("utf-8").replace("Signal 5/yellow", "Signal 5/white"), "utf-8")
    status, out, _ = run(*words, "--accepted", signed)
    assert status == 1 and any("the telegrams or values have changed" in line for line in out)


@pytest.mark.parametrize("name", ["Sig 3/yellow", "signal 3/yellow", "Signal 3/yelow", "Signal 33/yellow", "Signal 3"])
def test_x7_names_the_name_that_is_alike(sound: Tuple[LineOfTable, List[Cells]], tmp_path: Path, name: str) -> None:
    """Names are texts: another case, number or abbreviation is another name."""
    line, rows = sound
    renamed = [{**row, "name": name} if row["name"] == "Signal 3/yellow" else row for row in rows]
    found, other = sorted(remarks(line, renamed, tmp_path), key=lambda each: each.rule)
    like = f': did you mean "{name}"?' if name.startswith("Signal 3") and name != "Signal 33/yellow" else ""
    words = 'the table has the aspect "Signal 3/yellow", and no row of the plan has this name'
    assert (other.rule, other.sentence) == ("X9", words + like) and other.aspects == ("yellow",) and other.rows
    kind, own = ("aspect", name) if name.startswith("Signal 3") and name[8:9] != "3" else ("group", name.split("/")[0])
    assert found.sentence.startswith(f'the table has no {kind} "{own}", which row ')
    meant = "Signal 3/red" if name == "Signal 3" else "Signal 3/yellow" if kind == "aspect" else "Signal 3"
    assert found.sentence.endswith(f' of the plan has: did you mean "{meant}"?')


def test_x9_of_a_group_that_the_plan_lacks(sound: Tuple[LineOfTable, List[Cells]], tmp_path: Path) -> None:
    """Its name is compared if the plan lists any group, and a row whose name is alike is named."""
    line, rows = sound
    row = of_kind(rows, "group", name="Signal 5")
    others = [each for each in rows if each is not row]
    (found,) = remarks(line, others, tmp_path)
    assert (found.rule, found.location.group and found.location.group.group.name) == ("X9", "Signal 5")
    assert found.sentence == 'the table has the group "Signal 5", and no row of the plan has this name'
    first, second = remarks(line, [*others, {**row, "name": "Sig 5"}], tmp_path)
    assert first.sentence.endswith(' of the plan has: did you mean "Signal 5"?') and first.rule == "X7"
    assert second.sentence.endswith(': did you mean "Sig 5"?') and second.rule == "X9"
    assert not remarks(line, [each for each in rows if each["kind"] != "group"], tmp_path)


def test_x9_of_an_aspect_that_the_plan_lacks(sound: Tuple[LineOfTable, List[Cells]], tmp_path: Path) -> None:
    """The other aspects of a signal of which the plan lists one. Of other signals none is missed."""
    line, rows = sound
    others = [each for each in rows if each["name"] != "Signal 5/green"]
    (found,) = remarks(line, others, tmp_path)
    assert (found.rule, found.aspects, len(found.rows)) == ("X9", ("green",), 2)
    assert found.sentence == 'the table has the aspect "Signal 5/green", and no row of the plan has this name'
    none = [each for each in rows if not each["name"].startswith("Signal 5/")]
    assert not remarks(line, none, tmp_path)


def without_packet(number: int, group: str, aspect: str) -> Change:
    """An aspect of a group does not have this packet."""

    def gone(rows: List[Row]) -> None:
        for row in (row for row in rows if (row.group, row.aspect) == (group, aspect)):
            row.form["packets"] = [each for each in row.form["packets"] if each["nid_packet"] != number]

    return gone


def test_an_aspect_without_authority(program: Program, tmp_path: Path) -> None:
    """The plan that a table implies lists it, and X4 reports a packet 12 that it has after all."""
    path = written(program, tmp_path / "t.csv", Line(), without_packet(12, "Signal 5", "red"))
    rows = implied_rows(read(program, path))
    assert of_kind(rows, "aspect", name="Signal 5/red")["value"] == "authority=none"
    assert not remarks(read(program, path), rows, tmp_path)
    (found,) = remarks(read(program, written(program, path)), rows, tmp_path)
    assert found.rule == "X4" and found.aspects == ("red",)
    assert found.sentence.startswith("the aspect has a packet 12, and none by row ")


def aspect_value(rows: List[Cells], name: str, value: str) -> List[Cells]:
    """The plan with another value of an aspect."""
    return [{**row, "value": value} if (row["kind"], row["name"]) == ("aspect", name) else row for row in rows]


def with_more(rows: List[Row]) -> None:
    """Signal 5 has a mode profile and both orders to stop at red."""
    (row,) = (row for row in rows if (row.group, row.aspect) == ("Signal 5", "red"))
    element = [bits(0, 15), bits(0, 2), bits(8, 7), bits(300, 15), bits(100, 15), bits(1, 1)]
    row.form["packets"] += [raw(80, 1, "".join([bits(1, 2), *element, bits(0, 5)]))]
    row.form["packets"] += [raw(137, 1, "0"), raw(132, 1, "0")]


@pytest.mark.parametrize(
    "aspect, value, other, said",
    [
        ("green", "sections=3000", "sections=2990", "the lengths of the sections: 3000 m, and 2990 m"),
        ("green", "sections=3000", "sections=1500,1500", "the lengths of the sections: 3000 m, and 1500,1500 m"),
        ("green", "to=Signal 7", "to=Signal 8", "the authority ends at km 19.000, and at Signal 8 (km 20.500)"),
        ("green", "links=3", "links=4", "the groups of packet 5: 3, and 4"),
        (
            "red",
            "links=352/6,352/7,352/8",
            "links=352/6,352/8",
            "the groups of packet 5: 352/6,352/7,352/8, and 352/6,352/8",
        ),
        ("red", "mode=OS:0:300:40:100", "mode=SH:0:300:40:100", "the mode is OS:0:300:40:100, and SH:0:300:40:100"),
        ("red", "mode=OS:0:300", "mode=OS:0:200", "the mode is OS:0:300, and OS:0:200"),
        ("red", "mode=OS:0:300:40", "mode=none", "the mode is OS:0:300:40:100, and none"),
        ("yellow", "mode=none", "mode=OS", "the mode is none, and OS"),
        ("red", "stop=sr,sh", "stop=sh", "the modes in which trains are stopped: sr,sh, and sh"),
        ("yellow", "stop=none", "stop=sr", "the modes in which trains are stopped: none, and sr"),
    ],
)
def test_x4_of_further_keys(program: Program, tmp_path: Path, aspect: str, value: str, other: str, said: str) -> None:
    """The key of the design agrees with the telegrams, and another value is one remark with both values."""
    line = read(program, written(program, tmp_path / "t.csv", Line(), with_more))
    rows, name = implied_rows(line), f"Signal 5/{aspect}"
    assert not remarks(line, aspect_value(rows, name, value), tmp_path)
    (found,) = remarks(line, aspect_value(rows, name, other), tmp_path)
    assert found.rule == "X4" and found.sentence.startswith(f"{said} by row "), found.sentence


@pytest.mark.parametrize(
    "value, why",
    [
        ("to=Signal 77", 'to: no row has the signal Signal 77: did you mean "Signal 7"?'),
        ("mode=OS:100", "mode: OS:100 is no mode: write OS:0:300, SH or LS with begin and length, or none"),
        ("stop=sr,sr", "stop: sr,sr is no stop: write sr, sh, sr,sh or none"),
        ("links=352", "links: id: 352 is no identity: write NID_C/NID_BG, such as 352/17"),
        ("authority=yes", "authority: yes: write none, or what the authority gives"),
        ("authority=none v=20", "authority: with authority=none there is no other key of a packet 12"),
        ("sections=500,a", "sections: a is no length: write metres, such as 1400 or 1400.5"),
    ],
)
def test_further_keys_that_mean_nothing(
    sound: Tuple[LineOfTable, List[Cells]], tmp_path: Path, value: str, why: str
) -> None:
    """They are refused with the row and what to write."""
    with pytest.raises(TableErrors) as raised:
        plan_of(aspect_value(sound[1], "Signal 5/green", value), tmp_path)
    assert [each.why for each in raised.value.faults] == [why]


def farther(metres: int, kind: str, rows: List[Cells]) -> List[Cells]:
    """The plan with a signal more, so far beyond signal 5, or with a speed or gradient after the last one."""
    last = [row for row in rows if row["kind"] == kind][-1]
    km = shifted("16.000" if kind == "signal" else last["km_to"], metres)
    end = "" if kind == "signal" else shifted(km, 500)
    return [*rows, {**last, "km": km, "km_to": end, "name": ""}]


@pytest.mark.parametrize("metres, is_named", [(40, True), (700, True), (30_000, False), (-5_990, False)])
def test_x6_of_a_signal(program: Program, tmp_path: Path, metres: int, is_named: bool) -> None:
    """Within the table it is reported at the nearest group. At the first one and beyond the last one it is counted."""
    line = read(program, written(program, tmp_path / "t.csv"))
    found = results(line, farther(metres, "signal", implied_rows(line)), tmp_path)
    assert [len(found[name].found) for name in found] == [0, 0, 0, 0, 0, is_named, 0, 0, 0, 0, 0]
    assert found["X6"].not_looked_at == ({} if is_named else {"beyond the table": 1})
    for each in found["X6"].found:
        assert each.sentence.startswith(f"no authority ends at the signal of row {len(implied_rows(line)) + 2} of the ")
        assert each.location.group and each.location.group.group.name == "Signal 5"


@pytest.mark.parametrize("kind", ["speed", "gradient"])
def test_x6_of_stretches(program: Program, tmp_path: Path, kind: str) -> None:
    """Those for trains that get no telegram are one remark, and those beyond the last authority are counted."""
    line = read(program, written(program, tmp_path / "t.csv"))
    rows = implied_rows(line)
    result = results(line, farther(0, kind, rows), tmp_path)["X6"]
    assert not result.found and result.not_looked_at == {"beyond the table": 1}
    own = [row for row in rows if row["kind"] == kind]
    (found,) = remarks(line, [*rows, *({**row, "way": "falling"} for row in own)], tmp_path)
    number, packet = len(rows) + 2, {"speed": 27, "gradient": 21}[kind]
    last = number - 1 + sum(1 for row in own if Decimal(row["km"]) < Decimal("30.950"))
    words = f"no packet {packet} states the {kind}s of rows {number} to {last} of the plan, from km 10.000 to km "
    assert found.rule == "X6" and found.sentence.startswith(words) and "for falling trains" in found.sentence
    both = [{**row, "way": ""} if row["kind"] == "speed" else row for row in rows]
    assert not remarks(line, both, tmp_path)


def test_x6_of_another_level(program: Program, tmp_path: Path) -> None:
    """Beyond a border to level 2 trains get their authorities by radio, and beyond one to level 1 by balises."""
    line = read(program, written(program, tmp_path / "t.csv"))
    rows = farther(700, "signal", implied_rows(line))
    border = {**dict.fromkeys(plan.COLUMNS, ""), "kind": "level", "km": "14.000", "way": "rising"}
    for level, reasons in (("2", {"another level by the plan": 1}), ("1", {}), ("2 1", {})):
        result = results(line, [*rows, {**border, "value": level}], tmp_path)["X6"]
        assert (len(result.found), result.not_looked_at) == (int(not reasons), reasons)


def test_x6_of_telegrams_whose_places_are_not_known(program: Program, tmp_path: Path) -> None:
    """They might state the row: it is counted with the reason, and is no remark."""

    def without_links(rows: List[Row]) -> None:
        for row in rows:
            row.form["packets"] = [each for each in row.form["packets"] if each["nid_packet"] != 5]

    point = {**dict.fromkeys(plan.COLUMNS, ""), "kind": "point", "km": "16.200", "way": "rising"}
    line = read(program, written(program, tmp_path / "t.csv", Line(), without_links))
    rows = farther(700, "signal", implied_rows(line))
    assert results(line, [*rows, point], tmp_path)["X6"].not_looked_at["behind a point of the plan"] > 0
    path = written(program, tmp_path / "t.csv")
    text = path.read_text("utf-8").splitlines()
    path.write_text("\n".join([*text[:-1], ",".join([*text[-1].split(",")[:-1], "0" * 50])]), "utf-8")
    result = results(read(program, path), rows, tmp_path)["X6"]
    assert not result.found and result.not_looked_at["a refused telegram on the track"] > 0


def group_cells(rows: List[Cells], name: str, **cells: str) -> List[Cells]:
    """The plan with other cells in the row of a group."""
    return [{**row, **cells} if (row["kind"], row["name"]) == ("group", name) else row for row in rows]


@pytest.mark.parametrize(
    "cells, said",
    [
        ({"value": "id=352/99"}, "NID_C and NID_BG are 352/5, and 352/99 by"),
        ({"value": "id=351/5"}, "NID_C and NID_BG are 352/5, and 351/5 by"),
        ({"value": "id=352/5 balises=3"}, "N_TOTAL is 1 (2 balises), and 2 by"),
        ({"value": "id=352/5 linked=no"}, "Q_LINK is 1, and 0 by"),
        ({"value": "id=352/5 at=16.000,16.006"}, "a balise is at km 16.003, and at km 16.006 by"),
        ({"way": "falling"}, "the kilometres are rising in nominal direction, and falling by"),
        ({"track": "2"}, 'the track is "", and "2" by'),
    ],
)
def test_x8_of_another_cell(sound: Tuple[LineOfTable, List[Cells]], tmp_path: Path, cells: Cells, said: str) -> None:
    """Each cell and key of a group's row is compared with its telegrams, and says what differs."""
    line, rows = sound
    found = remarks(line, group_cells(rows, "Signal 5", **cells), tmp_path)
    (first,) = (each for each in found if said in each.sentence)
    assert {each.rule for each in found} == {"X8"} and first.location.group
    assert first.location.group.group.name == "Signal 5" and first.sentence.endswith(" of the plan")
    assert not remarks(line, group_cells(rows, "Signal 5", value="id=352/5"), tmp_path)


def test_places_count_from_where_the_plan_has_the_group(
    program: Program, tmp_path: Path, sound: Tuple[LineOfTable, List[Cells]]
) -> None:
    """A wrong kilometre of the table is one remark, and not one of each rule. One of the plan moves all its places."""
    line, rows = sound

    def moved(own: List[Row]) -> None:
        for row in (row for row in own if row.group == "Signal 5"):
            row.place += 40

    path = written(program, tmp_path / "moved.csv", SOUND["level-border"], with_rbc, moved)
    (found,) = remarks(read(program, path), rows, tmp_path)
    assert found.rule == "X8" and found.sentence.startswith("the first balise is at km 16.040, and at km 16.000 by")
    several = remarks(line, group_cells(rows, "Signal 5", km="16.004"), tmp_path)
    assert {each.rule for each in several} == {"X1", "X2", "X3", "X5", "X8"}
    assert any("the first balise is at km 16.000, and at km 16.004 by" in each.sentence for each in several)


def test_another_cut_into_elements_says_the_same(program: Program, tmp_path: Path) -> None:
    """What holds from where to where is compared: an element that is sent as two of one value is no difference."""
    rows = implied_rows(read(program, written(program, tmp_path / "t.csv")))

    def cut(own: List[Row]) -> None:
        elements = change(own, "Signal 5", "green", 27)["elements"]
        first, second = elements[0], copy.deepcopy(elements[1])
        second.update(d_static=second["d_static"] - 100)
        elements[1:2] = [{**copy.deepcopy(first), "d_static": 100}, second]

    line = read(program, written(program, tmp_path / "t.csv", Line(), cut))
    assert not remarks(line, rows, tmp_path)


def link_of(rows: List[Row], sender: str, **fields: int) -> None:
    """The first link of a group has other values."""
    change(rows, sender, "*", 5)["links"][0].update(fields)


@pytest.mark.parametrize(
    "fields, said",
    [
        ({"d_link": 1470}, "Signal 6: D_LINK adds up to 1470 m, and to 1500 m by the rows"),
        ({"q_linkorientation": 0}, "Signal 6: Q_LINKORIENTATION is 0, and 1 by rows "),
        ({"nid_bg": 7}, "Signal 7: D_LINK adds up to 1500 m, and to 3000 m by rows "),
    ],
)
def test_x8_of_links(program: Program, tmp_path: Path, fields: Dict[str, int], said: str) -> None:
    """A packet 5 is compared with where the plan has both groups, and not with the table."""
    rows = implied_rows(read(program, written(program, tmp_path / "t.csv")))
    path = written(program, tmp_path / "t.csv", Line(), lambda own: link_of(own, "Signal 5", **fields))
    found = remarks(read(program, path), rows, tmp_path)
    assert [each.rule for each in found if said.replace(" the rows", " rows") in each.sentence] == ["X8"], found
    assert {each.rule for each in found} == {"X8"} and found[0].location.number == 5


def test_x8_counts_what_it_does_not_compare(sound: Tuple[LineOfTable, List[Cells]], tmp_path: Path) -> None:
    """Groups without a row, and links of groups without a way, are counted. Of a plan without groups nothing is."""
    line, rows = sound
    result = results(line, [row for row in rows if row["kind"] != "group"], tmp_path)["X8"]
    assert (result.looked_at, result.not_looked_at, result.is_empty) == (0, {}, False)
    others = [row for row in rows if (row["kind"], row["name"]) != ("group", "Signal 5")]
    lacks = results(line, others, tmp_path)["X8"].not_looked_at["the plan says nothing"]
    assert lacks > results(line, rows, tmp_path)["X8"].not_looked_at.get("the plan says nothing", 0)
    result = results(line, group_cells(rows, "Signal 5", way=""), tmp_path)["X8"]
    assert not result.found and result.not_looked_at["no way of the group in the plan"] > 0


def test_x8_of_jumps(program: Program, tmp_path: Path) -> None:
    """A distance across a jump is by places, and not by kilometres."""
    path = written(program, tmp_path / "t.csv")
    jumped(path)
    jumps = (Jump(Decimal("20.000"), Decimal("25.000")),)
    line = read(program, path, jumps)
    rows, options = implied_rows(line, Options(jumps=jumps)), Options(jumps=jumps)
    assert not remarks(line, rows, tmp_path, options)
    assert {each.rule for each in remarks(line, [row for row in rows if row["kind"] != "jump"], tmp_path)} >= {"X8"}


def restriction(place: int, length: int, kmh: int = 40, number: int = 7, front: int = 0) -> Any:
    """A packet 65 with a scale of 1 m."""
    content = [bits(1, 2), bits(number, 8), bits(place, 15), bits(length, 15), bits(front, 1), bits(kmh // 5, 7)]
    return raw(65, 1, "".join(content))


def condition(place: int, length: int, kind: int = 0) -> Any:
    """A packet 68 with one condition."""
    content = [bits(1, 2), "0", bits(place, 15), bits(length, 15), bits(kind, 4), bits(0, 5)]
    return raw(68, 1, "".join(content))


def reversing(place: int, length: int, kmh: int = 30, distance: int = 500) -> List[Any]:
    """A packet 138 and a packet 139."""
    area = raw(138, 1, "".join([bits(1, 2), bits(place, 15), bits(length, 15)]))
    return [area, raw(139, 1, "".join([bits(1, 2), bits(distance, 15), bits(kmh // 5, 7)]))]


def with_things(rows: List[Row]) -> None:
    """Signals 3 and 4 announce a restriction, which Signal 5 is within, and Signal 6 revokes it."""
    fixed(rows, "Signal 3").extend([restriction(2500, 1000), condition(700, 200), *reversing(100, 400)])
    fixed(rows, "Signal 4").append(restriction(1000, 1000))
    fixed(rows, "Signal 5").extend([restriction(0, 500), raw(16, 1, bits(1, 2) + bits(1300, 15))])
    list_for_shunting = [bits(2, 5), "0", bits(7, 14), "1", bits(351, 10), bits(8, 14)]
    fixed(rows, "Signal 7").extend([raw(132, 1, "1"), raw(137, 1, "0"), raw(49, 1, "".join(list_for_shunting))])
    fixed(rows, "Signal 6").append(raw(66, 1, bits(7, 8)))


THINGS = """tsr,15.500,16.500,,rising,v=40 id=7 front=no,
condition,13.700,13.900,,rising,type=0,
reversing,13.100,13.500,,rising,v=30 distance=500,
repositioning,16.000,,,rising,section=1300,
stop_in_sr,19.000,,,rising,stop=yes,
shunting,19.000,,,rising,"stop=no balises=352/7,351/8",""".split(
    "\n"
)
"""The rows of a plan for them."""


def cells_of_things() -> List[Cells]:
    """These rows by their columns."""
    return [dict(zip(plan.COLUMNS, cells)) for cells in csv.reader(THINGS)]


def test_the_plan_of_a_table_has_its_areas(program: Program, tmp_path: Path) -> None:
    """Each restriction once, though three groups send it and one of them only its rest."""
    line = read(program, written(program, tmp_path / "t.csv", Line(), with_things))
    rows = implied_rows(line)
    assert [row for row in rows if row["kind"] in plan_things.KEYS] == cells_of_things()
    found = results(line, rows, tmp_path)
    assert not [each for result in found.values() for each in result.found]
    assert (found["X10"].looked_at, found["X10"].not_looked_at) == (9, {})


@pytest.mark.parametrize(
    "kind, cells, said",
    [
        ("tsr", {"value": "v=60 id=7"}, "V_TSR: 40 km/h, and 60 km/h by row "),
        ("tsr", {"value": "v=40 id=8"}, "NID_TSR: 7, and 8 by row "),
        ("tsr", {"value": "v=40 id=none"}, "NID_TSR: 7, and none by row "),
        ("tsr", {"value": "v=40 front=yes"}, "Q_FRONT ends the speed at the front: no, and yes by row "),
        ("tsr", {"km": "15.550"}, "the temporary restriction begins at km 15.500, and at km 15.550 by row "),
        ("tsr", {"km_to": "16.550"}, "the temporary restriction ends at km 16.500, and at km 16.550 by row "),
        ("condition", {"value": "type=3"}, "M_TRACKCOND: 0, and 3 by row "),
        ("condition", {"km": "13.690"}, "the track condition begins at km 13.700, and at km 13.690 by row "),
        ("reversing", {"value": "v=30 distance=400"}, "D_REVERSE: 500 m, and 400 m by row "),
        ("reversing", {"value": "v=25"}, "V_REVERSE: 30 km/h, and 25 km/h by row "),
        ("repositioning", {"value": "section=1400"}, "L_SECTION: 1300 m, and 1400 m by row "),
        ("stop_in_sr", {"value": "stop=no"}, "Q_SRSTOP stops trains: yes, and no by row "),
        ("stop_in_sr", {"km": "20.500"}, "it has the order for trains in SR at km 19.000, and the plan has none there"),
        ("shunting", {"value": "stop=yes"}, "Q_ASPECT stops trains: no, and yes by row "),
        ("shunting", {"value": "balises=352/7"}, "the balises of packet 49: 352/7,351/8, and 352/7 by row "),
    ],
)
def test_x10_of_another_cell(program: Program, tmp_path: Path, kind: str, cells: Cells, said: str) -> None:
    """Each cell and key is compared with the packets of all groups that state it."""
    line = read(program, written(program, tmp_path / "t.csv", Line(), with_things))
    rows = [{**row, **cells} if row["kind"] == kind else row for row in implied_rows(line)]
    found = remarks(line, rows, tmp_path)
    assert {each.rule for each in found} == {"X10"} and any(each.location.number for each in found), found
    assert [each.sentence for each in found if each.sentence.startswith(said)], found


def test_x10_of_rows_and_packets_without_another(program: Program, tmp_path: Path) -> None:
    """A row that no packet states, and a packet that no row has, if the plan has any row of the kind."""
    line = read(program, written(program, tmp_path / "t.csv", Line(), with_things))
    rows = implied_rows(line)
    more = [*rows, {**of_kind(rows, "tsr"), "km": "20.000", "km_to": "20.500", "value": "v=40 id=9"}]
    (found,) = remarks(line, more, tmp_path)
    where = f"row {len(more) + 1} of the plan, km 20.000 for rising trains"
    assert found.sentence == f"no packet 65 states the temporary restriction of {where}"
    assert found.rule == "X10" and found.location.group and found.location.group.group.name == "Signal 8"
    other = [{**row, "km": "20.000", "km_to": "20.500"} if row["kind"] == "condition" else row for row in rows]
    first, second = sorted(each.sentence for each in remarks(line, other, tmp_path))
    assert first == "it has the track condition from km 13.700 to km 13.900, and the plan has none there"
    assert second.startswith("no packet 68 states the track condition of row ")
    assert not remarks(line, [row for row in rows if row["kind"] != "condition"], tmp_path)
    beyond = [*rows, {**of_kind(rows, "condition"), "km": "99.000", "km_to": "99.200"}]
    assert results(line, beyond, tmp_path)["X10"].not_looked_at == {"beyond the table": 1}


def test_x10_of_a_revocation(program: Program, tmp_path: Path) -> None:
    """A packet 66 needs a row with its number."""

    def other_number(rows: List[Row]) -> None:
        with_things(rows)
        fixed(rows, "Signal 6")[-1] = raw(66, 1, bits(8, 8))

    line = read(program, written(program, tmp_path / "t.csv", Line(), other_number))
    (found,) = remarks(line, [*implied_rows(line)], tmp_path)
    assert found.sentence == "NID_TSR is 8, and no row tsr of the plan has this number"
    assert found.location.number == 66


@pytest.mark.parametrize(
    "row, why",
    [
        ("tsr,15,,,rising,v=40,", "empty: a tsr needs the kilometre at its other end"),
        ("tsr,15,16,,rising,id=7 id=8,", "id is given twice"),
        ("tsr,15,16,,rising,id=255,", "id: 255 is no NID_TSR: write a number of at most 254"),
        ("condition,15,16,,rising,type=16,", "type: 16 is no M_TRACKCOND: write a number of at most 15"),
        ("reversing,15,16,,rising,speed=5,", "speed=5 is none of v=.., distance=.."),
        ("repositioning,15,16,,rising,section=5,", "16: a row of this kind has one kilometre only"),
        ("repositioning,15,,,rising,,", "empty: a repositioning needs a value such as section=700"),
        ("tsr,15,16,,rising,v=40 front=1,", "front: 1 is neither yes nor no"),
        ("shunting,15,,,rising,balises=7,", "balises: id: 7 is no identity: write NID_C/NID_BG, such as 352/17"),
    ],
)
def test_areas_that_mean_nothing(tmp_path: Path, row: str, why: str) -> None:
    """They are refused with what to write."""
    with pytest.raises(TableErrors) as raised:
        plan_of([dict(zip(plan.COLUMNS, row.split(",")))], tmp_path)
    assert [each.why for each in raised.value.faults] == [why]


def with_uncertain(rows: List[Row]) -> None:
    """Signal 3 announces a level crossing, and a change of the traction system."""
    crossing_bits = [bits(1, 2), bits(5, 8), bits(700, 15), bits(20, 15), "1", bits(8, 7), "1", bits(50, 15)]
    traction_bits = [bits(1, 2), bits(900, 15), bits(2, 4), bits(352, 10)]
    fixed(rows, "Signal 3").extend([raw(88, 1, "".join(crossing_bits)), raw(39, 1, "".join(traction_bits))])


CERTAIN = Options(layouts=frozenset({39, 88}))


@pytest.mark.parametrize(
    "kind, cells, said",
    [
        ("crossing", {"value": "id=6"}, "NID_LX: 5, and 6 by row "),
        ("crossing", {"value": "v=50"}, "V_LX: 40 km/h, and 50 km/h by row "),
        ("crossing", {"value": "protected=yes"}, "Q_LXSTATUS protects: no, and yes by row "),
        ("crossing", {"value": "id=5 stop=no"}, "Q_STOPLX stops trains: yes, and no by row "),
        ("crossing", {"km": "13.690"}, "the level crossing begins at km 13.700, and at km 13.690 by row "),
        ("traction", {"value": "voltage=3"}, "M_VOLTAGE: 2, and 3 by row "),
        ("traction", {"value": "country=353"}, "NID_CTRACTION: 352, and 353 by row "),
        ("traction", {"km": "14.400"}, "it has the change of the traction system at km 13.900, and the plan has none"),
    ],
)
def test_x10_of_layouts_that_are_not_certain(
    program: Program, tmp_path: Path, kind: str, cells: Cells, said: str
) -> None:
    """They are compared only if the project names them, and else the rows are counted."""
    line = read(program, written(program, tmp_path / "t.csv", Line(), with_uncertain))
    assert not [row for row in implied_rows(line) if row["kind"] in ("crossing", "traction")]
    rows = implied_rows(line, CERTAIN)
    assert of_kind(rows, "crossing")["value"] == "id=5 protected=no v=40 stop=yes"
    assert not remarks(line, rows, tmp_path, CERTAIN)
    wrong = [{**row, **cells} if row["kind"] == kind else row for row in rows]
    found = remarks(line, wrong, tmp_path, CERTAIN)
    assert {each.rule for each in found} == {"X10"} and any(each.sentence.startswith(said) for each in found), found
    result = results(line, wrong, tmp_path)["X10"]
    assert not result.found and list(result.not_looked_at.values()) == [2] and result.is_empty


def lost_by(row: Cells, rows: List[Cells]) -> bool:
    """Whether the loss of a row leaves others of its kind, and, of a profile, one before it that then goes on."""
    own = [each for each in rows if each["kind"] == row["kind"]]
    lane = [each for each in own if (each["way"], each["track"]) == (row["way"], row["track"])]
    return row is not lane[0] if row["kind"] in ("speed", "gradient") else len(own) > 1


def test_each_wrong_row_is_an_open_entry(program: Program, tmp_path: Path) -> None:
    """A name that is mistyped, a value that is another one, and a row that is lost, of every kind."""
    sound = replace(SOUND["level-border"], signals=10)
    line = read(program, written(program, tmp_path / "t.csv", sound, with_rbc, with_things))
    rows, tried = implied_rows(line), Counter[str]()
    assert not remarks(line, rows, tmp_path)
    for index, row in enumerate(rows):
        others = {"lost": [each for each in rows if each is not row]} if lost_by(row, rows) else {}
        number = re.search("[0-9]+", row["value"])
        if number:
            value = f"{row['value'][: number.start()]}{int(number[0]) + 5}{row['value'][number.end() :]}"
            value = "1" if row["kind"] == "level" else value
            others["value"] = [*rows[:index], {**row, "value": value}, *rows[index + 1 :]]
        if row["kind"] in ("aspect", "group"):
            others["name"] = [*rows[:index], {**row, "name": f"{row['name']}x"}, *rows[index + 1 :]]
        for what, wrong in others.items():
            assert remarks(line, wrong, tmp_path), (what, row)
            tried[what] += 1
    assert tried["lost"] > 60 and tried["value"] > 60 and tried["name"] > 40


CENTRES: List[Cells] = [{**dict.fromkeys(plan.COLUMNS, ""), "kind": "radio", "value": "rbc=352/17 phone=012345"}]
NETWORK: Cells = {**CENTRES[0], "value": "network=123456"}


def with_numbers(rows: List[Row]) -> None:
    """Two packets 42 with one number, a packet 131 with the short number, and a packet 45."""
    digits = f"{int('012345' + 'f' * 10, 16):064b}"
    for group in ("Signal 3", "Signal 4"):
        fixed(rows, group).append(raw(42, 1, "".join(["1", bits(352, 10), bits(17, 14), digits, "0"])))
    fixed(rows, "Signal 4").append(raw(45, 1, bits(0x123456, 24)))


def test_x11_of_sound_packets(program: Program, tmp_path: Path) -> None:
    """The number is that of the plan, and a plan without such rows compares nothing."""
    line = read(program, written(program, tmp_path / "t.csv", Line(), with_numbers))
    rows = implied_rows(line)
    found = results(line, [*rows, *CENTRES, NETWORK], tmp_path)["X11"]
    assert (found.found, found.looked_at, found.not_looked_at) == ([], 3, {})
    found = results(line, [*rows, *CENTRES], tmp_path)["X11"]
    assert (found.found, found.looked_at, found.not_looked_at) == ([], 2, {"the plan says nothing": 1})
    assert results(line, rows, tmp_path)["X11"].looked_at == 0


@pytest.mark.parametrize(
    "value, said, unnamed",
    [
        ("rbc=352/17 phone=012346", "NID_RADIO of the RBC 352/17 is 012345, and 012346 by row ", ""),
        ("rbc=352/17 phone=short", "NID_RADIO of the RBC 352/17 is 012345, and short by row ", ""),
        ("rbc=352/18", "NID_C and NID_RBC are 352/17, and no row of the plan has it", "RBC 352/18"),
        ("network=123457", "NID_MN is 123456, and no row of the plan has it", "network 123457"),
    ],
)
def test_x11_of_another_value(program: Program, tmp_path: Path, value: str, said: str, unnamed: str) -> None:
    """All packets that differ alike are one remark. A row that no packet names is at no group."""
    line = read(program, written(program, tmp_path / "t.csv", Line(), with_numbers))
    found = remarks(line, [*implied_rows(line), {**CENTRES[0], "value": value}], tmp_path)
    assert {each.rule for each in found} == {"X11"} and found[0].sentence.startswith(said), found
    assert [each.location.listed for each in found[1:]] == ([unnamed] if unnamed else [])
    assert len(found[0].also) == (0 if "network" in value else 1)


@pytest.mark.parametrize("value", ["phone=12", "network=12 rbc=352/17", "network=1234567", "rbc=352/17 phone=abc"])
def test_radio_rows_that_mean_nothing(tmp_path: Path, value: str) -> None:
    """They are refused."""
    with pytest.raises(TableErrors):
        plan_of([{**CENTRES[0], "value": value}], tmp_path)


def test_options(run: Run, program: Program, tmp_path: Path) -> None:
    """The plan may be stated in balisekit.toml. Rules X need one."""
    path, file = written(program, tmp_path / "t.csv"), tmp_path / "p.csv"
    assert run("plan", path, "--csv", file)[0] == 0
    for only in ("X", "X,X"):
        assert run("check", path, "--only", only)[2] == [
            "balisekit: --only X needs a design of the line: give --design FILE"
        ]
    assert run("check", path, "--plan", file, "--only", "F,L")[2] == ["balisekit: --plan is not used with --only F,L"]
    assert run("check", path, "--plan", tmp_path / "none.csv")[2] == [
        f"balisekit: {tmp_path / 'none.csv'}: No such file or directory"
    ]
    assert run("check", path, "--plan", file, "--json", file, "--force")[0] == 2
    (tmp_path / "balisekit.toml").write_text('[check]\nplan = "p.csv"\n', "utf-8")
    status, out, _ = run("check", path)
    assert status == 0 and out[-1] == 'program: "yes: groups 15, messages 0"; track plan: none found, 465 compared'


def test_without_kilometres(run: Run, program: Program, tmp_path: Path) -> None:
    """Only the route table can be compared: other rows make the answer incomplete."""
    path, file = written(program, tmp_path / "t.csv"), tmp_path / "p.csv"
    assert run("plan", path, "--csv", file)[0] == 0
    head, *rows = csv.reader(io.StringIO(path.read_text("utf-8")))
    path.write_text("\n".join(",".join([*row[:2], *row[3:]]) for row in [head, *rows]), "utf-8")
    rows_without = [{**row, "way": ""} for row in rows_of(file.read_text("utf-8"))]
    file.write_text(text_of(rows_without), "utf-8")
    status, out, _ = run("check", path, "--plan", file)
    assert status == 2 and any("45 authorities of aspects (X4)" in line for line in out)
    assert all(f"X{rule} compared none of " in out[-1] for rule in (1, 2, 3)) and "X4 compared" not in out[-1]
    file.write_text("kind,km,value\nlevel,12,1\nlevel,13,0\n", "utf-8")
    status, out, _ = run("check", path, "--plan", file)
    assert status == 2 and "X5 compared none of 2 borders (no kilometre or direction: 2)" in out[-1]
    file.write_text(OF_SIGNAL_5, "utf-8")
    status, out, _ = run("check", path, "--plan", file)
    assert status == 0 and "track plan: none found, 9 compared" in out[-1]


def test_refused_telegrams(run: Run) -> None:
    """What the program reads is in the plan, and the status is that of an incomplete answer."""
    status, out, err = run("plan", TOP / "examples" / "table" / "line.csv")
    assert status == 2 and out[0] == ",".join(plan.COLUMNS)
    assert err[-1].startswith("INCOMPLETE: 1 of 34 telegrams refused; written: standard output: speed 4, gradient 6, ")


def test_outputs(run: Run, program: Program, tmp_path: Path) -> None:
    """Remarks are in the JSON, and can be accepted: the entry is at fault once the plan has another value."""
    path, file = TOP / plan_example.TABLE, tmp_path / "p.csv"
    file.write_text((TOP / plan_example.PLAN).read_text("utf-8"), "utf-8")
    signed = tmp_path / "accepted.csv"
    words = ("check", path, "--plan", file)
    assert run(*words, "--json", tmp_path / "a.json", "--sarif", tmp_path / "a.sarif", "--propose", signed)[0] == 1
    form = json.loads((tmp_path / "a.json").read_text("utf-8"))
    for name, answer in (("kit-check", form), ("kit-sarif", json.loads((tmp_path / "a.sarif").read_text("utf-8")))):
        schema(name).validate(answer)
    (entry,) = (each for each in form["entries"] if each["rules"] == ["X1"])
    assert entry["values"] == {"v_static_kmh": "100", "plan_kmh": "80", "km": "17.990", "km_to": "20.700"}
    assert form["rules"]["X5"]["looked_at"] == 3
    head, *rows = signed.read_text("utf-8").splitlines()
    assert [row.split(",")[0] for row in rows] == ["X6", "X5", "X3", "X2", "X1", "X10", "X4", "X7", "X9", "X8", "X11"]
    entries = list(csv.DictReader(io.StringIO("\n".join([head, *rows]))))
    for each in entries:
        each.update(reason="as the signalling plan has it", who="me", date="2026-01-02")
    signed.write_text(text_of(entries), "utf-8")
    status, out, _ = run(*words, "--accepted", signed)
    assert status == 0 and out[-1].startswith("no open findings")
    file.write_text(file.read_text("utf-8").replace(",,rising,80,\nspeed,21", ",,rising,70,\nspeed,21"), "utf-8")
    status, out, _ = run(*words, "--accepted", signed)
    assert status == 1 and any("the telegrams or values have changed" in line for line in out)


def test_example() -> None:
    """The plan and the answer in examples/meaning are those of the commands."""
    assert plan_example.plan() == (TOP / plan_example.PLAN).read_text("utf-8")
    answer = plan_example.run("check", plan_example.TABLE, "--plan", plan_example.PLAN)
    assert without_program(answer) == without_program((TOP / plan_example.ANSWER).read_text("utf-8"))
    assert [answer.count(f": {rule.name}: ") for rule in track_plan.RULES] == [1] * 11


def test_report(run: Run, tmp_path: Path) -> None:
    """The page has the remarks and the counts of the last line, and its status is that of `check`."""
    pytest.importorskip("jinja2")
    words = ("report", TOP / plan_example.TABLE, "--html", tmp_path / "a.html")
    assert run(*words, "--plan", TOP / plan_example.PLAN)[0] == 1
    page = (tmp_path / "a.html").read_text("utf-8")
    assert "V_MAIN is 140 km/h, and 100 km/h by row 64 of the plan" in page
    assert "compared: 67 speeds (X1), 77 gradients (X2), 30 ends of authority (X3), " in page
    assert run(*words, "--force")[0] == 0 and "Track plan, by" not in (tmp_path / "a.html").read_text("utf-8")


def test_the_example_of_the_page() -> None:
    """track-plan.md shows the last lines of the example's answer."""
    page = (TOP / "docs" / "track-plan.md").read_text("utf-8")
    (block,) = re.findall(r"```console\n\$ \./balisekit (check [^|]*) \| tail -n 6\n(.*?)```", page, re.DOTALL)
    answer = plan_example.run(*block[0].split())
    assert answer.endswith(f"\n{block[1]}") and block[1].count("\n") == 6


def test_pages(run: Run) -> None:
    """Each rule has all paragraphs, and --explain shows them."""
    for rule in track_plan.RULES:
        assert tuple(rule.parts) == WHOLE[:-1], rule.name
    out = run("check", TOP / plan_example.TABLE, "--plan", TOP / plan_example.PLAN, "--explain")[1]
    assert any(line.startswith("X3: end of authority at no signal of the plan") for line in out)


def test_the_plan_of_a_project_has_jumps(run: Run, program: Program, tmp_path: Path) -> None:
    """`plan` uses those of [check] plan, each once, but this plan may be the one that it writes first."""
    path, file, other = written(program, tmp_path / "t.csv"), tmp_path / "p.csv", tmp_path / "other.csv"
    jumped(path)
    settings, stated = tmp_path / "balisekit.toml", "[check]\nplan = 'p.csv'\n"
    (tmp_path / "j.csv").write_text("km,km_after\n20.000,25.000\n", "utf-8")
    settings.write_text(f"{stated}jumps = 'j.csv'\n", "utf-8")
    assert run("plan", path, "--csv", file)[0] == 0
    for jumps in ("", "jumps = 'j.csv'\n"):
        settings.write_text(stated + jumps, "utf-8")
        assert run("plan", path, "--csv", other, "--force")[0] == 0
        assert other.read_bytes() == file.read_bytes() and file.read_text("utf-8").count("jump") == 1


def test_notes_of_a_plan_have_the_order_of_the_table(program: Program, monkeypatch: pytest.MonkeyPatch) -> None:
    """Here each element has a reason of its own. No order depends on the run."""
    numbers = count()
    monkeypatch.setattr(implied_profiles, "span", lambda saying, element: (None, f"reason {next(numbers):04}"))
    table = reader.read(str(TOP / "examples" / "meaning" / "line.csv"))
    notes = implied(LineOfTable.of(checking.check(program, table)), Options()).notes
    reasons = [note for note in notes if "reason" in note]
    assert len(reasons) > 20 and reasons == sorted(reasons)

"""Each cell of a track plan is compared, or named as not compared: none can be wrong without a word of it."""
from __future__ import annotations

import csv
import io
from pathlib import Path
from typing import Any, Callable, Dict, List, Sequence, Tuple

import pytest
from cases_of_program import TOP
from conftest import Run
from meaning_line import SOUND
from plan_example import Cells
from test_track_plan import implied_rows, of_kind, read, results, written

from balisekit.engine.program import Program
from balisekit.rules.track_plan.stating import ONE_WAY
from balisekit.rules.track_plan.x4_aspects import REFUSED
from balisekit.rules.track_plan.x8_groups import NO_KILOMETRES

Write = Callable[..., Path]
EXAMPLE = TOP / "examples/meaning/line.csv"


def plan_of_line(program: Program, path: Path, line: str = "line") -> Any:
    """A sound line, and the plan that it implies, with its groups."""
    found = read(program, written(program, path, SOUND[line]))
    return found, implied_rows(found)


def group_row(**cells: str) -> Cells:
    """The row of Signal 3."""
    return {"kind": "group", "km": "13.000", "km_to": "", "track": "", "way": "rising", "name": "Signal 3", **cells}


def test_the_kilometre_and_track_of_an_aspect(program: Program, tmp_path: Path) -> None:
    """A note names the row, and no remark: the kilometre of a signal is not that of its balises."""
    line, rows = plan_of_line(program, tmp_path / "t.csv")
    row = of_kind(rows, "aspect", name="Signal 3/green")
    changes: Sequence[Tuple[Dict[str, str], bool]] = (
        ({}, False),
        ({"km": "13.040"}, False),
        ({"km": "13.400"}, True),
        ({"track": "7"}, True),
    )
    for cells, is_named in changes:
        old = dict(row)
        row.update(cells)
        result = results(line, rows, tmp_path)["X4"]
        assert not result.found and any("not compared: the kilometre or track" in n for n in result.notes) == is_named
        row.update(old)


@pytest.mark.parametrize(
    "value, words",
    [
        ("at=13.000,13.003", ""),
        ("at=13.000,13.003,13.006", "N_TOTAL is 1 (2 balises), and 2 by"),
        ("at=13.000,13.009", "a balise is at km 13.003, and at km 13.009"),
        ("at=13.007,13.003", "a balise is at km 13.000, and at km 13.007"),
    ],
)
def test_the_kilometres_of_balises(program: Program, tmp_path: Path, value: str, words: str) -> None:
    line, rows = plan_of_line(program, tmp_path / "t.csv")
    found = results(line, [*_without_groups(rows), group_row(value=value)], tmp_path)["X8"].found
    assert len(found) == bool(words) and all(words in each.sentence for each in found)


def _without_groups(rows: List[Cells]) -> List[Cells]:
    return [row for row in rows if row["kind"] != "group"]


def test_balises_without_a_kilometre(program: Program, run: Run, tmp_path: Path) -> None:
    """The table has no kilometre of the second balise: the answer counts the group."""
    _, rows = plan_of_line(program, tmp_path / "t.csv")
    sent = list(csv.DictReader(io.StringIO((tmp_path / "t.csv").read_text("utf-8"))))
    lines = [{**row, "km": "" if (row["group"], row["balise"]) == ("Signal 3", "1") else row["km"]} for row in sent]
    text = "\n".join([",".join(sent[0]), *(",".join(row.values()) for row in lines)])
    (tmp_path / "t.csv").write_text(text, "utf-8")
    line = read(program, tmp_path / "t.csv")
    result = results(line, [*_without_groups(rows), group_row(value="at=13.000,13.009")], tmp_path)["X8"]
    assert not result.found and result.not_looked_at[NO_KILOMETRES] == 1


def test_an_aspect_with_a_refused_telegram(program: Program, tmp_path: Path) -> None:
    """X4 does not say that it lacks its packet 12, and counts its row."""
    _, rows = plan_of_line(program, tmp_path / "t.csv")
    lines = (tmp_path / "t.csv").read_text("utf-8").splitlines()
    at = next(at for at, text in enumerate(lines) if text.startswith("Signal 3,") and ",green," in text)
    lines[at] = lines[at][:-1] + "1"
    (tmp_path / "t.csv").write_text("\n".join(lines), "utf-8")
    assert results(read(program, tmp_path / "t.csv"), rows, tmp_path)["X4"].not_looked_at.get(REFUSED) == 1


def test_a_short_speed_within_the_table(program: Program, tmp_path: Path) -> None:
    """A row of 40 m at which no profile states anything was called beyond the table."""

    def without_profiles(rows: List[Any]) -> None:
        for row in rows:
            row.form["packets"] = [each for each in row.form["packets"] if each["nid_packet"] != 27]

    line = read(program, written(program, tmp_path / "t.csv", SOUND["line"], without_profiles))
    row: Dict[str, str] = {"kind": "speed", "km": "16.000", "km_to": "16.040", "track": "", "way": "rising"}
    rows = [{**row, "value": "80", "name": ""}]
    assert [each.rule for each in results(line, rows, tmp_path)["X6"].found] == ["X6"]
    beyond = [{**rows[0], "km": "9.980", "km_to": "10.020"}]
    assert not results(line, beyond, tmp_path)["X6"].found


def test_a_row_for_both_ways_that_one_way_states(program: Program, tmp_path: Path) -> None:
    """No profile of the falling trains reaches the end of the row: it is counted, and no remark is made."""

    def without_falling(rows: List[Any]) -> None:
        for row in rows:
            number = int(row.group.partition("Signal R")[2] or 0)
            if 2 < number < 9:
                row.form["packets"] = [each for each in row.form["packets"] if each["nid_packet"] != 27]

    line = read(program, written(program, tmp_path / "t.csv", SOUND["both-directions"], without_falling))
    row = {"kind": "speed", "km": "16.000", "km_to": "17.000", "track": "", "way": "", "value": "80", "name": ""}
    result = results(line, [row], tmp_path)["X6"]
    assert not result.found and result.not_looked_at == {ONE_WAY: 1}


def test_a_group_without_a_track(run: Run, table: Write) -> None:
    """X1 to X3, X5, X6 and X10 compare it with no row that has a track, and a note says so."""
    with open(EXAMPLE, encoding="utf-8", newline="") as file:
        rows = [{**row, "track": "" if row["group"] == "Signal 3" else "1"} for row in csv.DictReader(file)]
    lines = [",".join(rows[0]), *(",".join(row.values()) for row in rows)]
    plan = table("kind,km,track,way,value", "speed,10.000,1,rising,160", name="plan.csv")
    _, out, _ = run("check", table(*lines), "--plan", plan)
    words = "so X1 to X3, X5, X6 and X10 compare it with no row that has a track"
    assert [line for line in out if words in line] == [
        f"note: Signal 3: no track, though other groups have one, {words}"
    ]

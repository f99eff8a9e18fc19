"""How much a design confirms: a word for each variable and each row, one line, and the least share of a project."""
from __future__ import annotations

import csv
import json
from collections import Counter
from pathlib import Path
from typing import Any, Dict

import pytest
from conftest import Run
from test_check_outputs import schema
from test_design_files import LINE, PLAN, write_csv

from balisekit.etcs.flat import variables
from balisekit.rules.track_plan import confirmed

WORDS = ("confirmed", "contradicted", "free", "not_compared", "derived")


def checked(run: Run, tmp_path: Path, *words: object) -> Dict[str, Any]:
    """The JSON of a check."""
    run("check", *words, "--json", tmp_path / "found.json", "--force")
    form: Dict[str, Any] = json.loads((tmp_path / "found.json").read_text("utf-8"))
    return form


def plan_of(run: Run, tmp_path: Path, table: Path) -> Path:
    """The design that the telegrams of a table imply."""
    assert run("plan", table, "--csv", tmp_path / "made.csv", "--force")[0] == 0
    return tmp_path / "made.csv"


def test_each_variable_has_one_word(run: Run, tmp_path: Path) -> None:
    """The words of all cells add up to the variables that `table` writes, apart from those that a packet hides."""
    form = checked(run, tmp_path, LINE, "--design", PLAN)
    schema("kit-check").validate(form)
    counts = Counter({word: sum(cell[word] for cell in form["design"]["groups"]) for word in WORDS})
    assert {word: form["design"]["variables"][word] for word in WORDS} == dict(counts)
    names = [each.name for telegram in form["telegrams"] for each in variables(telegram["form"])]
    wanted = sum(name not in ("body", "user bits") for name in names)
    assert sum(counts.values()) == wanted
    for cell in form["design"]["groups"]:
        assert sum(cell["reasons"].values()) == cell["free"] + cell["not_compared"]


def test_one_other_value_is_contradicted(run: Run, tmp_path: Path) -> None:
    """A speed other than in the telegrams contradicts its row, and moves variables from one word to the other."""
    design = plan_of(run, tmp_path, LINE)
    before = checked(run, tmp_path, LINE, "--design", design)["design"]
    rows = list(csv.DictReader(design.open(encoding="utf-8", newline="")))
    at = next(index for index, row in enumerate(rows) if row["kind"] == "speed")
    rows[at]["value"] = "45"
    after = checked(run, tmp_path, LINE, "--design", write_csv(tmp_path / "other.csv", rows))["design"]
    assert before["variables"]["contradicted"] == 0 < after["variables"]["contradicted"]
    moved = before["variables"]["confirmed"] - after["variables"]["confirmed"]
    not_compared = after["variables"]["not_compared"] - before["variables"]["not_compared"]
    assert moved == after["variables"]["contradicted"] + not_compared, "Q_DIR and Q_SCALE of a packet follow its values"
    assert [row["word"] for row in after["rows"] if row["row"] == at + 2] == ["contradicted"]
    assert all(row["telegrams"] for row in after["rows"] if row["word"] == "contradicted")


@pytest.mark.parametrize("kind", ["speed", "gradient", "signal", "aspect", "group"])
def test_without_a_kind_less_is_confirmed(run: Run, tmp_path: Path, kind: str) -> None:
    """Without the rows of a kind the variables that it states are not compared, and the reason says so."""
    rows = list(csv.DictReader(plan_of(run, tmp_path, LINE).open(encoding="utf-8", newline="")))
    whole = checked(run, tmp_path, LINE, "--design", tmp_path / "made.csv")["design"]
    others = write_csv(tmp_path / "less.csv", [row for row in rows if row["kind"] != kind])
    less = checked(run, tmp_path, LINE, "--design", others)["design"]
    is_only = kind != "signal"  # (aspects state the end of an authority too)
    assert (less["variables"]["confirmed"] < whole["variables"]["confirmed"]) == is_only
    assert less["variables"]["contradicted"] == 0 and less["variables"]["total"] == whole["variables"]["total"]
    if is_only:
        assert any("the design has no row of this kind" in cell["reasons"] for cell in less["groups"])


def test_rows_that_nothing_states_are_uncovered(run: Run, tmp_path: Path) -> None:
    """A mistyped name is an uncovered row and an open entry with status 1, and the line counts it."""
    rows = list(csv.DictReader(plan_of(run, tmp_path, LINE).open(encoding="utf-8", newline="")))
    at = next(index for index, row in enumerate(rows) if row["kind"] == "aspect")
    rows[at]["name"] = rows[at]["name"].replace("Signal", "Sgnal")
    other = write_csv(tmp_path / "other.csv", rows)
    status, lines, _ = run("check", LINE, "--design", other)
    assert status == 1 and any("X7" in line and f"row {at + 2} of the design" in line for line in lines)
    (line,) = [line for line in lines if line.startswith("design: ")]
    assert ", 1 uncovered" in line and line.endswith(", 1 not compared") == any(row["kind"] == "point" for row in rows)


def test_the_order_of_the_last_lines(run: Run) -> None:
    """The design, then the account, and the verdict last."""
    lines = run("check", LINE, "--design", PLAN)[1]
    assert [line.split(":")[0] for line in lines[-3:]] == ["design", "account", "program"]
    assert not any(line.startswith("design: ") for line in run("check", LINE)[1])


def test_the_least_share(run: Run, tmp_path: Path) -> None:
    """Below the share that a project states the answer is INCOMPLETE, whatever was found; and without a design too."""
    share = checked(run, tmp_path, LINE, "--design", PLAN)["design"]["variables"]
    reached = int(100 * share["confirmed"] / share["total"])
    assert run("check", LINE, "--design", PLAN, "--confirmed", reached)[0] == 1
    status, lines, _ = run("check", LINE, "--design", PLAN, "--confirmed", reached + 1)
    assert status == 2 and lines[-1].startswith("INCOMPLETE: the design confirms ")
    table = tmp_path / "line.csv"
    table.write_bytes(LINE.read_bytes())
    (tmp_path / "balisekit.toml").write_text("[check]\nconfirmed = 95\n", "utf-8")
    status, lines, _ = run("check", table)
    assert status == 2 and "no design confirms anything, and 95 % is the least" in lines[-1]
    form = checked(run, tmp_path, table)
    assert form["status"] == 2 and "design" not in form


def test_the_matrix_of_the_report(run: Run, tmp_path: Path) -> None:
    """A report has a cell for each group and kind, with the reasons in it."""
    page = tmp_path / "report.html"
    run("report", LINE, "--design", PLAN, "--html", page)
    text = page.read_text("utf-8")
    form = checked(run, tmp_path, LINE, "--design", PLAN)["design"]
    matrix = text[text.index("<h2>What the design confirms") :]
    matrix = matrix[: matrix.index("</section>")]
    assert matrix.count("<details>") == len(form["groups"])
    assert all(why in matrix for cell in form["groups"] for why in cell["reasons"])


def test_bits_of_nested_objects() -> None:
    """Each variable of a packet has one bit, whatever lists and objects it is in."""
    form = {"a": 1, "b": [{"c": 1, "d": [2, 3]}, {"c": 4}], "e": {"f": 5}}
    bits = confirmed._bits(confirmed._shape(form))
    assert set(bits) == {("a",), ("b", 0, "c"), ("b", 0, "d", 0), ("b", 0, "d", 1), ("b", 1, "c"), ("e", "f")}
    assert sorted(bits.values()) == [1 << place for place in range(6)]

"""The files of a design: workbooks and CSV files are one design, and no sheet with rows of it is passed over."""
from __future__ import annotations

import csv
import json
from pathlib import Path
from typing import Dict, List, Sequence

import openpyxl
import pytest
from conftest import Run

TOP = Path(__file__).resolve().parents[2]
LINE, PLAN = TOP / "examples/meaning/level-border.csv", TOP / "examples/meaning/plan.csv"
Cells = Dict[str, str]


def rows_of_plan() -> List[Cells]:
    """The rows of the example, one of them a speed that the telegrams contradict."""
    with open(PLAN, encoding="utf-8", newline="") as file:
        rows = list(csv.DictReader(file))
    first = next(row for row in rows if row["kind"] == "speed")
    first["value"] = "40"
    return rows


def write_csv(path: Path, rows: Sequence[Cells]) -> Path:
    """A CSV file with these rows."""
    with path.open("w", encoding="utf-8", newline="") as file:
        writer = csv.DictWriter(file, list(rows[0]))
        writer.writeheader()
        writer.writerows(rows)
    return path


def write_workbook(path: Path, rows: Sequence[Cells], names: Sequence[str] = (), title: str = "") -> Path:
    """A workbook with one sheet a kind. `names` are other headings, in the order of the columns."""
    book = openpyxl.Workbook()
    book.remove(book.active)
    if title:
        book.create_sheet(title).append(["Line 1, revision B"])
    for kind in dict.fromkeys(row["kind"] for row in rows):
        sheet = book.create_sheet(kind.capitalize())
        columns = [name for name in rows[0] if name != "kind"]
        sheet.append(list(names or columns))
        for row in rows:
            if row["kind"] == kind:
                sheet.append([row[name] for name in columns])
    book.save(path)
    return path


def entries_of(run: Run, tmp_path: Path, *options: object) -> List[str]:
    """What the rules X find, without the names of rows: these differ by the files."""
    run("check", LINE, "--json", tmp_path / "found.json", "--force", *options)
    found = json.loads((tmp_path / "found.json").read_text("utf-8"))
    return sorted(f"{each['rule']} {each['rows']}" for each in found["entries"] if each["rule"].startswith("X"))


def test_a_workbook_is_as_a_plan(run: Run, tmp_path: Path) -> None:
    """The same rows in a workbook, in two files and as a plan give the same entries."""
    rows = rows_of_plan()
    half = len(rows) // 2
    plan = write_csv(tmp_path / "all.csv", rows)
    book = write_workbook(tmp_path / "design.xlsx", rows, title="Title")
    parts = [write_csv(tmp_path / "a.csv", rows[:half]), write_csv(tmp_path / "b.csv", rows[half:])]
    wanted = entries_of(run, tmp_path, "--plan", plan)
    assert any(each.startswith("X1 ") for each in wanted)
    assert entries_of(run, tmp_path, "--design", plan) == wanted
    assert entries_of(run, tmp_path, "--design", book) == wanted
    assert entries_of(run, tmp_path, "--design", parts[0], "--design", parts[1]) == wanted
    assert entries_of(run, tmp_path, "--plan", parts[0], "--design", parts[1]) == wanted


def test_rows_are_named_by_their_sheets(run: Run, tmp_path: Path) -> None:
    """A row of a workbook has the number that a spreadsheet shows, and the name of its sheet."""
    rows = rows_of_plan()
    at = [row["value"] for row in rows if row["kind"] == "speed"].index("40") + 2
    book = write_workbook(tmp_path / "design.xlsx", rows)
    lines = run("check", LINE, "--design", book)[1]
    assert any("X1: " in line and f'by row {at} of sheet "Speed"' in line for line in lines), lines
    other = write_csv(tmp_path / "b.csv", [{**rows[0], "kind": "signal", "km": "99.999", "value": "", "name": "Z"}])
    lines = run("check", LINE, "--design", book, "--design", other)[1]
    assert any(f'by row {at} of sheet "Speed" of design.xlsx' in line for line in lines), lines


def test_own_headings_and_settings(run: Run, tmp_path: Path) -> None:
    """[design] of balisekit.toml has the headings, and [check] the files: one, or a list."""
    rows = rows_of_plan()
    table = tmp_path / "line.csv"
    table.write_bytes(LINE.read_bytes())
    names = ["Kilometer", "bis", "Gleis", "Richtung", "Wert", "Bezeichnung"]
    columns = [name for name in rows[0] if name != "kind"]
    write_workbook(tmp_path / "design.xlsx", rows, names)
    heads = "".join(f'{name} = "{own}"\n' for name, own in zip(columns, names))
    wanted = run("check", LINE, "--design", write_workbook(tmp_path / "plain.xlsx", rows))
    for value in ('"design.xlsx"', '["design.xlsx"]'):
        (tmp_path / "balisekit.toml").write_text(f"[check]\ndesign = {value}\n[design]\n{heads}", "utf-8")
        status, lines, _ = run("check", table)
        assert status == wanted[0] == 1 and lines[-1] == wanted[1][-1]
        assert any("check.design = " in line and "SHA-256" in line for line in lines)


FAULTS = [
    ("Speeds", ["km", "value"], 'sheet "Speeds": this name is no kind: did you mean "speed"?'),
    ("Tempo", ["km", "value"], 'sheet "Tempo": this name is no kind: a sheet has the name of its kind: '),
    ("Speed", ["km", "valu"], 'sheet "Speed": there is no column valu: did you mean "value"?'),
    ("Speed", ["km", "kind"], 'sheet "Speed": signal is in the sheet speed'),
]


@pytest.mark.parametrize("sheet, heads, why", FAULTS)
def test_refused_sheets(run: Run, tmp_path: Path, sheet: str, heads: Sequence[str], why: str) -> None:
    """A sheet that may have rows of the design is never passed over."""
    book = openpyxl.Workbook()
    book.active.title = sheet
    book.active.append(list(heads))
    book.active.append(["1.000", "signal"])
    book.save(tmp_path / "design.xlsx")
    status, _, lines = run("check", LINE, "--design", tmp_path / "design.xlsx")
    assert status == 2 and any(why in line for line in lines), lines


def test_what_is_not_read(run: Run, tmp_path: Path) -> None:
    """A title page is named, two rows of one place in two files are refused, and so is a file that is not there."""
    rows = rows_of_plan()
    book = write_workbook(tmp_path / "design.xlsx", rows, title="Title")
    lines = run("check", LINE, "--design", book)[1]
    assert any(line.endswith('sheets without headings of a design, which are not read: "Title"') for line in lines)
    status, _, lines = run("check", LINE, "--design", book, "--plan", write_csv(tmp_path / "b.csv", rows[:1]))
    assert status == 2 and any("of b.csv" in line for line in lines), lines
    assert run("check", LINE, "--design", tmp_path / "none.csv")[0] == 2
    assert run("check", LINE, "--only", "L,F", "--design", book)[0] == 2, "a design that no rule reads"

"""Tables that differ from a plan beside packets that agree with it: plans/NAME.csv with plans/NAME.plan.csv."""
from __future__ import annotations

from pathlib import Path
from typing import Dict

import pytest
from conftest import Run

FOLDER = Path(__file__).with_name("plans")
SAID: Dict[str, str] = {
    "x4-none": "1 found (X4 1)",
    "x4-none-stop": "1 found (X4 1)",
    "x4-none-links": "1 found (X4 1)",
    "x5-rbc": "1 found (X5 1)",
    "x10-shunting": "2 found (X10 2)",
    "x10-reversing": "1 found (X10 1)",
    "x10-both": "stated for one way only, although groups say something for both: 1",
}
"""What the last line says of each."""


@pytest.mark.parametrize("name", SAID)
def test_what_differs(name: str, run: Run) -> None:
    """What the plan excludes is in no direction and aspect; of two borders one is named, and of two ways one."""
    status, out, _ = run("check", FOLDER / f"{name}.csv", "--plan", FOLDER / f"{name}.plan.csv")
    assert SAID[name] in out[-1]
    assert status == (1 if "found" in SAID[name] else 0)


def test_rows_above_the_headings_of_a_sheet(run: Run, tmp_path: Path) -> None:
    """They are refused, although the sheet of a kind has no column with its word."""
    book = pytest.importorskip("openpyxl").Workbook()
    book.active.title = "speed"
    for row in (("10.000", "12.000", "rising", 40), ("km", "km_to", "way", "value"), ("12.000", "", "rising", 160)):
        book.active.append(row)
    path = tmp_path / "design.xlsx"
    book.save(path)
    status, _, errors = run("check", FOLDER / "x4-none.csv", "--design", path)
    assert status == 2 and "row 1" in errors[-1] and "above the headings" in errors[-1]


def test_two_rows_for_one_radio_block_centre(run: Run, tmp_path: Path) -> None:
    plan = tmp_path / "plan.csv"
    plan.write_text("kind,value\nradio,rbc=352/17 phone=0123456\nradio,rbc=352/17 phone=999\n")
    status, _, errors = run("check", FOLDER / "x4-none.csv", "--plan", plan)
    assert status == 2 and "row 3, column value: the RBC 352/17 is in row 2 already" in errors[-1]


def test_too_little_confirmed_is_an_error_of_junit(run: Run, tmp_path: Path) -> None:
    """The answer is INCOMPLETE, so that a job which reads only JUnit fails too."""
    written = tmp_path / "junit.xml"
    plan = FOLDER / "x5-rbc.plan.csv"
    status, out, _ = run("check", FOLDER / "x4-none.csv", "--plan", plan, "--confirmed", "95", "--junit", written)
    assert status == 2 and out[-1].startswith("INCOMPLETE") and "<error" in written.read_text("utf-8")

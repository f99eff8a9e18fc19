"""Kilometres whose last zeros are lost allow no more than 1 m, however the table writes them."""

from __future__ import annotations

import csv
import re
from pathlib import Path
from typing import Callable, List

import pytest
from conftest import Run

LOST = Path(__file__).parent / "kilometres" / "last_zeros_lost.csv"
FOUND = "B (km 11.000) is 1010 m from A (km 10.000) by D_LINK, and 1000 m by the kilometres: they differ by 10 m"
"""Of a link with Q_LOCACC 5 m."""


def cells() -> List[List[str]]:
    """The table, whose kilometres are 10, 11, 12 and 12.5."""
    with open(LOST, encoding="utf-8", newline="") as file:
        return list(csv.reader(file))


@pytest.mark.parametrize("form", ["{:g}", "{:.1f}", "{:.2f}", "{:.3f}", "{:.4f}"])
def test_zeros_behind_the_kilometres_change_nothing(form: str, run: Run, table: Callable[..., Path]) -> None:
    heading, *rows = cells()
    lines = [",".join([*row[:2], form.format(float(row[2])), *row[3:]]) for row in rows]
    status, out, _ = run("check", table(",".join(heading), *lines))
    assert status == 1 and any(FOUND in line for line in out)


@pytest.mark.parametrize("form", ["General", "0.0", "0.000"])
def test_numbers_of_a_workbook(form: str, run: Run, tmp_path: Path) -> None:
    """A spreadsheet stores 11.000 as 11, however it shows the number."""
    openpyxl = pytest.importorskip("openpyxl")
    book = openpyxl.Workbook()
    for row in cells():
        book.active.append([float(cell) if re.fullmatch("[0-9.]{2,4}", cell) else cell for cell in row])
    for (cell,) in book.active.iter_rows(min_row=2, min_col=3, max_col=3):
        cell.number_format = form
    path = tmp_path / "table.xlsx"
    book.save(path)
    status, out, _ = run("check", path)
    assert status == 1 and any(FOUND in line for line in out)


@pytest.mark.parametrize("tolerance, status", [("2", 1), ("3", 0)])
def test_what_is_allowed(tolerance: str, status: int, run: Run) -> None:
    """A project whose kilometres are rounded states so: Q_LOCACC, the tolerance, 1 m and a unit of Q_SCALE add up."""
    assert run("links", LOST, "--tolerance", tolerance)[0] == status

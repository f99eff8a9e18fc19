"""The tutorial docs/first-line.md: its tables and its list of conditions. tests/test_recipes.py runs its commands."""
from __future__ import annotations

import csv
import re
from typing import Dict, List

import first_line
import pytest

from balisekit.engine.program import Program

SAFETY = first_line.HERE.parents[1] / "docs" / "assurance" / "safety.md"


def test_tables(program: Program) -> None:
    """The stored tables are the ones that the script makes."""
    made = first_line.tables(program)
    assert made == {name: (first_line.FOLDER / name).read_text("utf-8") for name in made}


def rows_of(name: str) -> List[Dict[str, str]]:
    """The rows of a list of conditions."""
    with (first_line.FOLDER / name).open(encoding="utf-8", newline="") as file:
        return list(csv.DictReader(file))


def test_conditions() -> None:
    """The list of the line has each condition of use, in the order of their numbers, and some evidence for each."""
    rows = rows_of("conditions.csv")
    wanted = set(re.findall(r"(?m)^\| (C\d+) \|", SAFETY.read_text("utf-8")))
    assert [row["id"] for row in rows] == sorted(wanted, key=lambda it: int(it[1:]))
    assert all(row["evidence"] and bool(row["by"]) == bool(row["date"]) for row in rows)


def test_form() -> None:
    """The form has the columns and the numbers of the filled list, and nothing else."""
    assert rows_of("conditions-form.csv") == [
        {name: value if name == "id" else "" for name, value in row.items()} for row in rows_of("conditions.csv")
    ]


@pytest.mark.parametrize("row", ["conditions.csv", "conditions-form.csv", "accepted.csv", "exported.csv"])
def test_one_width(row: str) -> None:
    """Each row has as many cells as the heading."""
    with (first_line.FOLDER / row).open(encoding="utf-8", newline="") as file:
        assert len({len(cells) for cells in csv.reader(file)}) == 1

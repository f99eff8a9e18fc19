"""Makes examples/meaning/plan.csv and plan.txt: `python3 companion/tests/plan_example.py`.

The plan is that of examples/meaning/level-border.csv, with one cell or row for each of the rules X as the track is: the
telegrams differ there.
"""
from __future__ import annotations

import contextlib
import csv
import io
import os
import sys
from pathlib import Path
from typing import Dict, List, Tuple

HERE = Path(__file__).resolve().parent
sys.path.insert(0, str(HERE.parent / "src"))

from balisekit.cli import main as cli  # noqa: E402  (the path comes first)

TOP = HERE.parents[1]
TABLE, PLAN, ANSWER = (f"examples/meaning/{name}" for name in ("level-border.csv", "plan.csv", "plan.txt"))
Cells = Dict[str, str]
CHANGES: List[Tuple[str, str, str, str, str]] = [
    ("speed", "km", "17.990", "value", "80"),
    ("gradient", "km", "16.620", "value", "-1"),
    ("signal", "km", "17.500", "km", "17.450"),
    ("aspect", "name", "Signal 9/yellow", "value", "v=100 end=1500 overlap=200 release=onboard"),
    ("level", "km", "16.700", "km", "16.750"),
    ("aspect", "name", "Signal 12/green", "name", "Signal 12/gren"),
    ("group", "name", "Signal 15", "value", "id=352/16 balises=2 linked=yes"),
]
"""The changed cells: for each the row that it is in, by kind and a cell, and its column and text."""
ADDED = {"kind": "signal", "km": "13.700", "way": "rising", "name": "Signal 3a"}
"""A row at which no authority ends, after the last other one of its kind."""
RESTRICTION = {"kind": "tsr", "km": "19.000", "km_to": "19.500", "way": "rising", "value": "v=40 id=7"}
"""A row that no packet 65 states."""
CENTRE = {"kind": "radio", "value": "rbc=352/17 phone=0123456"}
"""A row that no packet 42 or 131 names."""


def rows_of(text: str) -> List[Cells]:
    """The rows of a plan."""
    return list(csv.DictReader(io.StringIO(text)))


def text_of(rows: List[Cells]) -> str:
    """A plan with these rows."""
    out = io.StringIO(newline="")
    writer = csv.DictWriter(out, list(rows[0]), lineterminator="\n")
    writer.writeheader()
    writer.writerows(rows)
    return out.getvalue()


def plan() -> str:
    """The plan of the example."""
    rows = rows_of(run("plan", TABLE))
    for kind, named, cell, column, value in CHANGES:
        (row,) = (each for each in rows if each["kind"] == kind and each[named] == cell)
        row[column] = value
    last = max(index for index, row in enumerate(rows) if row["kind"] == ADDED["kind"])
    rows.insert(last + 1, {**dict.fromkeys(rows[0], ""), **ADDED})
    return text_of([*rows, *({**dict.fromkeys(rows[0], ""), **each} for each in (RESTRICTION, CENTRE))])


def run(*words: str) -> str:
    """What a command writes to standard output, at the top of the repository."""
    raw, before = io.BytesIO(), os.getcwd()
    out = io.TextIOWrapper(raw, "utf-8", write_through=True)
    os.chdir(TOP)
    try:
        with contextlib.redirect_stdout(out), contextlib.redirect_stderr(io.StringIO()):
            cli.main(list(words))
    finally:
        os.chdir(before)
    return raw.getvalue().decode("utf-8")


if __name__ == "__main__":
    (TOP / PLAN).write_text(plan(), "utf-8")
    (TOP / ANSWER).write_text(run("check", TABLE, "--plan", PLAN), "utf-8")

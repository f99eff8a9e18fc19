"""Hostile surroundings of a check: what scripts and rules of users set may not change an answer."""
from __future__ import annotations

import csv
import decimal
import json
import os
from decimal import Decimal
from pathlib import Path
from typing import Any, Callable, Dict, Iterator, Tuple

import pytest
from cases_of_program import TOP
from conftest import Run

import balisekit

Write = Callable[..., Path]
LINE = TOP / "examples" / "links" / "line.csv"
RULE = '''\
"""ACME-8: a test.

What it says. x.

Why it matters. x.

Example. x.

When it is a false alarm. x.

How to correct it. x.
"""
import os
from decimal import getcontext
from balisekit import AddedRule
IMPORTED
def find(line):
    CALLED
    for each in line.telegrams:
        yield None
RULE = AddedRule("ACME-8", __doc__, "telegrams", "x", find, "braking")
'''
"""A rule of a user that sets something when it is imported, and when it is called."""
FOLDER = "os.chdir(os.path.dirname(os.path.abspath(__file__)))"
PRECISION = "getcontext().prec = 4"


@pytest.fixture(autouse=True)
def surroundings() -> Iterator[None]:
    """Folder and decimal context are those from before after each test."""
    folder, context = os.getcwd(), decimal.getcontext().copy()
    yield
    os.chdir(folder)
    decimal.setcontext(context)


@pytest.fixture
def far(table: Write) -> Path:
    """The line of examples/links beyond km 100, with its second group 40 m too far, and a jump for it."""
    with open(LINE, encoding="utf-8", newline="") as file:
        head, *rows = csv.reader(file)
    km = head.index("km")
    for row in rows:
        row[km] = str(Decimal(row[km]) + 100 + (Decimal("0.040") if row[0] == "B" else 0))
    table("km,km_after", "115.000,116.000", name="jumps.csv")
    return table(*(",".join(row) for row in (head, *rows)), name="far.csv")


@pytest.mark.parametrize("words", [("--jumps",), ()])
@pytest.mark.parametrize("at", ["IMPORTED", "CALLED"])
def test_precision_that_a_rule_sets(run: Run, table: Write, far: Path, at: str, words: Tuple[str, ...]) -> None:
    """Rules of balisekit calculate with their own precision."""
    more = [*words, *(far.with_name("jumps.csv") for _ in words)]
    code = RULE.replace(at, PRECISION).replace("IMPORTED", "").replace("CALLED", "pass")
    rule = table(content=code.encode(), name="rule.py")
    wanted = run("check", far, *more)
    status, out, _ = run("check", far, *more, "--rules-from", rule)
    assert wanted[0] == status == 1
    assert [line for line in out if ": L" in line] == [line for line in wanted[1] if ": L" in line] != []
    decimal.getcontext().prec = 28


@pytest.mark.parametrize("setting", [{"prec": 4}, {"traps": [decimal.Inexact]}, {"rounding": decimal.ROUND_UP}])
def test_context_of_a_script(far: Path, setting: Dict[str, Any]) -> None:
    """A notebook that sets its own precision gets the same answer, and keeps its precision."""
    jumps = far.with_name("jumps.csv")
    wanted = balisekit.check(far, jumps=jumps)
    decimal.setcontext(decimal.Context(**setting))
    before = str(decimal.getcontext())
    some: Any = (far, balisekit.read_table(far))
    for table in some:
        found = balisekit.check(table, jumps=jumps)
        assert (found.status, found.lines, found.last_line) == (1, wanted.lines, wanted.last_line)
        assert found.to_json()["entries"] == wanted.to_json()["entries"]
        assert balisekit.diff(wanted, found).status == 0
    assert str(decimal.getcontext()) == before


@pytest.mark.parametrize("at", ["IMPORTED", "CALLED"])
def test_folder_that_a_rule_sets(run: Run, tmp_path: Path, monkeypatch: pytest.MonkeyPatch, at: str) -> None:
    """The table that was named is judged, and not the one of that name in the folder of the rule."""
    for name, source in (("data", "distance-differs.csv"), ("rules", "line.csv")):
        (tmp_path / name).mkdir()
        (tmp_path / name / "line.csv").write_bytes(LINE.with_name(source).read_bytes())
    code = RULE.replace(at, FOLDER).replace("IMPORTED", "").replace("CALLED", "pass")
    (tmp_path / "rules" / "rule.py").write_text(code, "utf-8")
    monkeypatch.chdir(tmp_path / "data")
    outputs = ("--json", "line.json", "--sarif", "line.sarif")
    status, out, _ = run("check", "line.csv", "--rules-from", "../rules/rule.py", *outputs)
    assert status == 1 and any("L2" in line for line in out)
    assert os.getcwd() == str(tmp_path / "data")
    answer = json.loads((tmp_path / "data" / "line.json").read_text("utf-8"))
    assert (answer["table"]["path"], answer["settings"][0]["values"][0]["value"]) == ("line.csv", "../rules/rule.py")
    assert (tmp_path / "data" / "line.sarif").exists()


def test_folder_of_a_script(tmp_path: Path) -> None:
    """A table has the settings of the folder in which it was read, and outputs name its files."""
    here, there = tmp_path / "a", tmp_path / "b"
    for folder, tolerance in ((here, 1), (there, 20)):
        folder.mkdir()
        (folder / "balisekit.toml").write_text(f"[check]\ntolerance = {tolerance}\n", "utf-8")
    (here / "line.csv").write_bytes(LINE.with_name("distance-differs.csv").read_bytes())
    (here / "radio.txt").write_text("000000;\n", "utf-8")
    os.chdir(here)
    table, radio = balisekit.read_table("line.csv"), balisekit.read_messages("radio.txt")
    own = balisekit.read_table("line.csv", columns="balisekit.toml")
    wanted = balisekit.check(table, messages=radio)
    known, opening = wanted.to_json(), wanted.lines[:2]
    assert opening[0].startswith("line.csv: ")
    os.chdir(there)
    assert wanted.to_json()["settings"] == known["settings"]
    for again in (table, own):
        found = balisekit.check(again, messages=radio)
        assert found.status == wanted.status and found.last_line == wanted.last_line
        assert found.to_json()["settings"] == known["settings"]
        assert [found.to_json()[key] for key in ("table", "messages")] == [known[key] for key in ("table", "messages")]
        assert found.lines[0].startswith(f"{here}/line.csv: ")

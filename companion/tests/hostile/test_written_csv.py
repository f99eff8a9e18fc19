"""CSV that is written has no control characters of names, and is read as the same table."""
from __future__ import annotations

import csv
from pathlib import Path
from typing import Callable, List

import pytest
from conftest import Run
from telegrams import ALONE, OTHER

from balisekit.rules.chainage import Chainage, read_jumps
from balisekit.tables.names import clean

Write = Callable[..., Path]
TABLE = Path(__file__).parents[3] / "examples/meaning/line.csv"
NAMES = ["Signal\x1b[2JA", "\u202eA", "a\tb", "a\x7f", "\\x1b", "=1+1", "-\x1b", "Süd\u00a07"]


def renamed(name: str) -> List[str]:
    """The lines of the example, with this name for its groups and as a track."""
    with open(TABLE, encoding="utf-8", newline="") as file:
        head, *rows = csv.reader(file)
    at, track = head.index("group"), head.index("track")
    lines = [head, *([*row[:track], f"{name} {row[track]}", *row[track + 1 :]] for row in rows)]
    lines[1:] = ([*row[:at], f"{name} {row[at]}", *row[at + 1 :]] for row in lines[1:])
    return [";".join(f'"{cell}"' for cell in line) for line in lines]


@pytest.mark.parametrize("name", NAMES)
def test_sheets(run: Run, table: Write, tmp_path: Path, name: str) -> None:
    """A sheet has no control characters, and with either form of the names nothing differs."""
    path, sheet = table(*renamed(name)), tmp_path / "sheet.csv"
    for words in (["--csv", sheet], ["--xlsx", tmp_path / "sheet.xlsx"]):
        if words[0] == "--xlsx":
            pytest.importorskip("openpyxl")
        status = run("table", path, *words)[0]
        assert run("table", path, "--expect", words[1])[0] == status == 0
    text = sheet.read_text("utf-8")
    assert text.replace("\n", "").replace("\u00a0", "").isprintable() and clean(name) in text
    sheet.write_text(text.replace(clean(name), name), "utf-8")
    assert run("table", path, "--expect", sheet)[0] == 0


@pytest.mark.parametrize("name", NAMES)
def test_plans(run: Run, table: Write, tmp_path: Path, name: str) -> None:
    """A plan that was made of a table fits it, with either form of the names, as the plan of plain names does."""
    plain, path, plan = table(*renamed("Signal"), name="plain.csv"), table(*renamed(name)), tmp_path / "plan.csv"
    assert run("plan", plain, "--csv", tmp_path / "p.csv")[0] == 0
    last = run("check", plain, "--plan", tmp_path / "p.csv", "--only", "X")[1][-1]
    assert run("plan", path, "--csv", plan)[0] == 0
    text = plan.read_text("utf-8")
    assert text.replace("\n", "").replace("\u00a0", "").isprintable() and clean(name) in text
    for content in (text, text.replace(clean(name), name)):
        plan.write_text(content, "utf-8")
        assert run("check", path, "--plan", plan, "--only", "X")[1][-1] == last


def test_jumps(table: Write) -> None:
    """The track of a jump is found by either form."""
    for shown in ("a\x1b", "a\\x1b"):
        jumps = read_jumps(str(table("km;km_after;track", f"1.000;1.200;{shown}", name="j.csv")))
        assert Chainage.of(jumps, "a\x1b").jumps and not Chainage.of(jumps, "a").jumps


def test_standard_output(run: Run, table: Write) -> None:
    """A terminal gets no escape sequence."""
    path = table("group,telegram,km,track", f"A\x1b[2J,{ALONE},1.000,\x1b[2J", f"B,{OTHER},2.000,\x1b[2J")
    for command in (["table", path, "--csv", "-"], ["plan", path]):
        status, out, err = run(*command)
        assert status == 0 and all(line.isprintable() for line in [*out, *err]), out

"""Sheets of `table --expect` and files of `--jumps` with rows or columns that would not be read (sheets.txt)."""
from __future__ import annotations

import re
from pathlib import Path
from typing import Callable

import pytest
from conftest import Run
from telegrams import ALONE

Write = Callable[..., Path]
FILES = re.findall("== (.+)\n((?:(?!==).*\n)+)", Path(__file__).with_name("sheets.txt").read_text("utf-8"))


@pytest.mark.parametrize("head, text", FILES, ids=[head for head, _ in FILES])
def test_nothing_is_dropped(run: Run, table: Write, head: str, text: str) -> None:
    """A file is refused, or a note names what is not compared."""
    kind, status, said = head.split(" ", 2)
    path, file = table("group,telegram,km,track", f"A,{ALONE},1.100,1"), table(content=text.encode(), name="file.csv")
    command = ("table", path, "--expect", file) if kind == "expect" else ("links", path, "--jumps", file)
    answer, out, err = run(*command)
    expected = f"balisekit: {file}: {said}" if status == "2" else said
    assert answer == int(status) and (said == "-" or any(line.startswith(expected) for line in [*out, *err])), [
        out,
        err,
    ]
    assert said != "-" or not any("not compared" in line for line in out)


def test_a_heading_of_expect_that_is_not_there(run: Run, table: Write) -> None:
    """The file in the folder says which column has the values: without it they would not be compared."""
    path, sheet = table("group,telegram", f"A,{ALONE}"), table("group,variable,raw,Soll", "A,NID_BG,1,2", name="s.csv")
    file = table('[expect]\nvalue = "Wert"', name="balisekit.toml")
    err = [f'balisekit: {sheet}: row 1: no column value: by [expect] of {file} its heading is "Wert"']
    assert run("table", path, "--expect", sheet) == (2, [], err)
    table('[expect]\nvalue = "Soll"', name="balisekit.toml")
    assert run("table", path, "--expect", sheet)[0] == 1


def test_other_sheets_of_a_workbook(run: Run, table: Write, tmp_path: Path) -> None:
    """They are named: one of them may be meant."""
    book = pytest.importorskip("openpyxl").Workbook()
    for row in (["group", "variable", "raw"], ["A", "NID_BG", 1]):
        book.active.append(row)
    book.create_sheet("Changes").append(["A", "NID_BG", 2])
    book.save(tmp_path / "s.xlsx")
    status, out, _ = run("table", table("group,telegram", f"A,{ALONE}"), "--expect", tmp_path / "s.xlsx")
    assert status == 0 and "note: sheets of its workbook that are not compared: Changes" in out

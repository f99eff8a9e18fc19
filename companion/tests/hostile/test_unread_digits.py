"""Telegrams in any notation in columns and sheets that are not read (unread_digits.txt): each row is named."""
from __future__ import annotations

import json
import re
import time
from pathlib import Path
from typing import Any, Callable, Dict, List, Match

import pytest
from conftest import Run
from telegrams import ALONE, OTHER

from balisekit.tables.unread_digits import digits_in_rows

Write = Callable[..., Path]
_LINES = Path(__file__).with_name("unread_digits.txt").read_text("utf-8").splitlines()
ROWS = [line for line in _LINES if not line.startswith("#")]
DENSE = "a1007f802000cb20588000000000528950004010500231800140c0"
"""It has few letters."""
LONG = f"{DENSE[:50]}{'025009402500940250' * 9}"[:205] + "ffc"
TELEGRAMS = {"loose": OTHER, "dense": DENSE, "long": LONG}


def filled(text: str, telegram: str) -> str:
    """The text with the digits of this telegram that it names."""

    def groups(found: Match[str]) -> str:
        size = int(found["size"])
        parts = [telegram[at : at + size] for at in range(0, len(telegram), size)]
        parts = [part.lstrip("0") or "0" for part in parts] if found["short"] else parts
        return found["between"].replace("~", " ").join(parts)

    def part(found: Match[str]) -> str:
        scale = len(telegram) / 54
        return telegram[int(int(found[1]) * scale) : int(int(found[2]) * scale)]

    text = text.replace("{54}", telegram)
    return re.sub(
        r"{(?P<size>[0-9]+)(?P<short>-?) (?P<between>[^}]*)}", groups, re.sub(r"{(\d+)\.\.(\d+)}", part, text)
    )


def cells_of(line: str, telegram: str) -> List[str]:
    return [cell.strip() for cell in filled(line, telegram).split("|")]


def rows_named(run: Run, path: Path, *options: str) -> List[int]:
    """The rows that the account names."""
    status, said, err = run("check", path, "--json", "-", "--only", "F", *options)
    assert said, err
    parts: List[Dict[str, Any]] = json.loads("\n".join(said))["account"]["not_judged"]
    assert (status == 2) == any(not part["asked"] for part in parts)
    return sorted({row for part in parts if not part["asked"] for row in part["rows"]})


@pytest.mark.parametrize("telegram", TELEGRAMS.values(), ids=TELEGRAMS)
def test_columns(telegram: str, run: Run, table: Write) -> None:
    """Each row is named, and --skip-column of all columns leaves it out."""
    lines = [cells_of(line, telegram) for line in ROWS]
    names = [f"c{at}" for at in range(max(map(len, lines)))]
    rows = ["\t".join([f"G{at}", ALONE, *cells]) for at, cells in enumerate(lines)]
    path = table("\t".join(["group", "telegram", *names]), *rows)
    named = rows_named(run, path)
    assert [line for number, line in enumerate(ROWS, 2) if number not in named] == []
    assert rows_named(run, path, *(word for name in names for word in ("--skip-column", name))) == []


@pytest.mark.parametrize("telegram", TELEGRAMS.values(), ids=TELEGRAMS)
def test_sheets(telegram: str, run: Run, table: Write) -> None:
    """Each row of another sheet is named, unless --sheet leaves it out."""
    book = pytest.importorskip("openpyxl").Workbook()
    for cells in (["group", "telegram"], ["A", ALONE]):
        book.active.append(cells)
    other = book.create_sheet("other")
    for line in ROWS:
        other.append([cell or None for cell in cells_of(line, telegram)])
    path = table(content=b"", name="book.xlsx")
    book.save(path)
    named = rows_named(run, path)
    assert [line for number, line in enumerate(ROWS, 1) if number not in named] == []
    assert rows_named(run, path, "--sheet", book.active.title) == []


@pytest.mark.parametrize("line", [line for line in ROWS if "|" not in line or line.startswith("{")])
def test_above_the_headings(line: str, table: Write, run: Run) -> None:
    """The row is refused."""
    cells = "\t".join(cells_of(line, DENSE))
    path = table(cells, "group\ttelegram", f"A\t{ALONE}")
    why = "it has digits as a telegram has, and is not below the headings"
    status, _, err = run("check", path)
    assert status == 2 and err[0].startswith(f"balisekit: {path}: row 1: {why}")


@pytest.mark.uncovered
def test_rows_of_signs_take_no_more_time_each() -> None:
    """A column of dashes with one letter below them: four times as many rows take about four times as long."""

    def seconds(rows: int) -> float:
        begin = time.process_time()
        assert digits_in_rows([*["-"] * rows, "x f"]) == {}
        return time.process_time() - begin

    assert min(seconds(16_000) for _ in range(3)) < 0.5  # (with squares of rows they take 20 s)

"""Tables and workbooks of hostile/lost that would lose a telegram: refused, or named in the account."""

from __future__ import annotations

import csv
import json
import re
import shlex
from pathlib import Path
from typing import Any, Dict, List

import pytest
from conftest import Run
from random_tables import Row, Sheet, written

FOLDER = Path(__file__).parent / "lost"
with open(FOLDER / "expected.csv", encoding="utf-8", newline="") as _file:
    CASES = list(csv.DictReader(_file))
COUNTS = ("telegrams", "judged", "refused")


def sheets(text: str) -> List[Sheet]:
    """The sheets that a text describes. Each begins with a line of #, its state, and what is merged or hidden."""
    made = []
    for part in re.split("^# ?", text, flags=re.MULTILINE)[1:]:
        head, *lines = part.splitlines()
        state, *more = head.split()
        words = dict(zip(more[::2], more[1::2]))
        rows: List[Row] = [[cell or None for cell in line.split(";")] for line in lines]
        hidden = {name: [int(words[name])] if name in words else [] for name in ("row", "column")}
        merged = [words["merged"]] if "merged" in words else []
        made.append(Sheet(rows, state, merged, hidden["row"], [column - 1 for column in hidden["column"]]))
    return made


@pytest.mark.parametrize("case", CASES, ids=[f"{case['file']} {case['options']}".strip() for case in CASES])
def test_no_telegram_is_lost(case: Dict[str, str], run: Run, tmp_path: Path, monkeypatch: pytest.MonkeyPatch) -> None:
    """Status and counts are those of expected.csv, and a part of the account, or the refusal, names this."""
    monkeypatch.chdir(tmp_path)
    source = FOLDER / case["file"]
    is_workbook = source.suffix == ".sheets"
    if is_workbook:
        pytest.importorskip("openpyxl")
    table = Path(source.stem + (".xlsx" if is_workbook else ".csv"))
    table.write_bytes(written(sheets(source.read_text("utf-8"))) if is_workbook else source.read_bytes())
    words = [FOLDER / word if word.endswith(".toml") else word for word in shlex.split(case["options"])]
    status, out, err = run("check", table, *words, "--json", "-")
    assert status == int(case["status"])
    if not case["telegrams"]:
        assert not out and case["names"] in err[0]
        return
    account: Dict[str, Any] = json.loads("\n".join(out))["account"]
    parts = account["not_judged"]
    assert {name: account[name] for name in COUNTS} == {name: int(case[name]) for name in COUNTS}
    assert sum(part["telegrams"] for part in parts) == int(case["not judged"])
    assert case["names"] in json.dumps(parts)

"""SOURCE_DATE_EPOCH that is no number of seconds: one line, status 2, before any work and before any file."""
from __future__ import annotations

from pathlib import Path
from typing import List

import pytest
from cases_of_program import TOP
from conftest import Run

LINE = TOP / "examples" / "table" / "line.csv"
COMMANDS = {
    "report": ["report", LINE, "--html", "OUT"],
    "diff": ["diff", LINE, LINE, "--html", "OUT"],
    "check": ["check", LINE, "--accepted", "no such file", "--json", "OUT"],
}


@pytest.mark.parametrize(
    "value",
    ["", " ", "-1", "1e9", "1.5", "\u00b2", "\u0661", "1000000000000", "253402300800", "1" + "0" * 18, "9" * 5000],
)
@pytest.mark.parametrize("command", COMMANDS)
def test_a_time_that_is_none(
    command: str, value: str, run: Run, tmp_path: Path, monkeypatch: pytest.MonkeyPatch
) -> None:
    """The environment is wrong: it is named, and what to write."""
    monkeypatch.setenv("SOURCE_DATE_EPOCH", value)
    words: List[object] = [tmp_path / "out" if word == "OUT" else word for word in COMMANDS[command]]
    status, out, err = run(*words, "--program", "/bin/false")
    said = f'balisekit: SOURCE_DATE_EPOCH is "{value[:40]}": write the seconds since 1970-01-01'
    assert (status, out, len(err)) == (2, [], 1) and err[0].startswith(said) and not list(tmp_path.iterdir())


@pytest.mark.parametrize(
    "value, wanted",
    [("0", "1970-01-01 00:00 UTC"), ("1790000000", "2026-09-21 14:13 UTC"), ("253402300799", "9999-12-31 23:59 UTC")],
)
def test_a_time_that_is_one(value: str, wanted: str, run: Run, tmp_path: Path, monkeypatch: pytest.MonkeyPatch) -> None:
    """The first and the last second that a page can have."""
    pytest.importorskip("jinja2")
    monkeypatch.setenv("SOURCE_DATE_EPOCH", value)
    run("report", LINE, "--html", tmp_path / "r.html")
    assert f"<bdi>{wanted}</bdi></td>" in (tmp_path / "r.html").read_text("utf-8")

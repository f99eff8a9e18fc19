"""Certificates whose figures must not rest on what accepts nothing."""
from __future__ import annotations

import json
from pathlib import Path
from typing import Any, Callable, Dict

import pytest
from conftest import Run, set_day
from telegrams import ALONE
from test_accepted_data import signed

Write = Callable[..., Path]


@pytest.mark.parametrize("fields", [{"until": "2026-01-02"}, {"reason": "n/a"}, {"date": ""}], ids=str)
def test_entries_at_fault_find_no_mistakes(
    run: Run, table: Write, monkeypatch: pytest.MonkeyPatch, fields: Dict[str, str]
) -> None:
    """An expired or unsigned entry whose telegrams change is no hint: the figures are as without the entry."""
    set_day(monkeypatch, 1780000000)
    path = table("group,telegram", f"A,{ALONE}", f"B,{ALONE}")
    file, out = signed(run, path, **fields), path.with_suffix(".json")

    def figures(*words: object) -> Any:
        run("certify", path, "--per-kind", 1, "--json", out, "--force", *words)
        return json.loads(out.read_text("utf-8"))["last_line"]

    assert figures("--accepted", file) == figures()

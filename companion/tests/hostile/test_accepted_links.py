"""Accepted entries for links: an entry holds only for the link and the group that its sentence was about."""
from __future__ import annotations

import json
from pathlib import Path
from typing import Callable, List, Tuple

import link_tables
import pytest
from conftest import Run, set_day
from link_tables import link, linking, telegram
from test_accepted_data import signed

from balisekit.engine.program import Program

Write = Callable[..., Path]


def line(program: Program, first: int, second: int) -> bytes:
    """A links groups 2 and 3 in reverse direction. The group at km 11.000 is passed in nominal direction."""
    links = linking(1, link(1000, 2, 0), link(1000, 3, 0))
    rows = [
        ("A", "A1", "10.000", "", telegram(1, 0, 1, 1, links)),
        ("A", "A2", "10.003", "", telegram(1, 1, 1, 1)),
        ("B", "B1", "11.000", "", telegram(first, 0, 1, 1)),
        ("B", "B2", "11.003", "", telegram(first, 1, 1, 1)),
        ("C", "C1", "12.003", "", telegram(second, 0, 1, 1)),
        ("C", "C2", "12.000", "", telegram(second, 1, 1, 1)),
    ]
    return link_tables.table(program, rows).encode()


def test_another_link_to_another_group(
    run: Run, table: Write, program: Program, monkeypatch: pytest.MonkeyPatch
) -> None:
    """An entry for the first link does not accept the second one, although telegram and kilometre are the same."""
    set_day(monkeypatch, 1780000000)
    path = table(content=line(program, 2, 3))
    accepted = signed(run, path, "--only", "L")

    def of_l3() -> Tuple[List[str], bool]:
        run("check", path, "--only", "L", "--accepted", accepted, "--json", path.with_suffix(".json"), "--force")
        answer = json.loads(path.with_suffix(".json").read_text("utf-8"))
        states = [entry["state"] for entry in answer["entries"] if entry["rule"] == "L3"]
        return states, bool(answer["accepted"]["at_fault"])

    assert of_l3() == (["accepted"], False)
    path.write_bytes(line(program, 3, 2))
    assert of_l3() == (["open"], True)

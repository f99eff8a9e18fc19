"""Cells of a column that is not read, with line ends and a telegram in any notation in them (swallowed.json)."""
from __future__ import annotations

import json
from pathlib import Path
from typing import Callable, Dict

import pytest
from conftest import Run
from plain_count import cells_of_csv, swallowed
from telegrams import ALONE, OTHER

GRID: Dict[str, Dict[str, str]] = json.loads(Path(__file__).with_name("swallowed.json").read_text("utf-8"))


def is_refused(run: Run, path: Path) -> bool:
    """Whether the table is refused for row 2."""
    status, out, err = run("check", path)
    return status == 2 and not out and any(f"{path}: row 2: " in line for line in err)


@pytest.mark.parametrize("beginning", GRID["beginnings"])
@pytest.mark.parametrize("body", GRID["bodies"])
def test_no_cell_hides_a_telegram(run: Run, table: Callable[..., Path], beginning: str, body: str) -> None:
    """Each cell in which the plainest count sees a telegram is refused."""
    hidden = {}
    for notation, telegram in GRID["telegrams"].items():
        cell = GRID["beginnings"][beginning] + GRID["bodies"][body].format(telegram)
        path = table(content=f"group;telegram;note\nA;{ALONE};{cell}\nB;{OTHER};\n".encode())
        cells = cells_of_csv(path.read_bytes(), "utf-8", ";")
        assert any(place.column == 2 for place in swallowed(cells))
        if not is_refused(run, path):
            hidden[notation] = cell
    assert not hidden

"""The work for a group grows with the number of its aspects, and not faster."""
from __future__ import annotations

import sys
from pathlib import Path
from typing import Any

import pytest
from link_tables import authority, telegram

from balisekit.engine.program import Program
from balisekit.present.outcome_text import lines
from balisekit.rules import checking, families
from balisekit.rules.rule import Options
from balisekit.tables import reader

pytestmark = pytest.mark.uncovered
GREATEST = 2.3
"""How many times as many calls twice as many aspects may need."""
COUNTERS = 100


def table(program: Program, path: Path, aspects: int, step: int) -> str:
    """A group with so many aspects. Their authorities differ by a step, and counters repeat."""
    forms = []
    for number in range(aspects):
        packets = authority()
        packets[0]["l_endsection"] = packets[0]["l_endsection"] + number * step
        forms.append({**telegram(1, 0, 0, 1, *packets, size=830), "m_mcount": number % COUNTERS})
    rows = [f"A,10,rising,a{number},{one.line}" for number, one in enumerate(program.encode(forms))]
    path.write_text("\n".join(["group,km,nominal,aspect,telegram", *rows, ""]), "utf-8")
    return str(path)


def calls(program: Program, path: str) -> int:
    """How many functions are called to check a table by all rules and to write the answer."""
    counted = 0

    def count(frame: Any, event: str, argument: Any) -> None:
        nonlocal counted
        counted += event in ("call", "c_call")

    checked = checking.check(program, reader.read(path))
    before = sys.getprofile()
    sys.setprofile(count)
    try:
        assert list(lines(families.apply(checked, tuple(families.FAMILIES), Options())))
    finally:
        sys.setprofile(before)
    return counted


@pytest.mark.parametrize("step", [0, 1], ids=["alike", "different"])
def test_aspects_of_one_group(program: Program, tmp_path: Path, step: int) -> None:
    """200 and 400 aspects, which are alike or all different, with findings at each."""
    few, many = (calls(program, table(program, tmp_path / f"{count}.csv", count, step)) for count in (200, 400))
    assert many <= GREATEST * few, (few, many)

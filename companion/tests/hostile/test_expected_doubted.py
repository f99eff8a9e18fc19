"""Findings that look like correct data at an aspect that a rule would call wrong if no finding were there."""
from __future__ import annotations

from pathlib import Path
from typing import Any, Callable, Dict, List, Sequence

import pytest
from conftest import Run
from meaning_line import Line, Row
from meaning_mistakes import INFILL
from test_expected import entries
from test_meaning import written

from balisekit.engine.program import Program


def without(group: str, aspect: str, *numbers: int) -> Callable[[List[Row]], None]:
    """The aspect of a group without these packets."""

    def remove(rows: List[Row]) -> None:
        form = next(row for row in rows if (row.group, row.aspect) == (group, aspect)).form
        form["packets"] = [each for each in form["packets"] if each["nid_packet"] not in numbers]

    return remove


def in_two(group: str, aspect: str) -> Callable[[List[Row]], None]:
    """The speed profile of an aspect is two packets 27 of one length, of which the first one ends at 700 m."""

    def divide(rows: List[Row]) -> None:
        form = next(row for row in rows if (row.group, row.aspect) == (group, aspect)).form
        (whole,) = (each for each in form["packets"] if each["nid_packet"] == 27)
        first = {"d_static": 0, "v_static": whole["elements"][0]["v_static"], "q_front": 0, "differences": []}
        whole["elements"] = [first, {**first, "d_static": 700, "v_static": 127}]
        form["packets"].append({**whole, "elements": [{**first, "d_static": 700}, whole["elements"][-1]]})

    return divide


@pytest.mark.parametrize(
    "line, group, aspect, numbers, rules",
    [
        (Line(), "Signal 9", "green", (21, 27), ["F10", "F12"]),
        (INFILL, "Infill of Signal 4", "yellow", (27,), ["F12", "F9"]),
        (INFILL, "Infill of Signal 4", "green", (21, 27), ["F10", "F12", "F9"]),
    ],
    ids=["signal", "infill without speeds", "infill without profiles"],
)
def test_an_aspect_that_lacks_profiles(
    run: Run, program: Program, tmp_path: Path, line: Line, group: str, aspect: str, numbers: Sequence[int], rules: Any
) -> None:
    """All signals of a name have profiles, or the signal of the infill has them: E24 and E15 leave that to F10, F12."""
    path = written(program, tmp_path / "t.csv", line, without(group, aspect, *numbers))
    own = [each for each in entries(run, path) if each["group"] == group and aspect in _aspects(path, each)]
    assert sorted({rule for each in own for rule in each["rules"]}) == rules
    assert not any(each["expected"] for each in own)
    run("check", path, "--propose", tmp_path / "p.csv")
    assert "sent by an earlier group" not in (tmp_path / "p.csv").read_text("utf-8")


def test_infill_with_one_of_two_profiles(run: Run, program: Program, tmp_path: Path) -> None:
    """F13 of an infill that has only the first one of two packets 27 of its signal."""

    def halved(rows: List[Row]) -> None:
        in_two("Infill of Signal 4", "yellow")(rows)
        in_two("Signal 4", "yellow")(rows)
        form = next(row for row in rows if (row.group, row.aspect) == ("Infill of Signal 4", "yellow")).form
        form["packets"].pop()

    path = written(program, tmp_path / "t.csv", INFILL, halved)
    found = [each for each in entries(run, path) if each["group"] == "Infill of Signal 4"]
    own = [each for each in found if "yellow" in _aspects(path, each)]
    assert "F13" in {rule for each in own for rule in each["rules"]}
    assert not any(each["expected"] for each in own), [each["expected"] for each in own]


def _aspects(path: Path, entry: Dict[str, Any]) -> List[str]:
    """The aspects of the rows of an entry."""
    rows = path.read_text("utf-8").splitlines()
    return [rows[number - 1].split(",")[4] for number in entry["rows"]]

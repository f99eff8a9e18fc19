"""Jumps that a table does not fit: none is left out without a word, and none moves a place that it cannot know."""
from __future__ import annotations

import csv
import io
from decimal import Decimal
from pathlib import Path
from typing import Callable, List

import pytest
from cases_of_program import TOP
from conftest import Run

from balisekit.rules.chainage import Chainage, Jump

Write = Callable[..., Path]
ROWS = list(csv.reader(io.StringIO((TOP / "examples" / "links" / "line.csv").read_text("utf-8"))))


def on_track(write: Write, track: str) -> Path:
    """The example, with all groups on one track."""
    return write(",".join([*ROWS[0], "track"]), *(",".join([*row, track]) for row in ROWS[1:]))


@pytest.mark.parametrize("track, status", [("1", 1), ("Gl 1", 0), ("", 0)])
def test_a_jump_of_another_track(run: Run, table: Write, track: str, status: int) -> None:
    """The example has no such jump: a jump of its track is found, and one of another track is named."""
    path = on_track(table, "1")
    jumps = table("km,km_after,track", f"10.500,10.400,{track}", name="jumps.csv")
    said = f"note: the jump from km 10.500 to km 10.400{f' of track {track}' if track else ' without a track'}: "
    for command in ("check", "links"):
        found, out, _ = run(command, path, "--jumps", jumps)
        assert found == status and any(line.startswith(said) for line in out) == (status == 0), out


@pytest.mark.parametrize(
    "rows",
    [
        ["10.500,10.400", "10.400,10.500"],
        ["10.500,10.510", "10.500,10.490"],
        ["10.500,10.510", "10.500,10.520"],
        ["10.500,10.900", "10.600,10.700"],
    ],
)
def test_jumps_that_contradict(run: Run, table: Write, rows: List[str]) -> None:
    """They could cancel each other."""
    path, jumps = table(*map(",".join, ROWS)), table("km,km_after", *rows, name="jumps.csv")
    status, _, err = run("check", path, "--jumps", jumps)
    assert status == 2 and "contradict each other" in err[0] and "jumps.csv" in err[0]


def test_the_edges_of_repeated_kilometres() -> None:
    """They are there twice, and those of a gap once."""
    twice, gap = (
        Chainage.of([Jump(Decimal(one), Decimal(other))], "") for one, other in (("12.1", "12"), ("12", "12.1"))
    )
    assert [twice.place(Decimal(km)) for km in ("11.9999", "12", "12.05", "12.1", "12.1001")] == [
        119_999,
        None,
        None,
        None,
        122_001,
    ]
    assert [gap.place(Decimal(km)) for km in ("12", "12.05", "12.1")] == [120_000, None, 120_000]

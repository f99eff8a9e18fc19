"""Long stretches that differ in many short elements, each of them no longer than the rounding."""
from __future__ import annotations

from pathlib import Path

import pytest
from conftest import Run

DATA = Path(__file__).parent / "short_pieces"
LEVEL_BORDER = Path(__file__).parents[3] / "examples/meaning/level-border.csv"


def test_profiles_of_two_groups(run: Run) -> None:
    """3150 m with the other sign, in elements of 150 m with Q_SCALE 10 m."""
    status, out, _ = run("check", DATA / "E13.csv", "--only", "E")
    (line,) = [line for line in out if ": E13: " in line]
    assert status == 1 and "G_A is +10 per mille from km 10.150 to km 10.300, and -10 per mille by B" in line
    assert line.endswith("; they differ on 20 other stretches too")


@pytest.mark.parametrize(
    "rule, kind, low, high, value", [("X1", "speed", 17990, 21260, 80), ("X2", "gradient", 16620, 17700, -1)]
)
def test_profiles_beside_short_rows_of_the_plan(
    run: Run, tmp_path: Path, rule: str, kind: str, low: int, high: int, value: int
) -> None:
    """Rows of 3 m that say what one long row would say."""
    plan = tmp_path / "plan.csv"
    rows = [
        f"{kind},{metre / 1000:.3f},{min(metre + 3, high) / 1000:.3f},rising,{value}" for metre in range(low, high, 3)
    ]
    plan.write_text("\n".join(["kind,km,km_to,way,value", *rows, ""]))
    status, out, _ = run("check", LEVEL_BORDER, "--only", "X", "--plan", plan)
    assert status == 1 and any(f": {rule}: " in line for line in out)


def test_profiles_of_two_aspects(run: Run) -> None:
    """3000 m with the other sign, in elements of 150 m with Q_SCALE 10 m."""
    status, out, _ = run("check", DATA / "E10.csv", "--only", "E")
    (line,) = [line for line in out if ": E10: " in line]
    assert status == 1 and "; they differ on 19 other stretches too" in line

"""What rules E pass over is counted in a line `not compared by`: nobody takes it for right."""
from __future__ import annotations

from pathlib import Path
from types import SimpleNamespace
from typing import Any, Callable, List, cast

import pytest
from conftest import Run
from meaning_line import Row
from meaning_mistakes import on_sight, session, with_packet
from meaning_mistakes_of_groups import FIXED, RED, SHORT, YELLOW, raw
from test_meaning import written

from balisekit.engine.program import Program
from balisekit.rules.meaning import e27_radio_centre

Change = Callable[[List[Row]], object]
OF_ENDS = "E25: 4 of 12 ends of authority (with a packet 80: 1, beyond the last group of the track: 3)"


@pytest.mark.parametrize(
    "change, line",
    [
        (with_packet("Signal 3", YELLOW, on_sight(100)), OF_ENDS),
        (with_packet("Signal 3", YELLOW, raw(80, "1")), "E26: 1 of 1 mode profile (not decoded: 1)"),
        (with_packet("Signal 3", FIXED, session(q_rbc=0)), "E27: 1 of 1 radio block centre (Q_RBC 0: 1)"),
        (with_packet("Signal 3", FIXED, raw(42, "1")), "E27: 1 of 1 radio block centre (not decoded: 1)"),
        (with_packet("Signal 3", FIXED, raw(39, "1")), "E29: 1 of 1 track condition (layout not sure: 1)"),
        (with_packet("Signal 3", FIXED, raw(68, "1")), "E29: 1 of 1 track condition (not decoded: 1)"),
        (
            with_packet("Signal 6", FIXED, raw(16, f"01{500:015b}")),
            "E30: 3 of 3 packets and links of repositioning (no packet 5 of the message names a group: 3)",
        ),
    ],
)
def test_not_compared(program: Program, run: Run, tmp_path: Path, change: Change, line: str) -> None:
    _, out, _ = run("check", "--all", written(program, tmp_path / "t.csv", SHORT, change))
    assert f"not compared by {line}" in out


def test_refused_telegrams(program: Program, run: Run, tmp_path: Path) -> None:
    """Groups with a refused telegram are compared by none of the rules on aspects."""
    path = written(program, tmp_path / "t.csv", SHORT)
    lines = path.read_text("utf-8").splitlines()
    place = next(at for at, line in enumerate(lines) if "Signal 3" in line and f",{RED}," in line)
    lines[place] = lines[place][:-2]
    path.write_text("\n".join(lines), "utf-8")
    _, out, _ = run("check", path)
    assert "not compared by E7: 1 of 6 groups with aspects (refused: 1)" in out
    assert "not compared by E8: 1 of 6 groups with three or more aspects (refused: 1)" in out
    assert "not compared by E24: 3 of 18 aspects of signals (aspects of groups with a refused telegram: 3)" in out


def test_the_short_number_is_not_called_no_number() -> None:
    """A packet 42 or 131 with the short number is not compared, and the reason says so."""
    reasons = {"f" * 16: "the short number", "123a" + "f" * 12: "no telephone number", "4930" + "f" * 12: ""}
    for digits, reason in reasons.items():
        form = {"nid_c": 1, "nid_rbc": 2, "nid_radio": int(digits, 16)}
        assert e27_radio_centre.Call(cast(Any, None), cast(Any, SimpleNamespace(form=form))).left == reason

"""Advice that would make the data worse: it is never given, whatever it would silence."""
from __future__ import annotations

import copy
import json
from pathlib import Path
from typing import Any, Callable, Dict, List, Sequence

import pytest
from conftest import Run
from meaning_line import SOUND, Form, Line, Row, table
from test_corrections import moved

from balisekit.engine.program import Program

Change = Callable[[List[Row]], None]


def of_single_balises(line: Line) -> List[Row]:
    """The rows of a line whose signals have one balise, which sends in each aspect what the fixed one would."""
    rows = line.rows
    fixed: Dict[str, Form] = {row.group: row.form for row in rows if row.aspect == "*"}
    single = [row for row in rows if row.aspect != "*"]
    for row in single:
        row.form["packets"][:0] = copy.deepcopy(fixed[row.group]["packets"])
        row.form.update(n_pig=0, n_total=0)
        row.balise = 0
    return single


def turn(rows: List[Row], group: str, aspects: Sequence[str]) -> None:
    """Turns the packets of aspects round."""
    for row in rows:
        for packet in row.form["packets"] if row.group == group and row.aspect in aspects else ():
            packet["q_dir"] = 1 - packet["q_dir"]


def advice(run: Run, program: Program, path: Path, rows: List[Row]) -> List[Any]:
    """The entries that stand for others, by one correction."""
    path.write_text(table(program, rows), "utf-8")
    output = path.with_suffix(".json")
    run("check", path, "--json", output)
    return [each for each in json.loads(output.read_text("utf-8"))["entries"] if each["folded"]]


def test_no_red_telegram_is_turned_round(run: Run, program: Program, tmp_path: Path) -> None:
    """Yellow and green of a single balise are for the wrong direction. Red is the odd one, and right."""
    rows = of_single_balises(SOUND["both-directions"])
    turn(rows, "Signal 5", ("yellow", "green"))
    (red,) = (at for at, row in enumerate(rows, 2) if (row.group, row.aspect) == ("Signal 5", "red"))
    found = advice(run, program, tmp_path / "t.csv", rows)
    assert not [
        each["sentence"] for each in found if red in each["rows"] and "direction they would" in each["sentence"]
    ]


@pytest.mark.parametrize("aspect", ["red", "green"])
def test_a_telegram_is_turned_back(run: Run, program: Program, tmp_path: Path, aspect: str) -> None:
    """The fixed balise of the signal shows the direction, so the advice is right for a red telegram too."""
    rows = SOUND["both-directions"].rows
    turn(rows, "Signal 5", (aspect,))
    (number,) = (at for at, row in enumerate(rows, 2) if (row.group, row.aspect) == ("Signal 5", aspect))
    (entry,) = (each for each in advice(run, program, tmp_path / "t.csv", rows) if each["rows"] == [number])
    assert "all packets of the telegram are for the reverse direction: for the nominal" in entry["sentence"]


@pytest.mark.parametrize("place, is_free", [(22_000, False), (22_700, True)])
def test_no_group_gets_the_kilometre_of_another_one(
    run: Run, program: Program, tmp_path: Path, place: int, is_free: bool
) -> None:
    """The links have Signal 9 at km 22.000. If another group is there already, one of the two names is wrong."""
    rows = SOUND["line"].rows
    moved("Signal 9", 270)(rows)
    form = {**rows[0].form, "nid_bg": 900, "q_link": 0, "n_total": 0, "packets": []}
    rows.append(Row("Board", "Board 1", place, "", 0, form))
    found = advice(run, program, tmp_path / "t.csv", rows)
    assert bool([each for each in found if "at km 22.000 they would" in each["sentence"]]) == is_free

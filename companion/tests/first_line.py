"""Makes the tables of examples/first-line: `python3 companion/tests/first_line.py`.

`exported.csv` has five things to look at: a letter in a telegram, a duplicate flag that is not answered, gradients
that end early, a wrong linking distance, and a stop aspect without gradients. Only the last one may be right, so
`corrected.csv` still has it. In `without-exception.csv` the stop aspect has its gradients too.
"""
from __future__ import annotations

import sys
from pathlib import Path
from typing import Dict, List

HERE = Path(__file__).resolve().parent
sys.path.insert(0, str(HERE.parent / "src"))

from meaning_line import Line, Row, change, table  # noqa: E402  (the path comes first)

from balisekit.engine.program import Program  # noqa: E402

FOLDER = HERE.parents[1] / "examples" / "first-line"


def without_gradients(rows: List[Row]) -> None:
    """The design sends no gradients with the stop aspect of Signal 6."""
    (stop,) = (row for row in rows if (row.group, row.aspect) == ("Signal 6", "red"))
    stop.form["packets"] = [packet for packet in stop.form["packets"] if packet["nid_packet"] != 21]


def with_mistakes(rows: List[Row]) -> None:
    """The mistakes of fields: M_DUP of Signal 3, the gradients of Signal 4, D_LINK of Signal 2."""
    next(row for row in rows if row.group == "Signal 3").form["m_dup"] = 1
    change(rows, "Signal 4", "green", 21)["elements"][-1]["d_gradient"] -= 100
    change(rows, "Signal 2", "*", 5)["links"][0]["d_link"] -= 90


def tables(program: Program) -> Dict[str, str]:
    """Each table by its name."""
    rows = Line(signals=6).rows
    without_exception = table(program, rows)
    without_gradients(rows)
    corrected = table(program, rows)
    with_mistakes(rows)
    lines = table(program, rows).split("\n")
    lines[3] = lines[3].replace("c3103c", "c31O3c")  # (typed by hand: the letter O for the digit 0)
    return {"exported.csv": "\n".join(lines), "corrected.csv": corrected, "without-exception.csv": without_exception}


if __name__ == "__main__":
    FOLDER.mkdir(exist_ok=True)
    for _name, _text in tables(Program.find()).items():
        (FOLDER / _name).write_text(_text, "utf-8")

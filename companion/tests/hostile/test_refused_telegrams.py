"""Groups of which a telegram is refused: no command expects its record, whatever was read before and after it."""
from __future__ import annotations

from pathlib import Path
from typing import Callable, Dict, List

import pytest
from conftest import Run
from telegrams import ALONE, MESSAGE, OTHER

from balisekit.engine.program import Program
from balisekit.rules import checking
from balisekit.tables import reader

Write = Callable[..., Path]
RED, GREEN = f"A,1.003,red,{ALONE}", f"A,1.003,green,{ALONE}"
REFUSED = "A,1.000,*,a1"
TABLES: Dict[str, List[str]] = {
    "before two aspects": [REFUSED, RED, GREEN],
    "after two aspects": [RED, GREEN, REFUSED],
    "before a group": [REFUSED, RED, GREEN, f"B,2.000,*,{OTHER}"],
    "after a group": [f"B,2.000,*,{OTHER}", REFUSED, RED, GREEN],
    "alone": [REFUSED],
}
"""The rows of a table, by where its refused telegram is."""
COMMANDS = [
    "check --messages m.txt",
    "report --html -",
    "report --html - --messages m.txt",
    "draw --all pictures",
    "draw --all pictures --messages m.txt",
    "draw --track --svg t.svg",
    "draw --message 1 --svg m.svg --messages m.txt",
    "show --messages m.txt",
    "table --csv t.csv",
]


@pytest.mark.parametrize("command", COMMANDS)
@pytest.mark.parametrize("where", TABLES)
def test_each_command_names_it(
    where: str, command: str, run: Run, table: Write, monkeypatch: pytest.MonkeyPatch
) -> None:
    """Status 2 and the row, as for every refused telegram. The distances of the message count from some group."""
    if command.startswith(("draw", "report")):
        pytest.importorskip("jinja2")
    path = table("group,km,aspect,telegram", *TABLES[where])
    table(f"{MESSAGE};end", name="m.txt")
    monkeypatch.chdir(path.parent)
    name, *words = command.split()
    status, said, err = run(name, path, *words)
    row = f"row {TABLES[where].index(REFUSED) + 2}  A"
    assert status == 2 and any(row in line for line in said + err), err


def test_only_what_was_read_has_a_record(program: Program, table: Write) -> None:
    """Others are absent, at each place of the table, as in any mapping."""
    for rows in TABLES.values():
        read = checking.check(program, reader.read(str(table("group,km,aspect,telegram", *rows)))).accepted
        assert {number for number in range(len(rows) + 4) if read.get(number) is not None} == set(read)

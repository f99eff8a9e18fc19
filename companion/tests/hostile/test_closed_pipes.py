"""A reader that goes before the last line: `show` ends quietly, and every other command names what is lost."""
from __future__ import annotations

import os
import subprocess
from pathlib import Path
from typing import Callable

import pytest
from cases_of_program import TOP
from telegrams import ALONE

Write = Callable[..., Path]
CLOSED = "balisekit: standard output was closed\n"


@pytest.mark.parametrize(
    "words, said",
    [
        ("show line.csv", ""),
        ("show line.csv --bits", ""),
        ("show", ""),
        ("draw line.csv --group A", CLOSED),
        ("links line.csv", CLOSED),
        ("diff line.csv line.csv", CLOSED),
        ("report line.csv --html -", CLOSED),
    ],
)
def test_a_reader_that_goes_on_the_way(words: str, said: str, table: Write, tmp_path: Path) -> None:
    """`show | head` is no error. What others lose is named."""
    if words.startswith(("draw", "report")):
        pytest.importorskip("jinja2")
    rows = [f"G{number},{number},{ALONE}" for number in range(3000 if words.startswith("show") else 300)]
    table("group,km,telegram", f"A,3000,{ALONE}", *rows, name="line.csv")
    (tmp_path / "input").write_text(f"{ALONE}\n" * 3000, "utf-8")
    with open(tmp_path / "input", "rb") as lines:
        with subprocess.Popen(
            [str(TOP / "balisekit"), *words.split()],
            cwd=tmp_path,
            stdin=lines,
            stdout=subprocess.PIPE,
            stderr=subprocess.PIPE,
            env={**os.environ, "PYTHONUNBUFFERED": ""},
        ) as process:
            assert process.stdout and process.stderr
            if words.startswith("show"):
                assert process.stdout.readline()
            process.stdout.close()
            assert process.stderr.read().decode() == said
    assert process.returncode == 3

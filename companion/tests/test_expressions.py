"""Expressions that are compiled when they are first used, and what the start of `check` imports."""

from __future__ import annotations

import re
import subprocess
import sys
from pathlib import Path

import pytest

from balisekit.expressions import expression

SOURCES = Path(__file__).resolve().parents[1] / "src"
STARTS = """\
import sys
sys.path.insert(0, sys.argv[1])
from balisekit.cli.main import parser
parser(["check", "line.csv"])
print(*sys.modules, sep="\\n")
"""
NOT_NEEDED = {"glob", "graphlib", "pkgutil", "tempfile"}
"""Modules of Python that take long to import, and that `check` of a table in CSV does not need."""


def test_an_expression_is_as_python_has_it() -> None:
    """Its methods answer as those of a compiled one. A wrong one is refused when it is first used."""
    made, usual = expression("(a+)b", re.IGNORECASE), re.compile("(a+)b", re.IGNORECASE)
    for text in ("AAB", "xab", "", "b"):
        assert bool(made.search(text)) == bool(usual.search(text))
        assert made.findall(text) == usual.findall(text) and made.sub("-", text) == usual.sub("-", text)
    assert made.pattern == usual.pattern and made.flags == usual.flags
    assert expression(b"a+").fullmatch(b"aa")
    wrong = expression("(")
    with pytest.raises(re.error):
        wrong.search("a")


@pytest.mark.uncovered
def test_check_starts_without_modules_that_it_does_not_need() -> None:
    """Most of the time of a small table is the start: an import at the head of one module makes it longer for all."""
    run = subprocess.run(
        [sys.executable, "-I", "-S", "-c", STARTS, str(SOURCES)], stdout=subprocess.PIPE, text=True, check=True
    )
    loaded = set(run.stdout.split("\n"))
    assert "balisekit.cli.check" in loaded and loaded.isdisjoint(NOT_NEEDED)

"""Each output of each command is the same by the program and by the library, but for the line that names who answered.

Beside this, whatever the program answers in any test is compared with the answer of the library (conftest.py).
"""
from __future__ import annotations

import io
import os
import re
import shutil
import sys
import time
from pathlib import Path
from typing import Any, Dict, Sequence, Tuple

import pytest
from cases_of_program import TOP
from conftest import library_under_test, set_day
from telegrams import ALONE, FAULTY, MESSAGE, OTHER, SPARE

from balisekit.cli import main as cli
from balisekit.engine.library import Library, opened
from balisekit.engine.loaded_library import LoadedLibrary
from balisekit.engine.program import Program
from balisekit.present.opening import program_json, program_words

pytest.importorskip("jinja2")
pytest.importorskip("openpyxl")
pytestmark = pytest.mark.uncovered
EXAMPLES = TOP / "examples"
TABLES = sorted(
    path for path in EXAMPLES.rglob("*.csv") if "telegram" in path.read_text("utf-8", "replace").split("\n")[0]
)
"""Those with telegrams: the others are plans, conditions and entries."""
MESSAGES = EXAMPLES / "radio-movement-authority.txt"
FILES = {
    "check": "--json j --junit u --sarif s.sarif --xlsx x.xlsx --document d.json --propose p.csv --explain --all",
    "report": "--html h.html --full",
    "show": "",
    "show --bits": "--all",
    "links": "--json j --explain",
    "table": "--csv c.csv --xlsx x.xlsx",
    "design": "--csv c.csv",
    "plan": "--csv c.csv",
    "draw --all": "",
}
"""The options of outputs, by command. `draw --all` gets a folder."""
Answer = Tuple[int, str, str, Dict[str, bytes]]
"""A status, standard output, standard error, and the files that were written."""


@pytest.fixture(autouse=True)
def same_times(monkeypatch: pytest.MonkeyPatch) -> None:
    """Outputs have the times of rules, and their date."""
    set_day(monkeypatch, 1_800_000_000)
    monkeypatch.setattr(time, "perf_counter", lambda: 0.0)


@pytest.fixture
def ways(program: Program) -> Sequence[Program]:
    """The program, and the library by the name of the program."""
    library = library_under_test(program.sha256)
    if library is None:
        pytest.skip("the library for C of this program is not here")
    calls = opened(library.path)

    class Disguised(LoadedLibrary):
        kind = program.kind

        @property
        def _library(self) -> Library:
            assert calls
            return calls

    return program, Disguised(program.path, program.sha256, program.about, None, program.known_by)


def same(
    words: Sequence[Any], ways: Sequence[Program], tmp_path: Path, monkeypatch: pytest.MonkeyPatch, stdin: str = ""
) -> Answer:
    """The answer to these words, which has to be the same both ways."""
    answers = []
    for way in ways:
        folder = tmp_path / "here"
        folder.mkdir()
        with monkeypatch.context() as patch:
            patch.chdir(folder)
            patch.setattr(Program, "find", classmethod(lambda *_: way))
            patch.setattr(sys, "stdin", io.TextIOWrapper(io.BytesIO(stdin.encode())))
            for stream in ("stdout", "stderr"):
                patch.setattr(sys, stream, io.StringIO())
            try:
                status = cli.main([str(word) for word in words])
            except SystemExit as ended:
                status = int(ended.code or 0)
            said = sys.stdout.getvalue(), sys.stderr.getvalue()  # type: ignore[attr-defined]
        files = {str(path.relative_to(folder)): path.read_bytes() for path in folder.rglob("*") if path.is_file()}
        assert status < 3 and (said[0] or files), said[1]
        answers.append((status, *said, files))
        shutil.rmtree(folder)
    one, other = answers
    assert one[:3] == other[:3]
    assert one[3].keys() == other[3].keys() and [name for name in one[3] if one[3][name] != other[3][name]] == []
    return one


def test_an_example(ways: Sequence[Program], tmp_path: Path, monkeypatch: pytest.MonkeyPatch) -> None:
    """With a refused telegram, findings and remarks, in each output of `check`."""
    words = ["check", EXAMPLES / "table" / "line.csv", *FILES["check"].split()]
    status, out, _, files = same(words, ways, tmp_path, monkeypatch)
    assert status == 2 and "balisecheck 0" in out and set(files) == {"j", "u", "s.sarif", "x.xlsx", "d.json", "p.csv"}


def refused_table(folder: Path, count: int) -> Tuple[Path, Path]:
    """A table and messages of which many are refused, for different reasons, some of them one after the other."""
    telegrams = (ALONE, SPARE, OTHER, FAULTY, "zz", SPARE[:-2], ALONE[:-1] + "1")
    table, messages = folder / "refused.csv", folder / "refused.txt"
    rows = [f"g{number // 3},{number}.000,{telegrams[number * number % 7]}" for number in range(count)]
    table.write_text("\n".join(["group,km,telegram", *rows]) + "\n", "utf-8")
    texts = (MESSAGE, "0304", MESSAGE[:-2], MESSAGE, "0400c0", "zz")
    messages.write_text("".join(f"{texts[number * number % 6]}\n" for number in range(count)), "utf-8")
    return table, messages


@pytest.mark.parametrize("command", ["check", "show", "links"])
def test_refused_rows(command: str, ways: Sequence[Program], tmp_path: Path, monkeypatch: pytest.MonkeyPatch) -> None:
    """The lines of refusals and the first rows of their runs too, which JSON has."""
    table, messages = refused_table(tmp_path, 200)
    words = [command, table, "--messages", messages, *FILES[command].split()]
    status, out, _, files = same(words, ways, tmp_path, monkeypatch)
    assert status == 2 and "refused" in out
    assert (
        command != "check"
        or b'"line":"refused: line 2: ' in files["j"]
        and b'"line":"refused: message 1: ' in files["j"]
    )


def test_standard_input(ways: Sequence[Program], tmp_path: Path, monkeypatch: pytest.MonkeyPatch) -> None:
    """`show` without a table decodes what it is given."""
    text = "\n".join([ALONE, SPARE, OTHER, "zz", ALONE]) + "\n"
    status, out, _, _ = same(["show"], ways, tmp_path, monkeypatch, text)
    assert status == 2 and out.count("    program: ") == 2


@pytest.mark.slow
@pytest.mark.parametrize("number", range(len(TABLES)), ids=lambda number: str(TABLES[number].relative_to(EXAMPLES)))
def test_all_examples(number: int, ways: Sequence[Program], tmp_path: Path, monkeypatch: pytest.MonkeyPatch) -> None:
    """By `check` with all outputs, and by other commands in turn. (By all commands for each they were the same too.)"""
    table = TABLES[number]
    more = ["--messages", MESSAGES] if number % 3 else []
    for command in ("check", list(FILES)[1:][number % (len(FILES) - 1)]):
        name, *options = command.split()
        words = [*options, *(["folder"] if name == "draw" else FILES[command].split())]
        same([name, table, *words, *(more if name != "table" else ())], ways, tmp_path, monkeypatch)
    other = TABLES[number - 1]
    same(["diff", other, table, "--json", "j", "--html", "h.html"], ways, tmp_path, monkeypatch)


@pytest.mark.slow
def test_the_certificate(ways: Sequence[Program], tmp_path: Path, monkeypatch: pytest.MonkeyPatch) -> None:
    """Its mistakes are encoded, and judged in copies of the process."""
    words = ["certify", EXAMPLES / "meaning" / "level-border.csv", "--per-kind", "1", "--json", "j", "--html", "h.html"]
    status, out, _, _ = same(words, ways, tmp_path, monkeypatch)
    assert status == 0 and "found" in out


def test_what_is_said_of_the_library(program: Program) -> None:
    """Its name is that of the file, and its checksum is the one of the library. JSON has both checksums."""
    library = library_under_test(program.sha256)
    if library is None:
        pytest.skip("the library for C of this program is not here")
    words = program_words(library)
    assert re.fullmatch(
        f"libbalisecheck( [0-9.]+)?, SHA-256 {library.sha256}: the library of this balisekit, by ABOUT", words
    )
    form = program_json(library)
    assert (form["kind"], form["path"], form["sha256"]) == ("library", library.path, library.sha256)
    assert "library" not in form and form.get("program", program.sha256) == program.sha256
    assert os.path.basename(form["path"]) == "libbalisecheck.so.0"

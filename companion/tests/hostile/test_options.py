"""Options that are empty, cut short, given twice or not used are refused, with status 2."""
from __future__ import annotations

import ast
import os
import subprocess
import sys
from pathlib import Path
from typing import List

import pytest
from cases_of_program import TOP
from conftest import Run
from telegrams import MESSAGE

from balisekit.present.formats import FORMATS
from balisekit.tables.names import clean

pytestmark = pytest.mark.uncovered
LINE = str(TOP / "examples" / "table" / "line.csv")
EMPTY = [
    ("check {empty}", "TABLE"),
    ("show {empty}", "TABLE"),
    ("draw {empty} --track", "TABLE"),
    ("report {empty} --html x", "TABLE"),
    ("links {empty}", "TABLE"),
    ("diff {empty} LINE", "OLD"),
    ("diff LINE {empty}", "NEW"),
    *((f"check LINE --{each.name} {{empty}}", f"--{each.name}") for each in FORMATS),
    *((f"check LINE {option} {{empty}}", option) for option in ("--accepted", "--messages", "--program", "--sheet")),
    ("links LINE --json {empty}", "--json"),
    ("report LINE --html {empty}", "--html"),
    ("report LINE --html x --accepted {empty}", "--accepted"),
    ("draw LINE --track --svg {empty}", "--svg"),
    ("draw LINE --group {empty}", "--group"),
    ("draw LINE --track {empty}", "--track"),
    ("draw LINE --track --aspect {empty}", "--aspect"),
    ("report LINE --html x --aspect {empty}", "--aspect"),
    ("show --messages {empty}", "--messages"),
    *((f"diff LINE LINE {option} {{empty}}", option) for option in ("--html", "--json", "--program", "--sheet")),
    *((f"diff LINE LINE {option} {{empty}}", option) for option in ("--old-messages", "--new-messages")),
]
"""An empty name for each option with a name, as an unset variable of a shell is."""
REFUSED = [
    ("check LINE --js x", "error: unrecognized arguments: --js x"),
    ("check LINE --acc x", "error: unrecognized arguments: --acc x"),
    ("check LINE --json a --json b", "error: argument --json: it is given twice"),
    ("check LINE --program a --program a", "error: argument --program: it is given twice"),
    ("links LINE --tolerance 1 --tolerance 0", "error: argument --tolerance: it is given twice"),
    ("draw LINE --track A --track B", "error: argument --track: it is given twice"),
    ("report LINE --html x --html -", "error: argument --html: it is given twice"),
    ("draw LINE --track --svg a --svg -", "error: argument --svg: it is given twice"),
    ("check LINE --only F --tolerance 1", "--tolerance is not used with --only F"),
    ("check LINE --only Y", "error: argument --only: Y is no list of F, L, E, X, U: write F or F,L"),
    ("check LINE --only X", "--only X needs a design of the line: give --design FILE"),
    ("check LINE --only F --only L", "error: argument --only: it is given twice"),
    ("show LINE --tolerance 1", "error: unrecognized arguments: --tolerance 1"),
    ("show LINE --json x", "error: unrecognized arguments: --json x"),
    ("show LINE --force", "error: unrecognized arguments: --force"),
    ("check LINE --sheet X", f"{LINE}: --sheet is only for .xlsx files"),
    ("show LINE --sheet X", f"{LINE}: --sheet is only for .xlsx files"),
    ("diff LINE LINE --sheet X", f"{LINE}: --sheet is only for .xlsx files"),
    ("show --messages m.txt --sheet X", "--sheet is not used without TABLE"),
    ("show --messages m.txt --by-position", "--by-position is not used without TABLE"),
    ("draw LINE --group A --tolerance 1", "--tolerance is not used with --group"),
    ("draw LINE --group A --tolerance 0", "--tolerance is not used with --group"),
    ("draw LINE --group A --messages m.txt", "--messages is not used with --group"),
    ("draw LINE --messages m.txt --message 1 --aspect red", "--aspect is not used with --message"),
    ("draw LINE --messages m.txt --message 1 --tolerance 1", "--tolerance is not used with --message"),
    ("draw LINE --messages m.txt --message 1 --by-position", "--by-position is not used with --message"),
]


ECHOED = [
    "{}",
    "check LINE {}",
    "check LINE --{}",
    "check LINE --js{}n x",
    "check {}",
    "check LINE --only {}",
    "check LINE --timeout {}",
    "check LINE --tolerance {}",
    "check LINE --program {}",
    "check LINE --accepted {}",
    "check LINE --messages {}",
    "check LINE --sheet {}",
    "check LINE --json no/{}",
    "check LINE --columns {}",
    "show LINE --group {}",
    "draw LINE --group {}",
    "draw LINE --track {}",
    "diff LINE {}",
    "table LINE --expect {}",
]
"""Command lines that are refused, with a word that the error repeats."""
CONTROLS = Path(__file__).with_name("control_characters.txt")


@pytest.mark.parametrize("line", ECHOED)
def test_no_control_character_is_repeated(line: str, run: Run) -> None:
    """An error text moves no cursor and changes no terminal, whatever a word of the command line contains."""
    for text in map(ast.literal_eval, CONTROLS.read_text("utf-8").splitlines()[1:]):
        status, out, err = run(*_words(line.replace("{}", text)))
        assert status in (2, 3) and out == [] and err[-1].startswith("balisekit")
        assert all(clean(said) == said for said in err) and len(err) < 20, err


def _words(line: str) -> List[str]:
    return ["" if word == "{empty}" else LINE if word == "LINE" else word for word in line.split(" ")]


@pytest.fixture(autouse=True)
def room(tmp_path: Path, monkeypatch: pytest.MonkeyPatch) -> Path:
    """The folder in which the commands run."""
    (tmp_path / "m.txt").write_text(f"{MESSAGE}\n", "utf-8")
    monkeypatch.chdir(tmp_path)
    return tmp_path


@pytest.mark.parametrize("line, option", EMPTY, ids=[line for line, _ in EMPTY])
def test_an_empty_name_is_refused(line: str, option: str, run: Run, room: Path) -> None:
    status, out, err = run(*_words(line))
    why = f"balisekit {line.split()[0]}: error: argument {option}: the name is empty"
    assert (status, out, err[-1]) == (2, [], why) and [path.name for path in room.iterdir()] == ["m.txt"]


@pytest.mark.parametrize("line, why", REFUSED, ids=[line for line, _ in REFUSED])
def test_options_that_are_refused(line: str, why: str, run: Run, room: Path) -> None:
    status, out, err = run(*_words(line))
    assert (status, out) == (2, []) and err[-1].startswith("balisekit") and err[-1].endswith(why)
    assert [path.name for path in room.iterdir()] == ["m.txt"]


@pytest.mark.parametrize("line", ["--debug check NONE", "check --debug NONE", "check NONE --debug"])
def test_debug_stands_anywhere(line: str, run: Run) -> None:
    status, _, err = run(*line.split())
    assert status == 2 and err[0].startswith("Traceback") and err[-1] == "balisekit: NONE: No such file or directory"


def test_version_imports_no_command() -> None:
    """And starts no program."""
    code = (
        "import sys; from balisekit.cli import main; sys.argv[1:] = ['--version']\ntry: main.main()\nfinally: "
        "print(*sys.modules, file=sys.stderr)"
    )
    known = {**os.environ, "PYTHONPATH": str(TOP / "companion" / "src"), "BALISECHECK": "/nowhere"}
    done = subprocess.run([sys.executable, "-c", code], env=known, capture_output=True, check=False)
    ours = {name for name in done.stderr.decode().split() if name.startswith("balisekit")}
    assert done.returncode == 0 and done.stdout.startswith(b"balisekit ")
    metadata = {"balisekit.engine", "balisekit.engine.find_program"}
    assert ours == {
        "balisekit",
        "balisekit.cli",
        "balisekit.cli.main",
        "balisekit.cli.signals",
        "balisekit.errors",
        *metadata,
    }
    assert "subprocess" not in done.stderr.decode().split()


@pytest.mark.parametrize("command", ["check", "show", "links"])
def test_a_command_without_pictures_imports_none(command: str) -> None:
    code = (
        f"import sys; from balisekit.cli import main\ntry: main.main(['{command}', '--help'])\nfinally: "
        "print(*sys.modules, file=sys.stderr)"
    )
    known = {**os.environ, "PYTHONPATH": str(TOP / "companion" / "src")}
    done = subprocess.run([sys.executable, "-c", code], env=known, capture_output=True, check=False)
    modules = set(done.stderr.decode().split())
    assert done.returncode == 0 and f"balisekit.cli.{command}" in modules
    assert not {"balisekit.drawing", "balisekit.cli.draw", "balisekit.cli.report"} & modules

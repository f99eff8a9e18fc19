"""The pre-commit hook takes every file name for a table, as pre-commit calls it: the hook's `args`, then the names."""
from __future__ import annotations

import ast
import os
import re
import shutil
import subprocess
import sys
from pathlib import Path
from typing import List, Sequence, Tuple

import pytest
from cases_of_program import TOP
from telegrams import ALONE, OTHER

from balisekit.cli.main import parser

HOOK = TOP / "examples" / "hooks" / "check-tables"
HOOKS = TOP / ".pre-commit-hooks.yaml"
NAMES = Path(__file__).with_name("names_of_tables.txt")
SOUND = f"group,telegram\nA,{ALONE}\nB,{OTHER}\n"
EVIL = "#!/bin/sh\ntouch evil\n"
STAND = """#!/bin/sh
[ "$1" != --version ] || exec echo balisekit 1.2.3
printf '%s\\0' "$@" >>calls
printf '\\0' >>calls
"""
"""A balisekit that writes down how it is called."""
pytestmark = [
    pytest.mark.uncovered,
    pytest.mark.skipif(not HOOKS.exists(), reason="only a clone has the hook of pre-commit"),
]


def names() -> List[str]:
    """The names of the data file."""
    lines = NAMES.read_text("utf-8").splitlines()
    return [ast.literal_eval(line) for line in lines if not line.startswith("#")]


def arguments() -> List[str]:
    """The words that pre-commit puts before the names."""
    found = re.search(r"(?m)^  args: \[(.*)\]$", HOOKS.read_text("utf-8"))
    assert found
    return found[1].split(", ")


def hook(room: Path, *words: str, script: Path = HOOK) -> Tuple[int, str, str]:
    """What the hook answers in this folder."""
    known = {**os.environ, "BALISEKIT_PYTHON": sys.executable}
    done = subprocess.run([str(script), *words], cwd=room, env=known, capture_output=True, check=False)
    return done.returncode, done.stdout.decode(), done.stderr.decode()


def calls(folder: Path, room: Path, *words: str) -> List[List[str]]:
    """How the hook calls balisekit. The hook is a copy in this folder."""
    copy = folder / "examples" / "hooks" / "check-tables"
    copy.parent.mkdir(parents=True)
    shutil.copy2(HOOK, copy)
    put(folder, "balisekit", STAND)
    assert hook(room, *words, script=copy)[0] == 0
    return [call.split("\0") for call in (room / "calls").read_text("utf-8").split("\0\0")[:-1]]


def put(room: Path, name: str, text: str) -> None:
    """Writes a table, which can be started as a program too."""
    path = room / name
    path.parent.mkdir(parents=True, exist_ok=True)
    path.write_text(text, "utf-8")
    path.chmod(0o755)


def test_each_name_is_a_table(tmp_path: Path, tmp_path_factory: pytest.TempPathFactory) -> None:
    """Whatever it is called. Only what stands before `--` is an option."""
    for name in names():
        put(tmp_path, name, EVIL)
    called = calls(tmp_path_factory.mktemp("hook"), tmp_path, "--by-position", "--timeout=6", *arguments(), *names())
    assert called == [["check", "--by-position", "--timeout=6", "--", f"./{name}"] for name in names()]
    for words in called:
        options = vars(parser(words).parse_args(words))
        given = {"table": words[-1], "by_position": True, "timeout": 6.0, "command": "check"}
        assert {name: options[name] for name in given} == given and not (options["program"] or options["json"])
    assert not (tmp_path / "evil").exists()


def test_accepted_findings_beside_a_name(tmp_path: Path, tmp_path_factory: pytest.TempPathFactory) -> None:
    """They are taken from the file beside the table, if the name has an ending."""
    for name in ("--a.csv", "--a.accepted.csv", "table", ".accepted.csv", "b.c/table"):
        put(tmp_path, name, SOUND)
    words = (*arguments(), "--a.accepted.csv", "--a.csv", "table", "b.c/table", str(tmp_path / "table"))
    assert calls(tmp_path_factory.mktemp("hook"), tmp_path, *words) == [
        ["check", "--accepted", "./--a.accepted.csv", "--", "./--a.csv"],
        ["check", "--", "./table"],
        ["check", "--", "./b.c/table"],
        ["check", "--", str(tmp_path / "table")],
    ]


def test_accepted_findings_alone(tmp_path: Path, tmp_path_factory: pytest.TempPathFactory) -> None:
    """They stand for the tables beside them, and each table is checked once. Without one they are a table."""
    for name in ("a.csv", "a.xlsx", "a.accepted.csv", "b", "b.accepted.csv", "c.accepted.csv"):
        put(tmp_path, name, SOUND)
    words = (*arguments(), "a.accepted.csv", "b.accepted.csv", "c.accepted.csv", "a.csv")
    assert calls(tmp_path_factory.mktemp("hook"), tmp_path, *words) == [
        ["check", "--accepted", "./a.accepted.csv", "--", "./a.csv"],
        ["check", "--accepted", "./a.accepted.csv", "--", "./a.xlsx"],
        ["check", "--accepted", "./b.accepted.csv", "--", "./b"],
        ["check", "--", "./c.accepted.csv"],
    ]


def test_settings_and_the_files_that_they_name(tmp_path: Path, tmp_path_factory: pytest.TempPathFactory) -> None:
    """They stand for the tables of their folder: a tolerance or a plan changes the answers of them all."""
    for name in (
        "a.csv",
        "B.XLSX",
        "a.accepted.csv",
        "c.accepted.csv",
        "plan.csv",
        "j.csv",
        "other/plan.csv",
        "notes.txt",
    ):
        put(tmp_path, name, SOUND)
    put(
        tmp_path,
        "balisekit.toml",
        '[check]\n  jumps = \'./j.csv\' # those of 2026\n# plan = "a.csv"\nplan="plan.csv"\n',
    )
    every = [
        ["check", "--accepted", "./a.accepted.csv", "--", "./a.csv"],
        ["check", "--", "./c.accepted.csv"],
        ["check", "--", "./B.XLSX"],
    ]
    for words in (["balisekit.toml"], ["plan.csv"], ["j.csv", "plan.csv"], ["balisekit.toml", "a.csv"]):
        (tmp_path / "calls").unlink(missing_ok=True)
        assert calls(tmp_path_factory.mktemp("hook"), tmp_path, *arguments(), *words) == every
    (tmp_path / "calls").unlink()
    absolute = (*arguments(), "other/plan.csv", str(tmp_path / "balisekit.toml"))
    of_folder = [[word.replace("./", f"{tmp_path}/") for word in call] for call in every]
    called = calls(tmp_path_factory.mktemp("hook"), tmp_path, *absolute)
    assert called == [["check", "--", "./other/plan.csv"], *of_folder]


def test_a_text_of_settings_names_no_plan(tmp_path: Path, tmp_path_factory: pytest.TempPathFactory) -> None:
    """A line of a text looks like the key, and names a table."""
    put(tmp_path, "a.csv", SOUND)
    put(tmp_path, "balisekit.toml", '[report]\ntitle = """\nplan = "a.csv"\n"""\n')
    assert calls(tmp_path_factory.mktemp("hook"), tmp_path, *arguments(), "a.csv") == [["check", "--", "./a.csv"]]


def test_settings_without_a_table(tmp_path: Path) -> None:
    """Nothing was checked, so this is no answer."""
    put(tmp_path, "balisekit.toml", "[check]\nplan = 'plan.csv'\n")
    put(tmp_path, "plan.csv", SOUND)
    for name in ("balisekit.toml", "plan.csv"):
        said = f"check-tables: ./{name}: there is no table in its folder\ncheck-tables: no table is named\n"
        assert hook(tmp_path, *arguments(), name) == (3, "", said)


def test_a_commit_of_settings_alone(tmp_path: Path) -> None:
    """It gets the answer of the table beside them. A tolerance that is none is found before the commit."""
    put(tmp_path, "line.csv", SOUND)
    put(tmp_path, "balisekit.toml", "[check]\ntolerance = 3\n")
    assert hook(tmp_path, *arguments(), "balisekit.toml")[0] == 0
    put(tmp_path, "balisekit.toml", "[check]\ntolerance = 300\n")
    assert hook(tmp_path, *arguments(), "balisekit.toml")[0] == 2


def test_settings_are_handed_to_the_hook() -> None:
    found = re.search(r"(?m)^  files: (.*)$", HOOKS.read_text("utf-8"))
    assert found and all(re.search(found[1], name) for name in ("balisekit.toml", "x/balisekit.toml"))
    assert not any(re.search(found[1], name) for name in ("mybalisekit.toml", "pyproject.toml", "balisekit.toml.bak"))


def test_endings_in_either_case() -> None:
    """As spreadsheets of other systems write them: pre-commit passes over a file that does not match."""
    found = re.search(r"(?m)^  files: (.*)$", HOOKS.read_text("utf-8"))
    assert found and all(re.search(found[1], name) for name in ("a.csv", "LINE.CSV", "x/Line.Xlsx"))
    assert not any(re.search(found[1], name) for name in ("a.csv.bak", "csv", "a.xlsx.txt"))


@pytest.mark.parametrize("words", [(), ("--",), ("--by-position", "--")])
def test_no_table(words: Sequence[str], tmp_path: Path) -> None:
    """Nothing was checked, so this is no answer."""
    assert hook(tmp_path, *words) == (3, "", "check-tables: no table is named\n")


@pytest.mark.parametrize("text", ["exit 0", "echo yes", "cat", "echo balisekit", "echo my balisekit 0.5"])
def test_a_program_that_is_no_balisekit(text: str, tmp_path: Path) -> None:
    """Its status 0 is no yes."""
    put(tmp_path, "balisekit", f"#!/bin/sh\n{text}\n")
    put(tmp_path, "examples/hooks/check-tables", HOOK.read_text("utf-8"))
    put(tmp_path, "t.csv", SOUND)
    said = f"check-tables: {tmp_path}/balisekit does not answer as balisekit\n"
    assert hook(tmp_path, "--", "t.csv", script=tmp_path / "examples" / "hooks" / "check-tables") == (3, "", said)


@pytest.mark.parametrize("words", [("--program=x/evil.csv",), ("--", "--", "--program=x/evil.csv")])
def test_without_the_end_of_options(words: Sequence[str], tmp_path: Path) -> None:
    """A user who overrides `args` without `--` gets a refusal with the reason, and no option from a name."""
    put(tmp_path, "x/evil.csv", EVIL)
    status, _, err = hook(tmp_path, *words)
    assert status == 2 and not (tmp_path / "evil").exists()
    assert "check-tables: --program=x/evil.csv is no table, and options end with --\n" in err


@pytest.mark.slow
@pytest.mark.skipif(not shutil.which("pre-commit"), reason="pre-commit is not installed")
def test_pre_commit_itself(tmp_path: Path) -> None:
    """A commit with these names runs none of them."""
    clone, room = tmp_path / "clone", tmp_path / "room"
    git = ["git", "-c", "user.name=a", "-c", "user.email=a@b"]
    known = {**os.environ, "PRE_COMMIT_HOME": str(tmp_path / "cache"), "BALISEKIT_PYTHON": sys.executable}
    for name in ("balisekit", "companion/start.py", "companion/src", "examples/hooks", HOOKS.name):
        (clone / name).parent.mkdir(parents=True, exist_ok=True)
        subprocess.run(["cp", "-r", str(TOP / name), str(clone / name)], check=True)
    for name in names():
        put(room, name, EVIL)
    for folder in (clone, room):
        for command in ("init -q", "add .", "commit -q -m all"):
            subprocess.run([*git, *command.split()], cwd=folder, check=True)
    words = ["pre-commit", "try-repo", str(clone), "balisekit-check", "--all-files", "--verbose"]
    done = subprocess.run(words, cwd=room, env=known, capture_output=True, check=False)
    assert done.returncode == 1 and b"exit code: 2" in done.stdout, done
    assert not (room / "evil").exists()

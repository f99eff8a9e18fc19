"""No file of a folder that a variable names, or of the current folder, takes the place of a module of Python."""
from __future__ import annotations

import os
import shutil
import subprocess
import sys
from pathlib import Path
from typing import Dict, List, Tuple

import pytest
from cases_of_program import TOP
from installed import layout
from telegrams import ALONE, OTHER

from balisekit import __version__

pytestmark = pytest.mark.uncovered
SOURCES = TOP / "companion" / "src"
MODULES = Path(__file__).with_name("shadowing_modules.txt").read_text("utf-8").splitlines()[1:]
EVIL = "open({!r}, 'w').close()\nprint('evil')\nraise SystemExit(0)\n"
COMMAND = [str(TOP / "balisekit")]
MODULE = [sys.executable, "-m", "balisekit"]
ENTRY_POINT = [sys.executable, "-c", "import sys; from balisekit.start import main; sys.exit(main())"]
"""What pip makes of the entry point of the sources, without its `import re`. The wheel has no entry point."""
BEFORE_BALISEKIT = ("sitecustomize", "usercustomize", "balisekit", "codecs")
"""What an interpreter that is not isolated imports from PYTHONPATH before its first instruction for balisekit."""


def shadows(folder: Path, *names: str) -> Path:
    """A folder with modules of these names, which leave a file behind and end with status 0."""
    folder.mkdir()
    for name in names:
        (folder / f"{name}.py").write_text(EVIL.format(str(folder / "evil")), "utf-8")
    return folder


def answer(words: List[str], room: Path, **known: str) -> Tuple[int, str, str]:
    """What a command answers in this folder, with these variables."""
    environment: Dict[str, str] = {**os.environ, "BALISEKIT_PYTHON": sys.executable, **known}
    done = subprocess.run(words, cwd=room, env=environment, capture_output=True, check=False)
    return done.returncode, done.stdout.decode(), done.stderr.decode()


def tables(room: Path) -> List[str]:
    """The words of a command that finds nothing, and imports much."""
    (room / "t.csv").write_text(f"group,km,telegram\nA,1.0,{ALONE}\nB,2.0,{OTHER}\n", "utf-8")
    return ["check", "t.csv", "--json", "-"]


def test_the_command_reads_no_variable_of_python(command: str, tmp_path: Path) -> None:
    """All at once, in the current folder too: each of them would end the command with status 0 and `evil`."""
    folder = shadows(tmp_path / "evil", *MODULES)
    words, known = [command, *tables(folder)], {"PYTHONPATH": str(folder), "PYTHONUSERBASE": str(folder)}
    site = folder / "lib" / f"python3.{sys.version_info[1]}" / "site-packages"
    site.mkdir(parents=True)
    for name in ("usercustomize.py", "csv.py", "evil.pth"):
        (site / name).write_text(f"import sys; open({str(folder / 'evil')!r}, 'w').close(); sys.exit(0)\n", "utf-8")
    known.update(PYTHONSTARTUP=str(folder / "csv.py"), PYTHONINSPECT="1", PYTHONHOME=str(folder))
    assert answer(words, folder, **known) == answer(words, folder) and not (folder / "evil").exists()


def test_no_other_balisekit_answers(command: str, tmp_path: Path) -> None:
    """Neither another clone, which PYTHONPATH names, nor one in the current folder."""
    other = tmp_path / "companion" / "src"
    shutil.copytree(SOURCES, other, ignore=shutil.ignore_patterns("__pycache__"))
    init = other / "balisekit" / "__init__.py"
    init.write_text(init.read_text("utf-8").replace(__version__, "9.9.9"), "utf-8")
    for word in ("check", "main"):
        (other / "balisekit" / "cli" / f"{word}.py").write_text("raise SystemExit(0)\n", "utf-8")
    words, known = [command, *tables(other)], {"PYTHONPATH": str(other)}
    assert answer([command, "--version"], other, **known)[1].startswith(f"balisekit {__version__}\n")
    assert answer(words, other, **known) == answer(words, tmp_path / "companion" / "src") and answer(words, other)[1]


@pytest.mark.parametrize("words", [MODULE, ENTRY_POINT], ids=["module", "sources"])
def test_others_start_the_interpreter_once_more(words: List[str], tmp_path: Path) -> None:
    """As a module, and by the entry point of the sources: modules that the interpreter has not imported yet."""
    folder = shadows(tmp_path / "evil", *(name for name in MODULES if name not in BEFORE_BALISEKIT))
    words = [*words, *tables(folder)]
    status, out, err = answer(words, folder, PYTHONPATH=os.pathsep.join(map(str, (SOURCES, folder))))
    assert (status, err.splitlines()[-1]) == (0, 'program: "yes: groups 2, messages 0"'), (out, err)
    assert out.startswith("{") and not (folder / "evil").exists()


def test_the_current_folder(tmp_path: Path) -> None:
    """`python3 -m balisekit` has it before all others."""
    folder = shadows(tmp_path / "evil", "csv", "json", "argparse")
    (folder / "balisekit").symlink_to(SOURCES / "balisekit")
    status, _, err = answer([*MODULE, *tables(folder)], folder)
    assert (status, err.splitlines()[-1]) == (0, 'program: "yes: groups 2, messages 0"')
    assert not (folder / "evil").exists()


def test_packages_of_the_user_are_found_behind_all_others(tmp_path: Path) -> None:
    """`pip install --user` has put one there. A file beside it takes no module's place."""
    site = tmp_path / "lib" / f"python3.{sys.version_info[1]}" / "site-packages"
    site.mkdir(parents=True)
    (site / "csv.py").write_text("raise SystemExit(0)\n", "utf-8")
    (site / "openpyxl").mkdir()
    (site / "openpyxl" / "__init__.py").write_text("raise ImportError('the one of the user')\n", "utf-8")
    (site / "defusedxml").mkdir()
    words = [*COMMAND, *tables(tmp_path)[:2], "--xlsx", "o.xlsx"]
    bare = tmp_path / "python3"
    bare.write_text(f'#!/bin/sh\nexec {sys.executable} -S "$@"\n', "utf-8")
    bare.chmod(0o755)
    known = {"BALISEKIT_PYTHON": str(bare), "PYTHONUSERBASE": str(tmp_path)}
    status, _, err = answer(words, tmp_path, **known)
    assert status == 3 and "(ImportError: the one of the user)" in err


@pytest.mark.parametrize("name", ["PYTHONDONTWRITEBYTECODE", "PYTHONPYCACHEPREFIX"])
def test_no_compiled_module_is_written_by_the_wheel(name: str, tmp_path: Path) -> None:
    """As by the clone."""
    command = layout(tmp_path)
    assert answer([str(command), "check", "--help"], tmp_path, **{name: str(tmp_path / "x")})[0] == 0
    assert not [*tmp_path.rglob("__pycache__")]


@pytest.mark.parametrize("name", ["PYTHONDONTWRITEBYTECODE", "PYTHONPYCACHEPREFIX"])
def test_no_compiled_module_is_written(name: str, tmp_path: Path) -> None:
    """If a variable keeps them away from the sources, none is written there."""
    shutil.copytree(SOURCES, tmp_path / "companion" / "src", ignore=shutil.ignore_patterns("__pycache__"))
    for part in ("balisekit", "companion/start.py"):
        shutil.copy2(TOP / part, tmp_path / part)
    assert answer([str(tmp_path / "balisekit"), "check", "--help"], tmp_path, **{name: str(tmp_path / "x")})[0] == 0
    assert not [*tmp_path.rglob("__pycache__")]

"""balisekit as pip installs it, away from the repository."""
from __future__ import annotations

import hashlib
import importlib.util
import os
import shutil
import signal
import subprocess
import sys
import venv
from pathlib import Path

import pytest

from balisekit import __version__
from balisekit.cli import main as cli
from balisekit.engine import find_program as program_file
from balisekit.engine.program import Program
from balisekit.errors import NoAnswer, TableError

TOP = Path(__file__).resolve().parents[2]
NOTHING = hashlib.sha256(b"").hexdigest()


def test_install(tmp_path: Path, program: Program) -> None:
    lacks = [f"python3-{module}" for module in ("pip", "hatchling") if importlib.util.find_spec(module) is None]
    if lacks:
        pytest.skip(f"installation of balisekit ({', '.join(lacks)})")
    shutil.copytree(TOP / "companion", tmp_path / "companion", ignore=shutil.ignore_patterns("tests", "__pycache__"))
    venv.create(tmp_path / "room", system_site_packages=True, with_pip=False)
    python = tmp_path / "room" / "bin" / "python"
    install = [str(python), *"-m pip install -q --no-build-isolation --no-deps --no-index --no-compile".split()]
    subprocess.run([*install, str(tmp_path / "companion")], check=True, capture_output=True)
    table = tmp_path / "line.csv"
    shutil.copyfile(TOP / "examples" / "table" / "line.csv", table)
    command = str(tmp_path / "room" / "bin" / "balisekit")
    words = [command, "check", str(table), "--explain", "--program", program.path]
    done = subprocess.run(words, cwd=tmp_path, check=False, stdout=subprocess.PIPE)
    assert (done.returncode, done.stdout.decode().splitlines()[-1][:10]) == (2, "INCOMPLETE")
    bare = {key: value for key, value in os.environ.items() if key != "BALISECHECK"}
    done = subprocess.run(
        [command, "check", str(table)],
        env={**bare, "PATH": str(tmp_path / "none")},  # (Debian's package installs the program beside Debian's Python)
        cwd=tmp_path,
        check=False,
        stderr=subprocess.PIPE,
    )
    assert done.returncode == 3 and f", in {tmp_path / 'room' / 'bin'} or on the path: " in done.stderr.decode()


def test_the_program_beside_the_interpreter_comes_before_the_path(
    tmp_path: Path, monkeypatch: pytest.MonkeyPatch
) -> None:
    """A wheel installs it there, and a venv need not be active."""
    for name in ("venv", "other"):
        (tmp_path / name).mkdir()
        (tmp_path / name / "balisecheck").write_text("#!/bin/sh\n")
        (tmp_path / name / "balisecheck").chmod(0o755)
    monkeypatch.delenv("BALISECHECK", raising=False)
    monkeypatch.setenv("PATH", str(tmp_path / "other"))
    monkeypatch.setattr(program_file, "TOP", tmp_path)
    monkeypatch.setattr(sys, "executable", str(tmp_path / "python"))
    assert program_file.find(None) == str(tmp_path / "other" / "balisecheck")
    monkeypatch.setattr(sys, "executable", str(tmp_path / "venv" / "python"))
    assert program_file.find(None) == str(tmp_path / "venv" / "balisecheck")


def test_version_starts_no_program(
    tmp_path: Path, monkeypatch: pytest.MonkeyPatch, capsys: pytest.CaptureFixture[str]
) -> None:
    """It has the checksums of the program that was released with balisekit, by its ABOUT, and ends with 0."""
    monkeypatch.setenv("BALISECHECK", "/no such program")
    monkeypatch.setattr(program_file, "TOP", tmp_path)
    (tmp_path / "dist" / "one").mkdir(parents=True)
    about = tmp_path / "dist" / "one" / "ABOUT"
    library = about.parent / "libbalisecheck.so.0"
    library.touch()
    for lines, said in (
        ("", [f"balisekit {__version__}"]),
        (
            "version 1.2.3\nkit one\nsources 0a\nprogram 0b\n",
            [f"balisekit {__version__}", "balisecheck 1.2.3, sources 0a, program 0b"],
        ),
        (
            f"version 1.2.3\nkit one\nsources 0a\nprogram 0b\nlibrary {NOTHING}\n",
            [f"balisekit {__version__}", "balisecheck 1.2.3, sources 0a, program 0b", f"library {library}"],
        ),
    ):
        about.write_text(lines, "utf-8")
        with pytest.raises(SystemExit) as ended:
            cli.main(["--version"])
        assert (ended.value.code, capsys.readouterr().out.splitlines()) == (0, said)


def test_in_a_release_the_program_itself_stands_beside(tmp_path: Path, monkeypatch: pytest.MonkeyPatch) -> None:
    """A release has the program in the place where a clone has the start script."""
    monkeypatch.delenv("BALISECHECK", raising=False)
    (tmp_path / "companion").mkdir()
    (tmp_path / "companion" / "pyproject.toml").touch()
    (tmp_path / "balisecheck").write_bytes(b"\x7fELF and more")
    monkeypatch.setattr(program_file, "TOP", tmp_path)
    assert program_file.find(None) == str(tmp_path / "balisecheck")


def test_in_a_clone_the_start_script_stands_for_its_program(tmp_path: Path, monkeypatch: pytest.MonkeyPatch) -> None:
    """So a report has the checksum of the program, and not that of a script, however the script is named."""
    (tmp_path / "companion").mkdir()
    (tmp_path / "companion" / "pyproject.toml").touch()
    script, program, link = tmp_path / "balisecheck", tmp_path / "program", tmp_path / "link"
    script.write_text(f'#!/bin/sh\n[ "$BALISECHECK_PATH" = 1 ] && echo {program}\n')
    program.write_text("#!/bin/sh\n")
    for path in (script, program):
        path.chmod(0o755)
    link.symlink_to(script)
    monkeypatch.setattr(program_file, "TOP", tmp_path)
    assert {program_file.find(str(path)) for path in (script, link, program)} == {str(program)}
    monkeypatch.setenv("BALISECHECK", str(script))
    assert program_file.find(None) == str(program)


def test_a_start_script_that_lost_its_mode(tmp_path: Path, monkeypatch: pytest.MonkeyPatch) -> None:
    """Some tools unpack a zip without the modes. The start script then reports which files need them."""
    monkeypatch.delenv("BALISECHECK")
    (tmp_path / "companion").mkdir()
    (tmp_path / "companion" / "pyproject.toml").touch()
    (tmp_path / "balisecheck").write_text("#!/bin/sh\necho 'balisecheck: not built: chmod +x it' >&2\nexit 3\n")
    monkeypatch.setattr(program_file, "TOP", tmp_path)
    with pytest.raises(NoAnswer, match=r"balisecheck names no program: balisecheck: not built: chmod \+x it"):
        program_file.find(None)


def test_a_start_script_that_does_not_end(tmp_path: Path, monkeypatch: pytest.MonkeyPatch) -> None:
    """It has a minute, because it hashes all sources, which takes long on a busy machine."""
    monkeypatch.delenv("BALISECHECK")
    assert program_file.SECONDS == 60
    (tmp_path / "companion").mkdir()
    (tmp_path / "companion" / "pyproject.toml").touch()
    script = tmp_path / "balisecheck"
    script.write_text("#!/bin/sh\nexec sleep 60\n")
    script.chmod(0o755)
    monkeypatch.setattr(program_file, "TOP", tmp_path)
    monkeypatch.setattr(program_file, "SECONDS", 0.2)
    with pytest.raises(NoAnswer, match="balisecheck: it has not ended within 0.2 s"):
        program_file.find(None)


def _clone_with_script(folder: Path, script: str, monkeypatch: pytest.MonkeyPatch) -> None:
    """A folder that balisekit takes for its clone."""
    (folder / "companion").mkdir()
    (folder / "companion" / "pyproject.toml").touch()
    (folder / "balisecheck").write_text(f"#!/bin/sh\n{script}\n")
    monkeypatch.delenv("BALISECHECK")
    monkeypatch.setattr(program_file, "TOP", folder)


def test_a_start_script_that_runs_ahead(tmp_path: Path, monkeypatch: pytest.MonkeyPatch) -> None:
    """What it has found is used, once."""
    log = tmp_path / "log"
    _clone_with_script(tmp_path, f"echo run >>{log}; echo {log}", monkeypatch)
    with program_file.script_ahead():
        assert program_file.find(None) == str(log) and log.read_text() == "run\n"
        assert program_file.find(None) == str(log) and log.read_text() == "run\nrun\n"


def test_a_start_script_that_nobody_needs_is_ended(tmp_path: Path, monkeypatch: pytest.MonkeyPatch) -> None:
    """It is not needed if the options are wrong. None is started if a program is named."""
    _clone_with_script(tmp_path, "exec sleep 60", monkeypatch)
    with pytest.raises(TableError), program_file.script_ahead():
        (started,) = program_file._STARTED
        raise TableError("wrong options")
    assert started.returncode == -signal.SIGKILL and not program_file._STARTED
    monkeypatch.setenv("BALISECHECK", "program")
    with program_file.script_ahead():
        assert not program_file._STARTED


@pytest.mark.parametrize("words", ["", "--version", "--help", "check --help", "check t.csv --program=p", "chek t.csv"])
def test_no_start_script_is_run_for_these(words: str, monkeypatch: pytest.MonkeyPatch) -> None:
    """Each of them needs no program, or names one."""
    monkeypatch.setattr(program_file, "script_ahead", lambda: pytest.fail("it was run"))
    with cli._script_ahead(words.split()):
        pass


def test_a_file_that_cannot_be_read(tmp_path: Path) -> None:
    """Of a library whose mode forbids it, among others. (For root only a folder cannot be read.)"""
    with pytest.raises(NoAnswer, match=f"^{tmp_path} cannot be read: Is a directory$"):
        program_file.checksum(str(tmp_path))

"""The command takes an interpreter that serves it, in a clone and in a wheel, and says why if there is none."""
from __future__ import annotations

import os
import shlex
import shutil
import subprocess
import sys
from pathlib import Path
from typing import Dict, Tuple

import pytest
from cases_of_program import TOP
from installed import VERSION, layout
from telegrams import ALONE

from balisekit.errors import NoAnswer, needed

LINE = shlex.quote(str(TOP / "examples" / "table" / "line.csv"))
LINK = shlex.quote(str(TOP / "examples" / "links" / "line.csv"))
DRAW = f"draw {LINE} --track --aspect green"
DEBIAN = Path("/usr/bin/python3")
BARE = f'#!/bin/sh\nexec {DEBIAN} -S "$@"\n'
"""An interpreter without packages."""
OLD = f"""#!/bin/sh
[ "$2" != "-c" ] || exec {DEBIAN} "$@"
exec {DEBIAN} -c '
import runpy, sys
sys.version_info = (3, 8, 20)
del sys.argv[:3]  # -c, -E, -s
sys.path.insert(0, "")
runpy.run_path(sys.argv[0], run_name="__main__")' "$@"
"""
"""An interpreter that is too old."""
WITHOUT_TOML = OLD.replace("(3, 8, 20)", "(3, 10, 13)").replace(" -c ", " -S -c ")
"""An interpreter without packages that has no tomllib."""
needs_debian = pytest.mark.skipif(
    not Path("/usr/lib/python3/dist-packages/jinja2").is_dir(), reason="python3-jinja2 is not installed"
)


def start(
    words: str, folder: Path, stdin: str = "/dev/null", command: str = str(TOP / "balisekit"), **settings: str
) -> Tuple[int, str, str]:
    """The answer of the command, by default ./balisekit, with this folder first in the path."""
    known: Dict[str, str] = {**os.environ, "PATH": f"{folder}:/usr/bin:/bin", **settings}
    if "BALISEKIT_PYTHON" not in settings:
        known.pop("BALISEKIT_PYTHON", None)
    descriptor = os.open(stdin, os.O_RDONLY)
    try:
        done = subprocess.run(
            [command, *shlex.split(words)], env=known, stdin=descriptor, capture_output=True, check=False
        )
    finally:
        os.close(descriptor)
    return done.returncode, done.stdout.decode(), done.stderr.decode()


def python(folder: Path, text: str) -> str:
    """Puts a python3 into a folder."""
    path = folder / "python3"
    path.write_text(text, "utf-8")
    path.chmod(0o755)
    return str(path)


@pytest.mark.parametrize("words", ["show", "check --help", "--version"])
def test_a_folder_as_standard_input_is_refused(words: str, command: str, tmp_path: Path) -> None:
    assert start(words, tmp_path, str(tmp_path), command) == (2, "", "balisekit: standard input is a folder\n")


def test_an_interpreter_that_is_not_there(tmp_path: Path) -> None:
    status, out, err = start("--version", tmp_path, BALISEKIT_PYTHON="/nowhere/python3")
    assert (status, out) == (3, "") and err.startswith("balisekit: there is no /nowhere/python3: BALISEKIT_PYTHON ")


def test_no_python3(tmp_path: Path) -> None:
    """The command that installs it is reported. (A copy looks for Debian's in a place where there is none.)"""
    script = tmp_path / "balisekit"
    (tmp_path / "companion").mkdir()
    (tmp_path / "companion" / "start.py").touch()
    script.write_text((TOP / "balisekit").read_text("utf-8").replace(str(DEBIAN), "/nowhere/python3"), "utf-8")
    done = subprocess.run(["/bin/sh", str(script)], env={"PATH": str(tmp_path)}, capture_output=True, check=False)
    said = b"balisekit: there is no /nowhere/python3: sudo apt-get install python3\n"
    assert (done.returncode, done.stdout, done.stderr) == (3, b"", said)


@pytest.mark.parametrize("name", ["jinja2", "openpyxl"])
@pytest.mark.parametrize("executable", ["/opt/python3", "/usr/bin/python3"])
def test_a_package_that_is_absent(name: str, executable: str, monkeypatch: pytest.MonkeyPatch) -> None:
    """Status 3, with the commands that install it for the interpreter that runs."""
    monkeypatch.setattr("sys.executable", executable)
    with pytest.raises(NoAnswer) as raised, needed(name, "a report"):
        raise ModuleNotFoundError(f"No module named '{name}'")
    debian = f"`sudo apt-get install python3-{name}`"
    other = f"`/opt/python3 -m pip install {name}`, or for /usr/bin/python3 {debian}"
    why = f"{executable} cannot import (ModuleNotFoundError: No module named '{name}')"
    assert raised.value.status == 3
    assert str(raised.value) == f"a report needs {name}, which {why}: {debian if executable == str(DEBIAN) else other}"


@pytest.mark.skipif(not DEBIAN.resolve().name[len("python3.") :] >= "11", reason="Debian's Python has no tomllib")
def test_headings_of_ones_own_need_tomllib(tmp_path: Path) -> None:
    """Debian's interpreter runs if only that one has it or the package tomli."""
    python(tmp_path, WITHOUT_TOML)
    (tmp_path / "c.toml").write_text('group = "group"', "utf-8")
    status, out, err = start(f"check {LINE} --columns {tmp_path / 'c.toml'}", tmp_path)
    assert (status, err) == (2, "") and "note: headings by " in out


def test_no_path(tmp_path: Path) -> None:
    assert start("--version", tmp_path, PATH="")[:2] == (0, start("--version", tmp_path)[1])


@needs_debian
@pytest.mark.parametrize("text", [BARE, OLD], ids=["bare", "old"])
def test_debian_serves_if_the_path_does_not(text: str, tmp_path: Path) -> None:
    python(tmp_path, text)
    status, out, err = start(DRAW, tmp_path)
    assert status == 2 and out.startswith("<svg") and "balisekit: row 26  Signal F" in err


@needs_debian
@pytest.mark.parametrize("text, why", [(BARE, "jinja2"), (OLD, "it needs Python 3.9 or later")], ids=["bare", "old"])
def test_the_interpreter_that_is_named_is_taken(text: str, why: str, tmp_path: Path) -> None:
    status, out, err = start(DRAW, tmp_path, BALISEKIT_PYTHON=python(tmp_path, text))
    assert (status, out) == (3, "") and err.splitlines()[-1].startswith("balisekit: ") and why in err


@needs_debian
def test_a_command_without_packages_stays_with_the_path(tmp_path: Path) -> None:
    python(tmp_path, BARE.replace("exec", f"touch {tmp_path}/taken; exec"))
    assert start(f"check {LINE}", tmp_path)[0] == 2 and (tmp_path / "taken").exists()


def test_it_is_found_through_a_link(tmp_path: Path) -> None:
    (tmp_path / "link").symlink_to(TOP / "balisekit")
    done = subprocess.run([str(tmp_path / "link"), "--version"], cwd=tmp_path, stdout=subprocess.PIPE, check=False)
    assert done.returncode == 0 and done.stdout.startswith(b"balisekit ")


def limited(command: str, limit: str, folder: Path, **settings: str) -> Tuple[int, str, str]:
    """What a check of a sound table answers within a limit of the shell. One that runs without end has status 124.

    `timeout` ends all processes of the command. To kill only the first one would leave an interpreter, and its pipes.
    """
    table = str(TOP / "examples" / "links" / "line.csv")
    words = ["bash", "-c", f'ulimit {limit} || exit 9; exec "$0" check "$1"', command, table]
    user = [] if os.getuid() else "setpriv --reuid=65534 --clear-groups --inh-caps=+dac_override".split()
    user += [] if os.getuid() else ["--ambient-caps=+dac_override"]
    known = {**os.environ, "BALISEKIT_PYTHON": str(DEBIAN), **settings}
    words = ["timeout", "-k", "5", "60", *user, *words]
    done = subprocess.run(words, env=known, cwd=folder, capture_output=True, check=False, timeout=100)
    return done.returncode, done.stdout.decode(), done.stderr.decode()


@pytest.mark.parametrize("limit", [*(f"-n {number}" for number in range(12, 20)), "-u 1"])
def test_too_few_files_or_processes(limit: str, command: str, tmp_path: Path) -> None:
    """Status 3, as for the program: a shell that cannot go on ends with 2, which would mean a refusal.

    With fewer files than 12 dash, Debian's /bin/sh, cannot open the script itself, and ends with its own status 2.
    """
    status, out, err = limited(command, limit, tmp_path)
    assert status in ((3,) if limit == "-u 1" else (0, 3)), (status, out, err)
    assert status == 0 or err and not out


@pytest.mark.parametrize("named", ["", str(DEBIAN)], ids=["path", "named"])
@pytest.mark.parametrize("limit", [*(f"-v {number}" for number in range(6000, 42000, 4000)), "-d 1000", "-d 9000"])
def test_too_little_memory(limit: str, named: str, command: str, tmp_path: Path) -> None:
    """Status 3 and a line of balisekit: an interpreter that ends while it starts has status 1, as for findings."""
    status, out, err = limited(command, limit, tmp_path, BALISEKIT_PYTHON=named)
    assert status in ((3,) if limit < "-v 22000" else (0, 3)), (status, out, err)
    assert status == 0 or err.splitlines()[-1].startswith("balisekit: ") and not out
    if limit in ("-v 22000", "-d 9000"):
        name, number = limit.split()
        assert err.startswith(f"balisekit: {number} KB of memory by ulimit {name} are not enough: at least ")


@pytest.mark.parametrize("named", ["/bin/true", "/bin/echo", "/bin/cat", "/bin/sh", "true"])
def test_a_program_that_is_no_interpreter(named: str, tmp_path: Path) -> None:
    """Its status 0 is no answer of balisekit."""
    status, out, err = start(f"check {LINE}", tmp_path, BALISEKIT_PYTHON=named)
    why = f"balisekit: {named} does not start, and BALISEKIT_PYTHON names a Python 3.9 or later: "
    assert (status, out) == (3, "") and err.startswith(why)


@pytest.mark.parametrize("text", ["exit 0", "echo starting", "exec /bin/true", "exec cat"])
@pytest.mark.parametrize("name", ["python3", "python3.11"])
def test_a_python3_of_the_path_that_is_no_interpreter(text: str, name: str, tmp_path: Path) -> None:
    """In a clone and in a wheel, its status 0 is no answer of balisekit."""
    script = Path(python(tmp_path, f"#!/bin/sh\n{text}\n")).rename(tmp_path / name)
    if name != "python3":
        (tmp_path / "python3").symlink_to(script)
    status, out, err = start(f"check {LINE}", tmp_path)
    assert (status, out) == (3, "") and err.startswith(f"balisekit: {tmp_path}/python3 does not start: "), err
    command = layout(tmp_path / "prefix")
    (command.parent / VERSION).unlink(missing_ok=True)
    shutil.copy2(script, command.parent / VERSION)
    status, out, err = start(f"check {LINE}", tmp_path, command=str(command))
    assert (status, out) == (3, "") and err.startswith(f"balisekit: {command.parent / VERSION} does not start: "), err


def test_an_interpreter_is_started_once(tmp_path: Path) -> None:
    """The one of a folder with its own modules beside it. Only another one is tried first."""
    times, log = [], tmp_path / "log"
    (tmp_path / "bin").mkdir()
    for name in ("python3", VERSION):
        script = tmp_path / "bin" / name
        script.write_text(f'#!/bin/sh\necho >>{log}\nexec {sys.executable} "$@"\n', "utf-8")
        script.chmod(0o755)
    for is_known in (False, True):
        log.write_text("", "utf-8")
        if is_known:
            (tmp_path / "bin" / "python3").unlink()
            (tmp_path / "bin" / "python3").symlink_to(VERSION)
            (tmp_path / "lib" / VERSION).mkdir(parents=True)
            (tmp_path / "lib" / VERSION / "os.py").touch()
        assert start(f"check {LINK}", tmp_path / "bin")[0] == 0
        times.append(len(log.read_text("utf-8")))
    assert times == [2, 1]


@pytest.mark.parametrize("name", ["start.py", "errors.py", "cli/main.py", "cli/signals.py", "__init__.py"])
@pytest.mark.parametrize("text", ["x = (", "raise MemoryError", "import balisekit.none"])
def test_a_damaged_module(name: str, text: str, tmp_path: Path) -> None:
    """Of a clone and of a wheel: status 3, and no traceback with the status of findings.

    A wheel's start.py is the first file that Python reads: what is wrong with it can only be a traceback.
    """
    clone = tmp_path / "clone"
    shutil.copytree(TOP / "companion" / "src", clone / "companion" / "src")
    for part in ("balisekit", "companion/start.py"):
        shutil.copy2(TOP / part, clone / part)
    for command in (clone / "balisekit", layout(tmp_path / "wheel"))[: 1 if name == "start.py" else 2]:
        (damaged,) = command.parents[0 if command.parent == clone else 1].rglob(f"balisekit/{name}")
        damaged.write_text(text, "utf-8")
        status, out, err = start(f"check {LINE}", tmp_path, command=str(command))
        assert (status, out) == (3, ""), (status, out, err)
        assert err


def test_an_empty_start(tmp_path: Path) -> None:
    """Python ends with status 0 if the file that it runs is empty, as after a full disk."""
    command = layout(tmp_path / "wheel")
    (empty,) = command.parents[1].rglob("balisekit/start.py")
    empty.write_text("", "utf-8")
    status, out, err = start(f"check {LINE}", tmp_path, command=str(command))
    assert (status, out) == (3, "") and err.endswith("start.py is empty or cannot be read: install balisekit again\n")


def test_a_rule_whose_file_is_missing(tmp_path: Path) -> None:
    """The answer would say that the rules before and after it found nothing."""
    command = layout(tmp_path / "wheel")
    (rule,) = command.parents[1].rglob("l6_*.py")
    rule.unlink()
    status, out, err = start(f"check {LINE}", tmp_path, command=str(command))
    assert (status, out) == (3, "") and "the file of the rule L6 is missing" in err


@pytest.mark.parametrize("packages", ["lib/{}/site-packages", "lib64/{}/site-packages", "lib/{}/dist-packages", "."])
def test_a_wheel_without_an_interpreter_beside(packages: str, tmp_path: Path) -> None:
    """As by `pip install` with --user, --prefix or --target, on Fedora and on Debian; also through a link."""
    prefix = tmp_path / "a = prefix"
    command = layout(prefix, packages.format(VERSION))
    (tmp_path / "link").symlink_to(command)
    answers = [start(f"check {LINE}", tmp_path, command=str(each)) for each in (command, tmp_path / "link")]
    assert answers[0] == answers[1] and (answers[0][0], answers[0][2]) == (2, ""), answers
    # Its program is found by the place of the package, before another one that is on the path.
    (tmp_path / "balisecheck").write_text("#!/bin/sh\n", "utf-8")
    (tmp_path / "balisecheck").chmod(0o755)
    assert start(f"check {LINE}", tmp_path, command=str(command), BALISECHECK="") == answers[0]
    for program in (prefix / "bin" / "balisecheck", tmp_path / "balisecheck"):
        program.unlink()
    # (Debian's package installs the program beside Debian's Python)
    (prefix / "bin" / VERSION).symlink_to(sys.executable)
    status, out, err = start(f"check {LINE}", tmp_path, command=str(command), BALISECHECK="", PATH=str(tmp_path))
    assert (status, out) == (3, "") and err.startswith("balisekit: there is no balisecheck in ")
    assert f" {prefix / 'bin'}" in err and err.endswith(" or on the path: name one by --program or BALISECHECK\n")


def test_a_wheel_of_another_interpreter(tmp_path: Path) -> None:
    """The one of its folder is taken. Without it there is no answer."""
    command = layout(tmp_path / "prefix", "lib/python3.99/site-packages")
    status, out, err = start("--version", tmp_path, command=str(command))
    assert (status, out) == (3, "") and err.startswith("balisekit: there is no python3.99, for which ")
    (tmp_path / "python3.99").write_text(f'#!/bin/sh\nexec {sys.executable} "$@"\n', "utf-8")
    (tmp_path / "python3.99").chmod(0o755)
    assert start("--version", tmp_path, command=str(command))[0] == 0


def test_a_command_without_its_files(tmp_path: Path) -> None:
    command = shutil.copy2(TOP / "balisekit", tmp_path / "balisekit")
    said = f"balisekit: its files are neither in {tmp_path}/companion nor where pip installs them\n"
    assert start("--version", tmp_path, command=str(command)) == (3, "", said)


@needs_debian
@pytest.mark.parametrize("name", ["line.csv", "line", "line.xlsm", "line.xls"])
def test_a_workbook_with_another_name(name: str, tmp_path: Path) -> None:
    """An interpreter that can read it is taken, as for an .xlsx."""
    openpyxl = pytest.importorskip("openpyxl")
    book, path = openpyxl.Workbook(), tmp_path / name
    for row in (["group", "telegram"], ["A", ALONE]):
        book.active.append(row)
    with open(path, "wb") as file:
        book.save(file)
    python(tmp_path, BARE)
    for words in (f"check {path}", f"table {LINK} --expect={path}"):
        status, out, err = start(words, tmp_path)
        assert status == (0 if words.startswith("check") else 2) and "openpyxl" not in err, (out, err)

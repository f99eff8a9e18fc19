"""Outputs never replace an input, replace another file only by --force, and appear all together or not at all."""
from __future__ import annotations

import json
import os
import shutil
import signal
import subprocess
import sys
import time
from pathlib import Path
from typing import IO, Any, Dict, Sequence, Tuple, Union

import pytest
from cases_of_program import TOP
from conftest import Run
from telegrams import ALONE, MESSAGE, OTHER

from balisekit.engine.program import Program
from balisekit.errors import NoAnswer, TableError
from balisekit.io.outputs import Json, Output, check_outputs, placing, write_json

TABLE = f"group,km,nominal,telegram\nA,1.000,rising,{ALONE}\nB,2.000,rising,{OTHER}\n"
COMMAND = [sys.executable, "-m", "balisekit"]
ENTRIES = "rule,nid_c,nid_bg,message,aspect,balise,packet,direction,reason,who,date,until\n"
OUTPUTS = [
    "check t.csv --json",
    "check t.csv --document",
    "check t.csv --junit",
    "check t.csv --sarif",
    "check t.csv --xlsx",
    "report t.csv --html",
    "draw t.csv --group A --svg",
    "draw t.csv --track --svg",
    "links t.csv --json",
    "diff t.csv u.csv --html",
    "diff t.csv u.csv --json",
    "plan t.csv --csv",
    "table t.csv --csv",
    "table t.csv --xlsx",
]
"""Each option that names a file which --force lets it replace."""
OTHER_OUTPUTS = ["check t.csv --propose", "draw t.csv --messages m.txt --message 1 --svg", "draw t.csv --all"]
STATED = {
    "plan.csv": "kind,km,km_to,track,way,value,name\nsignal,2.000,,,,,\n",
    "jumps.csv": "km,km_after,track\n9.000,10.000,\n",
    "balisekit.toml": '[check]\nplan = "plan.csv"\njumps = "jumps.csv"\n',
}
"""A TOML file, and the inputs that it names."""
OPENED = [
    ("check t.csv --messages m.txt --accepted a.csv --program ./prog --document", "t.csv m.txt a.csv prog TOML"),
    ("check t.csv --columns c.toml --only L --sarif", "t.csv c.toml plan.csv jumps.csv"),
    ("check t.csv --plan p.csv --jumps j.csv --propose", "t.csv p.csv j.csv balisekit.toml"),
    ("report t.csv --messages m.txt --accepted a.csv --html", "t.csv m.txt a.csv TOML"),
    ("draw t.csv --group A --svg", "t.csv balisekit.toml"),
    ("draw t.csv --messages m.txt --message 1 --svg", "t.csv m.txt balisekit.toml"),
    ("draw t.csv --track --messages m.txt --svg", "t.csv m.txt TOML"),
    ("draw t.csv --all", "t.csv TOML"),
    ("links t.csv --messages m.txt --json", "t.csv m.txt TOML"),
    ("plan t.csv --messages m.txt --csv", "t.csv m.txt TOML"),
    ("table t.csv --expect e.csv --csv", "t.csv e.csv balisekit.toml"),
    ("diff t.csv u.csv --old-messages m.txt --new-messages n.txt --json", "t.csv u.csv m.txt n.txt balisekit.toml"),
    ("diff d.json u.csv --html", "d.json u.csv balisekit.toml"),
]
"""A command line without its output, and all files that it opens."""
REPLACED = [
    ("check t.csv --json t.csv", "t.csv"),
    ("check t.csv --document t.csv", "t.csv"),
    ("check t.csv --junit t.csv", "t.csv"),
    ("check t.csv --propose t.csv", "t.csv"),
    ("check t.csv --accepted a.csv --json a.csv", "a.csv"),
    ("check t.csv --accepted a.csv --json new.json --junit a.csv", "a.csv"),
    ("check t.csv --messages m.txt --junit m.txt", "m.txt"),
    ("check t.csv --json hard.csv", "hard.csv"),
    ("check t.csv --program ./prog --json prog", "prog"),
    ("report t.csv --accepted a.csv --html a.csv", "a.csv"),
    ("report t.csv --html t.csv", "t.csv"),
    ("report t.csv --html ./t.csv", "./t.csv"),
    ("report t.csv --html soft.csv", "soft.csv"),
    ("report soft.csv --html t.csv", "t.csv"),
    ("draw t.csv --group A --svg t.csv", "t.csv"),
    ("draw t.csv --track --svg t.csv", "t.csv"),
    ("links t.csv --json t.csv", "t.csv"),
    ("links t.csv --messages m.txt --json m.txt", "m.txt"),
    ("diff t.csv u.csv --html t.csv", "t.csv"),
    ("diff t.csv u.csv --json u.csv", "u.csv"),
    ("diff t.csv u.csv --old-messages m.txt --json m.txt", "m.txt"),
    ("diff t.csv u.csv --new-messages m.txt --html m.txt", "m.txt"),
]
"""A command line, and its output that is an input."""


@pytest.fixture
def room(tmp_path: Path, monkeypatch: pytest.MonkeyPatch, program: Program) -> Path:
    """A folder with inputs, in which the commands run."""
    for name, text in (("t.csv", TABLE), ("u.csv", TABLE), ("m.txt", f"{MESSAGE};x\n"), ("a.csv", ENTRIES)):
        (tmp_path / name).write_text(text, "utf-8")
    (tmp_path / "soft.csv").symlink_to("t.csv")
    os.link(tmp_path / "t.csv", tmp_path / "hard.csv")
    shutil.copy(program.path, tmp_path / "prog")
    monkeypatch.chdir(tmp_path)
    return tmp_path


def _contents(room: Path) -> Dict[str, bytes]:
    return {path.name: path.read_bytes() for path in room.iterdir() if path.is_file()}


@pytest.fixture
def project(room: Path) -> Path:
    """The same folder with a TOML file, and other inputs that options can name."""
    for name, text in STATED.items():
        (room / name).write_text(text, "utf-8")
    for names in ("plan.csv p.csv", "jumps.csv j.csv", "balisekit.toml c.toml", "m.txt n.txt"):
        shutil.copy(*names.split())
    (room / "soft-plan.csv").symlink_to("plan.csv")
    os.link("jumps.csv", "hard-jumps.csv")
    (room / "e.csv").write_text("group,variable,raw\nA,NID_C,1\n", "utf-8")
    (room / "d.json").write_text(f'{{"groups":[{{"balises":["{ALONE}"]}}],"messages":[]}}\n', "utf-8")
    return room


@pytest.mark.parametrize("force", ["", " --force"])
@pytest.mark.parametrize("words, output", REPLACED, ids=[words for words, _ in REPLACED])
def test_an_output_never_replaces_an_input(words: str, output: str, force: str, room: Path, run: Run) -> None:
    before = _contents(room)
    status, out, err = run(*words.split(), *force.split())
    assert _contents(room) == before
    assert (status, out, err) == (2, [], [f"balisekit: {output}: it is an input: an output never replaces one"])


@pytest.mark.parametrize("columns", ["", "--columns c.toml"])
@pytest.mark.parametrize("words", [*OUTPUTS, *OTHER_OUTPUTS])
def test_nor_does_it_replace_what_a_toml_file_names(words: str, columns: str, project: Path, run: Run) -> None:
    """Whether or not the command uses it, and by any name of the file."""
    if columns:
        (project / "balisekit.toml").unlink()
    before = _contents(project)
    for output in ("plan.csv", "./plan.csv", "soft-plan.csv", "jumps.csv", "hard-jumps.csv"):
        for force in ("", "--force"):
            answer = run(*words.split(), output, *columns.split(), *force.split())
            assert answer == (2, [], [f"balisekit: {output}: it is an input: an output never replaces one"])
    assert _contents(project) == before


@pytest.mark.parametrize("fault", ["", "unknown = 1\n"])
def test_with_columns_the_file_beside_the_table_is_kept_too(fault: str, project: Path, run: Run) -> None:
    """Nobody else reads that file, so nobody reports its unknown key."""
    (project / "c.toml").write_text("group = 'group'\n", "utf-8")
    (project / "balisekit.toml").write_text(f"{STATED['balisekit.toml']}{fault}", "utf-8")
    before = _contents(project)
    for name in STATED:
        status, out, err = run("table", "t.csv", "--columns", "c.toml", "--csv", name, "--force")
        assert (status, out, err) == (2, [], [f"balisekit: {name}: it is an input: an output never replaces one"])
    assert _contents(project) == before


def test_a_toml_file_with_a_fault_loses_nothing(project: Path, run: Run) -> None:
    """A value of [check] is wrong for `check` only, and an unknown key is for all commands."""
    for more, words in (("line_speed = 900\n", "table t.csv --csv"), ("unknown = 1\n", "check t.csv --json")):
        (project / "balisekit.toml").write_text(f"{STATED['balisekit.toml']}{more}", "utf-8")
        before = _contents(project)
        for name in STATED:
            assert run(*words.split(), name, "--force")[:2] == (2, [])
        assert _contents(project) == before


@pytest.mark.parametrize("words, names", OPENED, ids=[words for words, _ in OPENED])
def test_each_file_that_is_opened_is_an_input(
    words: str, names: str, project: Path, run: Run, monkeypatch: pytest.MonkeyPatch
) -> None:
    opened = set()

    def recorded(path: Any, mode: str = "r", *more: Any, **others: Any) -> Any:
        if "r" in mode and os.path.realpath(path).startswith(f"{project}/"):
            opened.add(os.path.basename(path))
        return builtin(path, mode, *more, **others)

    if words.split()[0] in ("draw", "report") or "--html" in words:
        pytest.importorskip("jinja2")
    builtin = open
    with monkeypatch.context() as patched:
        patched.setattr("builtins.open", recorded)
        assert run(*words.split(), "new")[0] in (0, 1)
    assert opened == set(names.replace("TOML", " ".join(STATED)).split())
    before = _contents(project)
    for name in sorted(opened):
        status, out, err = run(*words.split(), name, "--force")
        assert (status, out, err) == (2, [], [f"balisekit: {name}: it is an input: an output never replaces one"])
    assert _contents(project) == before


def test_nor_does_it_replace_the_program_of_the_environment(
    room: Path, run: Run, monkeypatch: pytest.MonkeyPatch
) -> None:
    (room / "ABOUT").write_text("version 1\n", "utf-8")
    before = _contents(room)
    monkeypatch.setenv("BALISECHECK", str(room / "prog"))
    for name in ("prog", "ABOUT"):
        status, _, err = run("check", "t.csv", "--json", name, "--force")
        assert status == 2 and err == [f"balisekit: {name}: it is an input: an output never replaces one"]
    assert _contents(room) == before


def test_nothing_is_appended_to_an_input(room: Path, program: Program) -> None:
    """Standard output is an output as well."""
    before = _contents(room)
    for words in ("check t.csv", "links t.csv --json -", "show --messages m.txt"):
        target = "m.txt" if "m.txt" in words else "t.csv"
        with open(target, "ab") as file:
            answer = _run([*COMMAND, *words.split()], file)
        assert answer == (2, "balisekit: standard output: it is an input: an output never replaces one\n")
        assert _contents(room) == before


@pytest.mark.parametrize(
    "words", ["check t.csv", "links t.csv", "table t.csv --csv new", "diff t.csv u.csv --columns c.toml"]
)
def test_nothing_is_appended_to_what_a_toml_file_names(
    words: str, project: Path, run: Run, monkeypatch: pytest.MonkeyPatch
) -> None:
    before = _contents(project)
    for name in STATED:
        with open(name.replace("balisekit", "c") if "c.toml" in words else name, "a", encoding="utf-8") as file:
            with monkeypatch.context() as patched:
                patched.setattr(sys, "stdout", file)
                answer = run(*words.split())
        assert answer == (2, [], ["balisekit: standard output: it is an input: an output never replaces one"])
    assert _contents(project) == before


def test_nothing_is_appended_to_standard_input(room: Path) -> None:
    (room / "lines.txt").write_text(f"{ALONE}\n", "utf-8")
    before = _contents(room)
    status, said = _run(["sh", "-c", f"{' '.join(COMMAND)} show <lines.txt >>lines.txt"])
    assert (status, said) == (2, "balisekit: standard output: it is an input: an output never replaces one\n")
    assert _contents(room) == before
    assert "is an input" not in _run(["sh", "-c", f"{' '.join(COMMAND)} show </dev/null >/dev/null"])[1]


def _run(command: Sequence[str], stdout: Union[int, IO[bytes]] = subprocess.DEVNULL) -> Tuple[int, str]:
    """The status of a process with balisekit, and what it has written to standard error."""
    known = {**os.environ, "PYTHONPATH": str(TOP / "companion" / "src")}
    done = subprocess.run(command, env=known, stdout=stdout, stderr=subprocess.PIPE, check=False)
    return done.returncode, done.stderr.decode()


@pytest.mark.parametrize("words", OUTPUTS)
def test_an_existing_file_is_replaced_by_force_only(words: str, room: Path, run: Run) -> None:
    pytest.importorskip("openpyxl" if "--xlsx" in words else "jinja2")
    kept = room / "kept"
    kept.write_text("kept", "utf-8")
    kept.chmod(0o640)
    (room / "link").symlink_to("kept")
    for name in ("kept", "link"):
        status, out, err = run(*words.split(), name)
        why = f"balisekit: {name}: it exists already: name a new file, or give --force to replace it"
        assert (status, out, err) == (2, [], [why])
    assert kept.read_bytes() == b"kept"
    assert run(*words.split(), "link", "--force")[0] in (0, 1)
    assert kept.read_bytes() != b"kept" and (kept.stat().st_mode & 0o777) == 0o640
    assert (room / "link").is_symlink() and not list(room.glob(".balisekit-*"))


def test_proposed_entries_replace_nothing_even_by_force(room: Path, run: Run) -> None:
    (room / "kept").write_text("signed", "utf-8")
    for words in ("check t.csv --propose kept", "check t.csv --propose kept --force"):
        status, _, err = run(*words.split())
        why = "balisekit: kept: it exists already: name a new file, so that no entry is lost"
        assert (status, err) == (2, [why]) and (room / "kept").read_text("utf-8") == "signed"


def test_a_write_protected_file_is_kept(room: Path, run: Run) -> None:
    (room / "kept").write_text("kept", "utf-8")
    (room / "kept").chmod(0o444)
    status, _, err = run("check", "t.csv", "--json", "kept", "--force")
    assert (status, err) == (3, ["balisekit: kept: it is write-protected"])
    assert (room / "kept").read_text("utf-8") == "kept"


@pytest.mark.skipif(os.geteuid() != 0, reason="only root can give a file to another user")
def test_the_owner_is_kept(room: Path, run: Run) -> None:
    (room / "kept").write_text("kept", "utf-8")
    os.chown(room / "kept", 12345, 12346)
    assert run("check", "t.csv", "--json", "kept", "--force")[0] == 0
    now = (room / "kept").stat()
    assert (now.st_uid, now.st_gid) == (12345, 12346) and (room / "kept").read_text("utf-8") != "kept"


def test_another_owner_is_refused(room: Path, monkeypatch: pytest.MonkeyPatch) -> None:
    (room / "kept").write_text("kept", "utf-8")
    monkeypatch.setattr(os, "geteuid", lambda: 54321)
    with pytest.raises(NoAnswer, match="kept: it belongs to another user or group"):
        Output("kept").check(force=True)


def test_a_mount_point_is_kept(room: Path) -> None:
    """Before anything is read. A container has such files."""
    (room / "kept 1").write_text("kept", "utf-8")
    mounted = ["unshare", "-m", "sh", "-c", 'mount --bind u.csv "kept 1" && exec "$@"', "sh"]
    if subprocess.run([*mounted, "true"], stderr=subprocess.DEVNULL, check=False).returncode:
        pytest.skip("files cannot be mounted here")
    answer = _run([*mounted, *COMMAND, "check", "t.csv", "--json", "kept 1", "--force"])
    assert answer == (3, "balisekit: kept 1: it is a mount point, which cannot be replaced: name a new file\n")
    assert (room / "u.csv").read_text("utf-8") == TABLE and not list(room.glob(".balisekit-*"))


@pytest.mark.parametrize("name", ["loop", ".", "/dev/null", "pipe"])
def test_what_is_no_file_is_refused(name: str, room: Path, run: Run) -> None:
    (room / "loop").symlink_to("loop")
    os.mkfifo(room / "pipe")
    status, _, err = run("check", "t.csv", "--json", name, "--force")
    assert status == 3 and err[0].startswith(f"balisekit: {name}: no file can be written there: it is a folder, ")


def test_of_two_commands_at_once_one_writes(room: Path) -> None:
    """Both have found no file, and the second one does not replace that of the first."""
    first, second = Output("new"), Output("new")
    check_outputs([first], False)
    check_outputs([second], False)
    with pytest.raises(TableError, match="new: another command has just written it"):
        with placing([second], False):
            second.write(["second"])
            with placing([first], False):
                first.write(["first"])
    assert (room / "new").read_text("utf-8") == "first" and not list(room.glob(".balisekit-*"))


@pytest.mark.parametrize(
    "words, limit, stdout",
    [
        ("check t.csv --document ok.json --json big.json", 1, "/dev/null"),
        ("check t.csv --junit ok.xml --json ok.json", 1000, "/dev/full"),
        ("check t.csv --junit ok.xml --json none/x.json", 1000, "/dev/null"),
        ("check t.csv --junit ok.xml --json ok.json --program /bin/false", 1000, "/dev/null"),
    ],
)
def test_all_outputs_or_none(words: str, limit: int, stdout: str, room: Path) -> None:
    """A file that cannot be written, a closed stream and a program without an answer leave no other file."""
    before = _contents(room)
    with open(stdout, "wb") as file:
        status, said = _run(["bash", "-c", f"ulimit -f {limit}; {' '.join(COMMAND)} {words}"], file)
    assert status == 3 and said.startswith("balisekit: ") and _contents(room) == before


def test_standard_output_takes_more_than_is_kept_in_memory(
    room: Path, run: Run, monkeypatch: pytest.MonkeyPatch
) -> None:
    kept = run("check", room / "t.csv", "--json", "-")
    monkeypatch.setattr("balisekit.io.outputs.IN_MEMORY", 10)
    assert run("check", room / "t.csv", "--json", "-") == kept and json.loads("\n".join(kept[1]))["telegrams"]


def test_two_outputs_in_one_place_are_refused(room: Path, run: Run) -> None:
    (room / "folder").symlink_to(".")
    status, _, err = run("check", "t.csv", "--json", "new", "--junit", "folder/new")
    assert (status, err) == (2, ["balisekit: folder/new: it is named twice"])


@pytest.mark.parametrize("number, status", [(signal.SIGTERM, 143), (signal.SIGHUP, 129), (signal.SIGINT, 130)])
def test_signals_leave_nothing(
    number: signal.Signals, status: int, room: Path, tmp_path_factory: pytest.TempPathFactory
) -> None:
    """No output, no temporary file, no program that runs on, and a line that says why."""
    before = _contents(room)
    program = tmp_path_factory.mktemp("program") / "stand"
    program.write_text(STAND, "utf-8")
    program.chmod(0o755)
    words = [*COMMAND, "check", "t.csv", "--json", "out.json", "--program", str(program)]
    known = {**os.environ, "PYTHONPATH": str(TOP / "companion" / "src")}
    with subprocess.Popen(
        words,
        env=known,
        stdout=subprocess.PIPE,
        stderr=subprocess.PIPE,
        preexec_fn=lambda: signal.signal(number, signal.SIG_DFL) and None,  # (nohup, and a shell, have some ignored)
    ) as process:
        started = _waited_for(program.with_name("stand.started"))
        process.send_signal(number)
        _, said = process.communicate(timeout=20)
    why = "interrupted" if number == signal.SIGINT else f"ended by {number.name}"
    assert (process.returncode, said.decode()) == (status, f"balisekit: {why}\n")
    assert _contents(room) == before
    with pytest.raises(ProcessLookupError):
        for _ in range(100):
            os.kill(int(started), 0)
            time.sleep(0.05)


STAND = """#!/bin/sh
case "$*" in
check) cat >/dev/null; echo 'yes: groups 0, messages 0'; exit 0 ;;
--version) echo 'refused: usage is balisecheck check, decode [--radio] or encode [--radio]'; exit 2 ;;
esac
echo $$ >"$0.part"
mv "$0.part" "$0.started"
exec sleep 60
"""


def _waited_for(path: Path) -> str:
    for _ in range(400):
        if path.exists():
            return path.read_text("utf-8")
        time.sleep(0.05)
    raise AssertionError("the program was not started")


def test_a_signal_while_a_page_is_written_leaves_no_temporary_file(room: Path) -> None:
    """The output is a temporary file by then."""
    code = (
        "import os, signal, sys\n"
        "from balisekit.cli import main, check\n"
        "def run(options):\n"
        "    def pieces():\n"
        "        yield 'begun'\n"
        "        assert [name for name in os.listdir() if name.startswith('.balisekit-')]\n"
        "        os.kill(os.getpid(), signal.SIGTERM)\n"
        "        yield 'more'\n"
        "    options.json.write(pieces())\n"
        "check.run = run\n"
        "sys.exit(main.main(['check', 't.csv', '--json', 'new']))\n"
    )
    before = _contents(room)
    assert _run([sys.executable, "-c", code]) == (143, "balisekit: ended by SIGTERM\n")
    assert _contents(room) == before


def test_a_signal_that_is_ignored_stays_ignored(room: Path) -> None:
    """As below nohup."""
    code = "import os, signal; from balisekit.cli import main; main.main(['check', 't.csv', '--json', 'new'])"
    before = set(_contents(room))
    words = ["nohup", sys.executable, "-c", code.replace("main.main", "os.kill(os.getpid(), signal.SIGHUP); main.main")]
    assert _run(words)[0] == 0 and set(_contents(room)) - before == {"new"}


def test_json_has_a_result_a_line(room: Path) -> None:
    output = Output("new.json")
    members = {"status": 0, "list": [{"a": 1}, Json('{"b":2}')], "none": [], "some": iter(["x"]), "text": "\udc80ä"}
    with placing([output], False):
        write_json(output, members)
    text = (room / "new.json").read_text("utf-8")
    assert text == (
        '{\n"status": 0,\n"list": [\n{"a":1},\n{"b":2}\n],\n"none": [],\n"some": [\n"x"\n],\n"text": "\\udc80ä"\n}\n'
    )
    assert json.loads(text)["list"] == [{"a": 1}, {"b": 2}]

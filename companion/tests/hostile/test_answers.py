"""Programs that answer what balisecheck never writes, too late, too much or not at all: no answer, and status 3."""
from __future__ import annotations

import json
import os
import signal
import subprocess
import time
from dataclasses import replace
from pathlib import Path
from types import SimpleNamespace
from typing import Callable, List, Optional

import pytest
from cases_of_program import TOP
from conftest import Run
from fakes import RECORD, fake
from telegrams import ALONE, MESSAGE, OTHER, SPARE

from balisekit.engine import run as process
from balisekit.engine.grammar import Refusal
from balisekit.engine.program import Program
from balisekit.engine.run import Limit
from balisekit.errors import NoAnswer

Write = Callable[..., Path]
Answers = Callable[..., List[str]]

TELEGRAM = json.loads(RECORD)
PACKET = {"nid_packet": 21, "q_dir": 1, "q_scale": 1, "elements": [{"d_gradient": 0, "q_gdir": 1, "g_a": 5}]}
AUTHORITY = (
    '{"m_ack":0,"nid_bg":1,"nid_c":1,"nid_message":3,"packets":[{"end_speed":0,"end_timeout":1023,"l_endsection":1000,'
    '"nid_packet":15,"q_dir":1,"q_scale":1,"sections":[]}],"t_train":100}'
)


def line(**keys: object) -> str:
    """A record with some keys changed, and without those that are None."""
    form = {**TELEGRAM, **keys}
    form = {key: value for key, value in form.items() if value is not None}
    return json.dumps(form, sort_keys=True, separators=(",", ":"))


def packet(**keys: object) -> str:
    """A record with a packet of which some keys are changed."""
    changed = {key: value for key, value in {**PACKET, **keys}.items() if value is not None}
    return line(packets=[changed])


RECORDS = [
    "garbage",
    "",
    "{}",
    "[]",
    "null",
    "0",
    '"text"',
    "[" * 5000,
    "[" * 5000 + "]" * 5000,
    line(n_pig=8),
    line(n_pig=-1),
    line(n_pig=None),
    line(n_pig=True),
    line(n_pig="0"),
    line(n_pig=[0]),
    line(n_pig=0.5),
    line(x=1),
    line(nid_c=None),
    line(nid_bg=16_384),
    line(m_version=16),
    line(user_bits=211),
    line(packets=None),
    line(packets={}),
    line(packets=[[]]),
    line(packets=[{}]),
    line().replace('"nid_c":1023', '"nid_c":' + "1" * 5000),
    line().replace('"nid_c":1023', '"nid_c":NaN'),
    line().replace('"nid_c":1023', '"nid_c":1e3'),
    line().replace('"nid_c":1023', '"nid_c":01023'),
    line().replace('"n_pig":0', '"n_pig":0,"n_pig":1'),
    line()[:-1],
    line() + " ",
    packet(nid_packet=255),
    packet(nid_packet=22),
    packet(q_dir=3),
    packet(q_scale=None),
    packet(elements=[]),
    packet(elements=[{"d_gradient": 0, "q_gdir": 1, "g_a": 5}] * 33),
    packet(elements=[{"d_static": 0, "v_static": 0, "q_front": 0, "differences": []}]),
    line(packets=[{"nid_packet": 136, "q_dir": 1, "l_packet": 38, "body": "012"}]),
    line(packets=[{"nid_packet": 136, "q_dir": 1, "l_packet": 22, "body": ""}]),
    line(packets=[{"nid_packet": 41, "q_dir": 1, "q_scale": 1, "d_leveltr": 0, "transitions": [{"m_leveltr": 1}]}]),
]
"""What `decode` answers to each telegram."""
MESSAGES = [
    "garbage",
    "{}",
    "[]",
    AUTHORITY.replace('"nid_message":3', '"nid_message":4'),
    AUTHORITY.replace('"nid_packet":15', '"nid_packet":16'),
    AUTHORITY.replace('"nid_bg":1,', ""),
    RECORD,
]
"""What `decode --radio` answers to a message."""
FINDINGS = [
    "F9 group 0 balise 0 packet 500: packet not modelled",
    "F9 group 0 balise 0 packet 0: packet not modelled",
    "F1 group 0 balise 7: position wrong",
    "F1 group 2 balise 0: position wrong",
    "F1 group 0 aspect 0 balise 0: position wrong",
    "F1 group 0 aspect 1 balise 0: position wrong",
    "F10 group 0 aspect 0 nominal: no gradient",
    "F10 message 0 nominal: no gradient",
    "F9 message 0 packet 0: packet not modelled",
    "F14 group 0: identity used before",
    "F14 group 2: identity used before",
    "F15 group 0 balise 0: marks differ between aspects",
    "F16 group 0 balise 0: aspects not told apart",
    f"F14 group {'9' * 5000}: identity used before",
    f"F14 group {'9' * 18}: identity used before",
    "F99 group 0: identity used before",
    "garbage",
]
"""A finding in a line of two groups that have one telegram without a packet each."""
REPORTS = [
    "yes: groups 1, messages 0",
    f"yes: groups {'9' * 5000}, messages 0",
    "yes: groups 2, messages 0\\nF6 group 0 balise 0: counter 254",
    f"no: findings {'9' * 5000}\\nF6 group 0 balise 0: counter 254",
    "no: findings 2\\nF6 group 0 balise 0: counter 254\\nF6 group 0 balise 0: counter 254",
    "no: findings 0",
    "refused: group 0 balise 0: spare at 15 end 17\\nF6 group 0 balise 0: counter 254",
    f"refused: group 0 balise 0: spare at {'9' * 5000} end 17",
    "refused: form missing key at /groups",
]
"""A report on two groups."""
COMMANDS = [
    "check {t} --json {out}",
    "check {t} --by-position",
    "show {t}",
    "show {t} --bits",
    "links {t}",
    "report {t} --html {out}",
    "draw {t} --group A --svg {out}",
    "draw {t} --track --svg {out}",
    "diff {t} {u}",
]
"""Commands that need records."""


def begin_of(text: str) -> str:
    """The name of a case."""
    return text[:60] or "empty"


@pytest.fixture
def answers(tmp_path: Path, run: Run, table: Callable[..., Path]) -> Answers:
    """Standard error of a command with a program that does this. Its status is 3, and it says nothing else."""
    paths = {
        "t": table("group,km,nominal,telegram", f"A,1,rising,{ALONE}", f"B,2,rising,{OTHER}"),
        "u": table("group,km,nominal,telegram", f"A,1,rising,{ALONE}", f"B,3,rising,{ALONE}", name="u.csv"),
        "m": table(MESSAGE, name="m.txt"),
        "out": tmp_path / "out",
    }

    def of(command: str, does: str, first: str = "") -> List[str]:
        program = fake(tmp_path / "fake", does, first)
        words = [word.format(**paths) for word in command.split()]
        status, out, errors = run(*words, "--program", program)
        assert (status, [word for word in out if "row" in word]) == (3, []) and not (tmp_path / "out").exists()
        assert len(errors) == 1 and len(errors[0]) < 400 + len(str(tmp_path))
        assert "an error of balisekit itself" not in errors[0] and str(program) in errors[0]
        return errors

    return of


def decoding(answer: str, radio: str = AUTHORITY) -> str:
    """Lines of a shell: a program that has a record for each line, and yes for each document."""
    return (
        f'case "$*" in\ndecode) {{ echo "$line"; cat; }} | while read -r _; do cat <<\'END\'\n'
        f"{answer}\nEND\ndone; exit 0 ;;\n*radio) cat <<'END'\n{radio}\nEND\nexit 0 ;;\n"
        "check) echo 'yes: groups 2, messages 0'; exit 0 ;;\nesac"
    )


@pytest.mark.uncovered
@pytest.mark.parametrize("record", RECORDS, ids=begin_of)
def test_a_record_that_is_none(record: str, answers: Answers) -> None:
    assert "no answer of " in answers("check {t} --json {out}", decoding(record))[0]


@pytest.mark.uncovered
@pytest.mark.parametrize("command", COMMANDS)
@pytest.mark.parametrize("record", ["garbage", "{}", line(nid_c=None), line(packets=[{}])])
def test_a_record_that_is_none_in_each_command(command: str, record: str, answers: Answers) -> None:
    counted = "its counts are wrong" if "--group" in command else ": decode: no record of a telegram: "
    assert counted in answers(command, decoding(record))[0]


@pytest.mark.parametrize("command", ["check {t} --json -", "diff {t} {t} --json -", "report {t} --html -"])
def test_standard_output_gets_no_part_of_an_answer(command: str, tmp_path: Path, run: Run, table: Write) -> None:
    program, path = fake(tmp_path / "fake", decoding("garbage")), table("group,telegram", f"A,{ALONE}", f"B,{OTHER}")
    status, out, errors = run(*command.format(t=path).split(), "--program", program)
    assert (status, out) == (3, []) and "no record of a telegram" in errors[0]


@pytest.mark.parametrize("record", MESSAGES, ids=begin_of)
def test_a_message_that_is_none(record: str, answers: Answers) -> None:
    assert "no record of a message" in answers("show --messages {m}", decoding(RECORD, record))[0]


@pytest.mark.parametrize("finding", FINDINGS, ids=begin_of)
def test_a_finding_of_what_was_not_handed_in(finding: str, answers: Answers) -> None:
    does = decoding(RECORD).replace("yes: groups 2, messages 0'; exit 0", f"no: findings 1'; echo '{finding}'; exit 1")
    assert "no answer of " in answers("check {t}", does)[0]


@pytest.mark.parametrize("report", REPORTS, ids=begin_of)
def test_a_report_that_is_none(report: str, answers: Answers) -> None:
    status = {"y": 0, "n": 1, "r": 2}[report[0]]
    does = decoding(RECORD).replace("echo 'yes: groups 2, messages 0'; exit 0", f"printf '{report}\\n'; exit {status}")
    assert "no answer of " in answers("check {t}", does)[0]


SLEEPERS = [
    ("", "sleep 60"),
    ("", "exec >&- 2>&-; sleep 60"),
    ("", "sleep 60 & exit 0"),
    ("sleep 60", ""),
    ("exec >&- 2>&-; sleep 60", ""),
    ("sleep 60 & exit 0", ""),
]
"""What a program does before the handshake, and after it."""


@pytest.fixture
def impatient(monkeypatch: pytest.MonkeyPatch) -> None:
    """Limits of less than a second in place of those of a minute."""
    monkeypatch.setattr("balisekit.engine.program.HANDSHAKE_LIMIT", Limit(0.4, process.HANDSHAKE_LIMIT.size))
    monkeypatch.setattr(process, "LEAST_SECONDS", 0.4)
    monkeypatch.setattr(process, "PAUSE", 0.1)


@pytest.mark.parametrize("command", ["check {t}", "show {t}", "check {t} --messages {m}", "show --messages {m}"])
@pytest.mark.parametrize("first, does", SLEEPERS)
@pytest.mark.usefixtures("impatient")
def test_a_program_that_does_not_end(command: str, first: str, does: str, answers: Answers) -> None:
    begin = time.monotonic()
    error = answers(command, does, first)[0]
    assert "it has not ended within 0.4 s" in error or "another process keeps its output open" in error
    assert time.monotonic() - begin < 20


FLOODS = [
    ("yes 'F6 group 0 balise 0: counter 254'", ""),
    ("yes 'yes: groups 0, messages 0'", ""),
    ("head -c 9000000 /dev/zero; sleep 60", ""),
    ("yes >&2", ""),
    ("", "yes 'F6 group 0 balise 0: counter 254'"),
    ("", "echo 'no: findings 999999999999'; yes 'F6 group 0 balise 0: counter 254'"),
    (
        "",
        "echo 'no: findings 999999999999'; i=0; "
        ' while :; do echo "F14 group $i: identity used before"; i=$((i + 1)); done',
    ),
    ("", "yes garbage"),
    ("", "yes '{}'"),
    ("", "cat /dev/zero"),
    ("", "yes >&2"),
    ("", f"yes '{RECORD}'"),
]


@pytest.mark.uncovered
@pytest.mark.parametrize("command", ["check {t}", "show {t}", "check {t} --messages {m}"])
@pytest.mark.parametrize("first, does", FLOODS)
def test_a_flood(command: str, first: str, does: str, answers: Answers) -> None:
    begin = time.monotonic()
    assert "no answer of " in answers(command, does, first)[0] or first
    assert time.monotonic() - begin < 20


@pytest.mark.parametrize("number", [signal.SIGINT, signal.SIGTERM, signal.SIGHUP])
@pytest.mark.parametrize("command", ["check {t} --json {out}", "show {t}"])
def test_a_signal_ends_the_program(number: signal.Signals, command: str, tmp_path: Path, table: Write) -> None:
    """Its children too. Nothing is left, although they have a process group of their own."""
    program = fake(
        tmp_path / "fake", f"sleep 60 & echo $! $$ > {tmp_path}/pids.new; mv {tmp_path}/pids.new {tmp_path}/pids; wait"
    )
    path = table("group,telegram", f"A,{ALONE}")
    words = [word.format(t=path, out=tmp_path / "out") for word in command.split()]
    run = subprocess.Popen(
        [str(TOP / "balisekit"), *words, "--program", str(program)],
        stderr=subprocess.PIPE,
        preexec_fn=lambda: signal.signal(number, signal.SIG_DFL) and None,  # (nohup, and a shell, have some ignored)
    )
    until = time.monotonic() + 60
    while not (tmp_path / "pids").exists() and time.monotonic() < until:
        time.sleep(0.01)
    run.send_signal(number)
    _, errors = run.communicate(timeout=60)
    assert errors.startswith(b"balisekit: ") and errors.count(b"\n") == 1 and run.returncode > 2
    pids = (tmp_path / "pids").read_text().split()
    until = time.monotonic() + 10  # (those that are killed need a moment, and "sleep" takes a minute)
    while any(map(is_running, pids)) and time.monotonic() < until:
        time.sleep(0.01)
    assert not any(map(is_running, pids)) and not (tmp_path / "out").exists()


def is_running(pid: str) -> bool:
    """Whether a process is there, and has not ended."""
    try:
        return ") Z " not in Path(f"/proc/{pid}/stat").read_text()
    except FileNotFoundError:
        return False


def test_a_line_as_long_as_a_file(answers: Answers) -> None:
    error = answers("check {t}", "head -c 9000000 /dev/zero | tr '\\0' x")[0]
    assert error.endswith(": check: a line of more than 4 MiB")


def test_a_timeout_that_the_user_names(tmp_path: Path) -> None:
    program = replace(Program.find(str(fake(tmp_path / "fake", "sleep 60"))), timeout=0.5)
    begin = time.monotonic()
    with pytest.raises(NoAnswer, match="it has not ended within 0.5 s; --timeout SECONDS allows more"):
        program.check({"groups": [], "messages": [""]})
    assert time.monotonic() - begin < 10


@pytest.mark.parametrize("command", COMMANDS)
def test_the_timeout_of_each_command(command: str, answers: Answers) -> None:
    assert "it has not ended within 0.2 s" in answers(command + " --timeout 0.2", "sleep 60")[0]


@pytest.mark.parametrize("text", ["", "0", "0.0", "-1", "1e9", "nan", "inf", "1234567", "a minute", "²"])
def test_a_timeout_that_is_none(text: str, run: Run) -> None:
    status, _, errors = run("check", "t.csv", f"--timeout={text}")
    assert status == 2 and "is no time in seconds: write 600 or 2.5" in errors[-1]


def test_only_waiting_counts(program: Program, monkeypatch: pytest.MonkeyPatch) -> None:
    """A reader may take longer for the lines than the program has for them: 30 s by this clock, and between two pieces
    of output more than what counts at once."""
    late = 0.0
    monkeypatch.setattr(process, "time", SimpleNamespace(monotonic=lambda: time.monotonic() + late, sleep=time.sleep))
    lines = 0
    for _ in replace(program, timeout=5).decode([ALONE] * 3000):
        lines += 1
        late += 0.01
    assert lines == 3000


def test_a_stopped_balisekit_does_not_count(tmp_path: Path) -> None:
    """A terminal may stop balisekit for an hour, and the program goes on."""
    path = fake(tmp_path / "fake", "")
    with open(path, "rb") as nothing, process.Run(str(path), ["check"], nothing, Limit(10)) as run:
        run._count(time.monotonic() - 3600)
        assert list(run.lines()) == [] and run.status == 0


def test_an_interrupt_just_when_the_end_is_known(tmp_path: Path, monkeypatch: pytest.MonkeyPatch) -> None:
    """It stays an interrupt, and the process is reaped."""

    def interrupt(self: process.Run, status: Optional[int]) -> None:
        if status is not None:
            raise KeyboardInterrupt

    monkeypatch.setattr(process.Run, "status", property(lambda self: None, interrupt), raising=False)
    path = fake(tmp_path / "fake", "")
    with pytest.raises(KeyboardInterrupt):
        with open(path, "rb") as nothing, process.Run(str(path), ["check"], nothing, Limit(10)) as run:
            list(run.lines())
    with pytest.raises(ChildProcessError):
        os.waitpid(run._pid, 0)


def test_the_timeout_holds_for_the_handshake(tmp_path: Path, monkeypatch: pytest.MonkeyPatch) -> None:
    """Be it shorter or longer than what balisekit waits without it."""
    sleeper = str(fake(tmp_path / "sleeper", "", "sleep 60"))
    with pytest.raises(NoAnswer, match="check: it has not ended within 0.2 s; --timeout SECONDS allows more"):
        Program.find(sleeper, timeout=0.2)
    monkeypatch.setattr("balisekit.engine.program.HANDSHAKE_LIMIT", Limit(0.2, process.HANDSHAKE_LIMIT.size))
    with pytest.raises(NoAnswer, match="it has not ended within 0.2 s"):
        Program.find(sleeper)
    slow = str(fake(tmp_path / "slow", "", "sleep 0.5"))
    assert Program.find(slow, timeout=60).timeout == 60


def test_output_that_comes_just_before_the_end(tmp_path: Path, monkeypatch: pytest.MonkeyPatch) -> None:
    """A program writes and ends after balisekit has found nothing to read, and before it looks at the process."""
    monkeypatch.setattr(process, "PAUSE", 0.01)
    monkeypatch.setattr(os, "waitid", lambda kind, pid, options, wait=os.waitid: wait(kind, pid, options & ~os.WNOHANG))
    path = tmp_path / "slow"
    path.write_text("#!/bin/sh\nsleep 0.3\necho line\n")
    path.chmod(0o755)
    with open(path, "rb") as nothing, process.Run(str(path), ["check"], nothing, Limit(60)) as run:
        assert list(run.lines()) == ["line"] and run.status == 0


def test_a_program_that_trickles(tmp_path: Path) -> None:
    found = Program.find(str(fake(tmp_path / "fake", "while :; do printf x; sleep 0.1; done")))
    program = replace(found, timeout=0.5)
    with pytest.raises(NoAnswer, match="it has not ended within"):
        list(program.decode([ALONE]))


def test_a_program_that_is_a_pipe(tmp_path: Path, run: Run, table: Write) -> None:
    """It is not opened: nobody writes into it."""
    os.mkfifo(tmp_path / "pipe", 0o755)
    error = [f"balisekit: there is no program {tmp_path}/pipe"]
    assert run("check", table("group,telegram", f"A,{ALONE}"), "--program", tmp_path / "pipe") == (3, [], error)


def test_many_refused_lines(program: Program, monkeypatch: pytest.MonkeyPatch) -> None:
    """Several at a time, in their order, each as a run by itself has it."""
    monkeypatch.setattr("balisekit.engine.program.FEW", 2)
    monkeypatch.setattr("balisekit.engine.program.PART", 3)
    telegrams = [ALONE, SPARE, OTHER, "zz", SPARE[:-2], *([SPARE] * 7), ALONE, *([OTHER] * 8), "z"]
    answers = [(type(answer), getattr(answer, "text", answer.line)) for answer in program.decode(telegrams)]
    alone = [next(program.decode([text])) for text in telegrams]
    assert answers == [(type(answer), getattr(answer, "text", answer.line)) for answer in alone]
    messages = [MESSAGE, "0304", "z", MESSAGE, *([MESSAGE[:-2]] * 9), MESSAGE, "0400c0"]
    texts = [getattr(answer, "text", "read") for answer in program.messages(messages)]
    assert texts == [getattr(next(program.messages([text])), "text", "read") for text in messages]
    few = list(program.messages(messages, most=5))
    assert len(few) == 7 and sum(isinstance(answer, Refusal) for answer in few) == 5


def test_a_reader_that_stops(tmp_path: Path) -> None:
    """No process goes on for a reader that wants no more answers."""
    does = (
        f"read -r line; echo $$ >> {tmp_path}/pids; case $line in *) echo 'refused: line 1: wrong size'; exit 2 ;; esac"
    )
    program = Program.find(str(fake(tmp_path / "fake", f'case "$*" in decode) {does} ;; esac')))
    answers = program.decode([ALONE] * 5000)
    assert [next(answers) for _ in range(100)]
    del answers  # (which ends it)
    count = len((tmp_path / "pids").read_text().split())
    time.sleep(0.3)
    assert count < 1500 and count == len((tmp_path / "pids").read_text().split())


def test_memory_that_is_refused_while_a_table_is_read(run: Run, table: Write, monkeypatch: pytest.MonkeyPatch) -> None:
    """The line is a sentence that names what can be done."""

    def refuse(*_: object, **__: object) -> None:
        raise MemoryError

    monkeypatch.setattr("balisekit.tables.csv.read", refuse)
    why = "the system refused memory, so there is no answer: give the process more, or check fewer rows at a time"
    status, out, err = run("check", table("group,telegram", f"A,{ALONE}"))
    assert (status, out) == (3, []) and err[-1].endswith(f"balisekit: {why}"), err

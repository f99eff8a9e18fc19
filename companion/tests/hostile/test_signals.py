"""SIGINT, SIGTERM and SIGHUP at any moment: the status of the signal and no output, or the whole answer."""
from __future__ import annotations

import os
import re
import signal
import subprocess
import sys
import time
import weakref
from pathlib import Path
from typing import Dict, List, Tuple

import pytest
from cases_of_program import TOP
from telegrams import ALONE, OTHER

from balisekit.cli import main as cli
from balisekit.cli.signals import Signals
from balisekit.errors import Terminated

pytestmark = pytest.mark.uncovered
MOMENTS = 50
SAID = {signal.SIGINT: "interrupted", signal.SIGTERM: "ended by SIGTERM", signal.SIGHUP: "ended by SIGHUP"}
WORDS = "check t.csv --json o.json --junit o.xml --document o.d.json --sarif old.sarif --force"
Contents = Dict[str, bytes]


def contents(room: Path) -> Contents:
    """All files of the folder, without the times that JUnit has of a run."""
    return {path.name: re.sub(rb' time="[0-9.]+"', b"", path.read_bytes()) for path in room.iterdir()}


def ran(command: str, room: Path, number: signal.Signals, moment: float) -> Tuple[int, str, float]:
    """Status and errors of a command that gets a signal at this moment, and for how long it ran."""
    known = {**os.environ, "SOURCE_DATE_EPOCH": "1700000000", "BALISEKIT_PYTHON": sys.executable}
    begin = time.monotonic()
    with subprocess.Popen(
        [command, *WORDS.split()],
        cwd=room,
        env=known,
        stdout=subprocess.DEVNULL,
        stderr=subprocess.PIPE,
        preexec_fn=lambda: signal.signal(number, signal.SIG_DFL) and None,  # (a shell may have it ignored)
    ) as process:
        time.sleep(moment)
        process.send_signal(number)
        _, errors = process.communicate(timeout=120)
    return process.returncode, errors.decode(), time.monotonic() - begin


@pytest.mark.slow
@pytest.mark.parametrize("number", SAID, ids=[number.name for number in SAID])
def test_at_fifty_moments(number: signal.Signals, command: str, tmp_path: Path) -> None:
    """From the start to the end. A process that the system ends has the status that a shell reports as 128 + n."""
    (tmp_path / "t.csv").write_text(f"group,km,telegram\nA,1.0,{ALONE}\nB,2.0,{OTHER}\n", "utf-8")
    (tmp_path / "old.sarif").write_text("before", "utf-8")
    before, seconds = contents(tmp_path), 0.0
    status, errors, seconds = ran(command, tmp_path, signal.SIGCONT, 0)
    after = contents(tmp_path)
    assert (status, errors) == (0, "") and len(after) == len(before) + 3 and after["old.sarif"] != b"before"
    seen: List[int] = []
    for moment in range(MOMENTS):
        for name in after:
            (tmp_path / name).write_bytes(before[name]) if name in before else (tmp_path / name).unlink(missing_ok=True)
        status, errors, _ = ran(command, tmp_path, number, 1.2 * seconds * moment / MOMENTS)
        assert (status, errors) in [(0, ""), (-number, ""), (128 + number, f"balisekit: {SAID[number]}\n")], moment
        assert contents(tmp_path) == (after if status == 0 else before), (moment, status)
        seen.append(status)
    assert seen[0] == -number


ENDED_IMPORT = """
import os, signal, sys
from balisekit.cli.main import main

class Finder:
    def find_spec(self, name, *_):
        if name == "numbers":  # (which decimal imports while it is imported itself)
            os.kill(os.getpid(), signal.SIGTERM)

assert "numbers" not in sys.modules
sys.meta_path.insert(0, Finder())
sys.exit(main(["check", "t.csv"]))
"""


def test_a_signal_while_modules_are_imported() -> None:
    """It waits for them: the library of decimal writes a warning if its import is begun, left and begun again."""
    environment = {**os.environ, "PYTHONPATH": str(TOP / "companion" / "src")}
    ended = subprocess.run([sys.executable, "-c", ENDED_IMPORT], env=environment, capture_output=True)
    assert (ended.returncode, ended.stderr) == (128 + signal.SIGTERM, b"balisekit: ended by SIGTERM\n")


def test_a_signal_in_a_destructor(capsys: pytest.CaptureFixture[str]) -> None:
    """Python raises nothing from there, and would write a traceback. The command ends by it before its outputs."""
    with pytest.raises(Terminated), Signals(False) as signals:

        def send(_: object) -> None:
            signal.raise_signal(signal.SIGTERM)

        kept = type("Kept", (), {})()
        watch = weakref.ref(kept, send)
        del kept
        assert watch() is None
        signals.done()
    assert capsys.readouterr().err == ""


def test_signals_are_as_before() -> None:
    """In a process that goes on, handlers and mask are those of before, and what came after the end is dropped."""
    handlers = [signal.getsignal(number) for number in SAID]
    with Signals(False) as signals:
        assert signal.getsignal(signal.SIGTERM) not in handlers
        signals.done()
        signal.raise_signal(signal.SIGTERM)
    assert [signal.getsignal(number) for number in SAID] == handlers
    assert not {*SAID} & signal.pthread_sigmask(signal.SIG_BLOCK, [])


def test_an_interrupt_is_status_130(monkeypatch: pytest.MonkeyPatch, capsys: pytest.CaptureFixture[str]) -> None:
    """Also if it comes before a command handles it."""

    def interrupted(*_: object) -> None:
        raise KeyboardInterrupt

    monkeypatch.setattr(cli, "parser", interrupted)
    assert cli.main(["check"]) == 130 and capsys.readouterr().err == "balisekit: interrupted\n"


@pytest.mark.parametrize("number", SAID, ids=[number.name for number in SAID])
def test_a_signal_while_a_class_is_made(
    number: signal.Signals, monkeypatch: pytest.MonkeyPatch, capsys: pytest.CaptureFixture[str]
) -> None:
    """Python before 3.12 turns what is raised there into a RuntimeError. Modules make classes while they load."""

    class Named:
        """An attribute whose name a class tells it."""

        def __set_name__(self, *_: object) -> None:
            signal.raise_signal(number)

    monkeypatch.setattr(cli, "parser", lambda _: type("Made", (), {"named": Named()}))
    before = signal.signal(number, signal.SIG_DFL)  # (a shell may have it ignored)
    try:
        assert cli.main(["check"]) == 128 + number and capsys.readouterr().err == f"balisekit: {SAID[number]}\n"
    finally:
        signal.signal(number, before)

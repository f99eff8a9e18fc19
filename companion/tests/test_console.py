"""A terminal gets colours and a sign of life. A pipe or file gets the plain lines."""
from __future__ import annotations

import os
import pty
import re
import shlex
import subprocess
import sys
import time
from concurrent.futures import ThreadPoolExecutor
from functools import lru_cache
from pathlib import Path
from typing import Any, Dict, List, Tuple

import pytest
from cases_of_program import TOP

from balisekit.cli import console
from balisekit.engine.program import Program

LINE = "examples/table/line.csv"
STARTED = [sys.executable, "-m", "balisekit"]
CLAIMED = """import sys
from balisekit.cli.main import main
for name in sys.argv.pop(1).split():
    getattr(sys, name).isatty = lambda: True
sys.exit(main())
"""
"""It starts balisekit with streams that claim to be terminals."""
OURS = {"PYTHONPATH": str(TOP / "companion" / "src"), "TERM": "xterm", "NO_COLOR": ""}
CODES = re.compile("\x1b\\[[0-9;]*[mK]")


def _terminal(*streams: str) -> Tuple[int, int, List[str]]:
    """Both ends of a terminal, and what starts balisekit on it. Without a devpts it is a pipe that claims to be one."""
    try:
        return (*pty.openpty(), STARTED)
    except OSError:
        return (*os.pipe(), [sys.executable, "-c", CLAIMED, " ".join(streams)])


def _on_terminal(words: List[str], more: Dict[str, str], *streams: str) -> Tuple[int, str, str]:
    """The status, what the terminal shows, and what other streams get. `streams` are those of the terminal."""
    ours, theirs, started = _terminal(*streams)
    chosen = {name: theirs if name in streams else subprocess.PIPE for name in ("stdout", "stderr")}
    known = {**os.environ, **OURS, **more}
    with subprocess.Popen([*started, *words], cwd=TOP, env=known, **chosen) as process:  # type: ignore
        os.close(theirs)
        shown = b""
        while True:
            try:
                piece = os.read(ours, 1 << 16)
            except OSError:  # (Linux, when the other side is closed)
                break
            if not piece:
                break
            shown += piece
        rest = b"".join(pipe.read() for pipe in (process.stdout, process.stderr) if pipe)
    os.close(ours)
    return process.returncode, shown.decode().replace("\r\n", "\n"), rest.decode()


@lru_cache(maxsize=None)
def _in_pipe(*words: str) -> str:
    known = {**os.environ, **OURS}
    return subprocess.run([*STARTED, *words], cwd=TOP, env=known, stdout=subprocess.PIPE, check=False).stdout.decode()


def test_a_terminal_gets_the_lines_in_colours() -> None:
    """They are the lines that a pipe gets, including long ones."""
    pytest.importorskip("rich")
    status, shown, _ = _on_terminal(["check", LINE], {}, "stdout")
    plain = _in_pipe("check", LINE)
    assert status == 2 and "\x1b[" in shown and CODES.sub("", shown) == plain and "\x1b" not in plain


@pytest.mark.parametrize("more", [{"NO_COLOR": "1"}, {"TERM": "dumb"}, {"TERM": "dumb", "NO_COLOR": "1"}])
def test_a_terminal_without_colours(more: Dict[str, str]) -> None:
    assert _on_terminal(["check", LINE], more, "stdout")[1] == _in_pipe("check", LINE)


def test_a_pipe_beside_a_terminal_is_plain() -> None:
    _, _, rest = _on_terminal(["check", LINE], {}, "stderr")
    assert rest == _in_pipe("check", LINE)


@pytest.mark.parametrize("more, shows", [({}, True), ({"NO_COLOR": "1"}, True), ({"TERM": "dumb"}, False)])
def test_a_long_command_shows_its_seconds(more: Dict[str, str], shows: bool, program: Program, tmp_path: Path) -> None:
    """The line is gone before the answer, and nothing of it is in a pipe."""
    slow = tmp_path / "slow"
    slow.write_text(f'#!/bin/sh\n[ "$*" = check ] && sleep 1\nexec {shlex.quote(program.path)} "$@"\n', "utf-8")
    slow.chmod(0o755)
    words = ["check", "examples/links/line.csv", "--program", str(slow)]
    extras: List[List[str]] = [[], ["--json", "-"]]
    begin = time.monotonic()
    with ThreadPoolExecutor() as both:  # (they sleep most of the time)
        answers = list(both.map(lambda extra: _on_terminal([*words, *extra], more, "stderr"), extras))
    longest = time.monotonic() - begin + 0.5  # (as they are rounded)
    for extra, (status, shown, rest) in zip(extras, answers):
        assert status in (0, 1) and "\x1b" not in rest and rest
        if not extra:
            seconds = [int(it) for it in re.findall(r"\x1b\[2Kbalisekit check: (\d+) s", shown)]
            assert bool(seconds) == shows and (not shows or shown.endswith("\r\x1b[2K"))
            # (on a loaded machine the first ones may be missing)
            assert seconds == sorted(seconds) and all(1 <= it <= longest for it in seconds)
        else:
            assert "\x1b[2K" not in shown


def test_without_rich(monkeypatch: pytest.MonkeyPatch, capsys: pytest.CaptureFixture[str]) -> None:
    """Lines are plain."""
    modules: Dict[str, Any] = sys.modules
    monkeypatch.setitem(modules, "rich.console", None)
    monkeypatch.setenv("TERM", "xterm")
    monkeypatch.setattr(sys.stdout, "isatty", lambda: True)
    console.writer(sys.stdout)('program: "yes')
    assert capsys.readouterr().out == 'program: "yes\n'


def test_styles() -> None:
    lines = ['program: "yes: groups 1, messages 0"', "INCOMPLETE: x", "look: x", "    program: F1 ..", "row 2  A"]
    assert list(map(console.style, lines)) == ["bold green", "bold red", "yellow", "dim", ""]

"""What only a terminal gets: colours, and a line that shows how long a command has been working."""
from __future__ import annotations

import os
import sys
import threading
import time
from contextlib import contextmanager
from functools import partial
from typing import Callable, Iterator, Optional, TextIO

STYLES = (
    (('program: "yes', "no open findings"), "bold green"),
    (('program: "no', "INCOMPLETE", "findings "), "bold red"),
    (("look: ", "note: ", "left out: ", "not judged: "), "yellow"),
    (("    program: ",), "dim"),
)
"""How lines begin, and their style."""
PAUSE = 1.0
"""Seconds until the line first appears, and between its updates."""
CLEARED = "\r\x1b[2K"
_working: Optional[Callable[[], None]] = None
"""What ends the line that is shown."""


def _is_terminal(stream: TextIO) -> bool:
    return stream.isatty() and os.environ.get("TERM", "dumb") != "dumb"


def writer(stream: TextIO) -> Callable[[str], None]:
    """What writes a line to this stream: with colours to a terminal if rich is there and NO_COLOR is not set."""
    stop()
    if not _is_terminal(stream) or os.environ.get("NO_COLOR"):
        return partial(_write, stream)
    try:
        from rich.console import Console
        from rich.text import Text
    except Exception:  # (it may be absent or broken, and the lines are the same without it)
        return partial(_write, stream)
    console = Console(file=stream, highlight=False, soft_wrap=True)

    def write(line: str) -> None:
        console.print(Text(line, style(line)))

    return write


def _write(stream: TextIO, line: str) -> None:
    """Writes a line at once: `print` writes its end by itself."""
    stream.write(f"{line}\n")


def style(line: str) -> str:
    """The style of a line."""
    return next((name for starts, name in STYLES if line.startswith(starts)), "")


def stop() -> None:
    """Ends the line that is shown, before anything else is written."""
    if _working:
        _working()


@contextmanager
def working(command: str) -> Iterator[None]:
    """Shows on a terminal for how many seconds the command has been working, until it writes its answer."""
    global _working
    if not _is_terminal(sys.stderr):
        yield
        return
    ended, stream, begin = threading.Event(), sys.stderr, time.monotonic()

    def show() -> None:
        while not ended.wait(PAUSE):
            stream.write(f"{CLEARED}balisekit {command}: {time.monotonic() - begin:.0f} s")
            stream.flush()

    def end() -> None:
        global _working
        ended.set()
        thread.join()
        _working = None
        if time.monotonic() - begin >= PAUSE:
            stream.write(CLEARED)
            stream.flush()

    thread = threading.Thread(target=show, daemon=True)
    thread.start()
    _working = end
    try:
        yield
    finally:
        stop()

"""SIGINT, SIGTERM and SIGHUP while a command runs."""
from __future__ import annotations

import signal
import sys
import threading
from typing import Any, Dict, Optional

from balisekit.errors import Terminated

NUMBERS = (signal.SIGINT, signal.SIGTERM, signal.SIGHUP)


class Signals:
    """The first of these signals raises Terminated, unless it is ignored. All later ones do nothing.

    If the process `ends` with the command, they do nothing until its end, so that its status is true of its outputs.
    """

    def __init__(self, ends: bool) -> None:
        self._ends = ends
        self._before: Dict[signal.Signals, Any] = {}
        self._hook = sys.unraisablehook
        self._lost: Optional[Terminated] = None
        self._is_done = False

    def __enter__(self) -> Signals:
        if threading.current_thread() is threading.main_thread():
            self._before = {number: signal.getsignal(number) for number in NUMBERS}
            sys.unraisablehook = self._unraisable
            self._handle(self._terminate)
        return self

    def done(self) -> None:
        """The command is done, and its outputs appear now: no signal ends it any more. Raises one that was lost."""
        if self._before:
            signal.pthread_sigmask(signal.SIG_BLOCK, NUMBERS)
            self._is_done = True
        if self._lost:
            raise self._lost

    def __exit__(self, *_: object) -> None:
        self._handle(signal.SIG_IGN)  # (which also drops those that wait since `done`)
        if self._is_done:
            signal.pthread_sigmask(signal.SIG_UNBLOCK, NUMBERS)
        if self._before and not self._ends:
            sys.unraisablehook = self._hook
            for number, handler in self._before.items():
                signal.signal(number, handler)

    def _handle(self, handler: Any) -> None:
        for number, before in self._before.items():
            if before is not signal.SIG_IGN:
                signal.signal(number, handler)

    def _terminate(self, number: int, frame: object) -> None:
        self._handle(signal.SIG_IGN)
        raise Terminated(signal.Signals(number))

    def _unraisable(self, unraisable: Any) -> None:
        """Keeps what was raised in a destructor, which Python does not pass on. The next signal is then the first."""
        if not isinstance(unraisable.exc_value, Terminated):
            self._hook(unraisable)
            return
        self._lost = unraisable.exc_value
        self._handle(self._terminate)

"""One run of the program, within limits of time and size. Its process group is ended with it."""
from __future__ import annotations

import os
import select
import signal
import time
from threading import Event
from typing import IO, Iterator, List, NamedTuple, Optional, Sequence

from balisekit.errors import NoAnswer

LEAST_SECONDS = 60
BYTES_A_SECOND = 100_000
"""An answer has a minute, and a second more for each 100,000 bytes of its input, for which the program needs 2 ms."""
GREATEST_LINE = 4 * 1024 * 1024
GREATEST_ERRORS = 64 * 1024
"""How many bytes of standard error are read."""
PAUSE = 1.0
"""How many seconds balisekit waits at a time. A process that has ended may leave its output open for as long."""
DEFAULT_SIGNALS = (signal.SIGPIPE, signal.SIGXFSZ)
"""Signals that Python ignores, and its children must not."""


def temporary_file() -> IO[bytes]:
    """A file without a name."""
    from tempfile import TemporaryFile  # (few commands need it, and its import takes long)

    return TemporaryFile()


class Limit(NamedTuple):
    """For how many seconds the program may keep balisekit waiting, and how many bytes it may write."""

    seconds: float
    size: Optional[int] = None
    stop: Event = Event()
    """Once it is set, all runs with this limit end."""

    @classmethod
    def of(cls, size: int, timeout: Optional[float], stop: Event) -> Limit:
        """The limit for an input of this size: the time that the user names, else by the size."""
        seconds = LEAST_SECONDS + size // BYTES_A_SECOND if timeout is None else timeout
        return cls(seconds, stop=stop)


INTERRUPTS = (signal.SIGINT, signal.SIGTERM, signal.SIGHUP)
HANDSHAKE_LIMIT = Limit(10, 64 * 1024)


class Run:
    """A process that reads a file, and whose lines are read here. A last line without a line end is dropped.

    Only the seconds count in which balisekit waits for the program. What is done with a line is not counted.
    """

    def __init__(self, path: str, words: Sequence[str], stdin: IO[bytes], limit: Limit) -> None:
        self._name, self._limit = f"{path}: {' '.join(words)}", limit
        self._waited, self._size = 0.0, 0
        self.errors = b""
        """The beginning of standard error."""
        self.status: Optional[int] = None
        """The exit status, once all lines have been read; of a process that was killed the signal, less than 0."""
        pipes = [*os.pipe(), *os.pipe()]
        # A signal that comes between the start of the process and __enter__ waits: else nobody would end the process.
        self._mask = signal.pthread_sigmask(signal.SIG_BLOCK, INTERRUPTS)
        try:
            files = ((stdin.fileno(), 0), (pipes[1], 1), (pipes[3], 2))
            actions = [(os.POSIX_SPAWN_DUP2, here, there) for here, there in files]
            self._pid = os.posix_spawn(
                path,
                [path, *words],
                os.environ,
                file_actions=actions,
                setpgroup=0,
                setsigmask=self._mask,
                setsigdef=DEFAULT_SIGNALS,
            )
        except OSError as error:
            os.close(pipes[0])
            os.close(pipes[2])
            signal.pthread_sigmask(signal.SIG_SETMASK, self._mask)
            raise NoAnswer(f"no answer of {path}: {error.strerror or error}") from error
        finally:
            os.close(pipes[1])
            os.close(pipes[3])
        self._pipes = [pipes[0], pipes[2]]

    def __enter__(self) -> Run:
        try:
            signal.pthread_sigmask(signal.SIG_SETMASK, self._mask)
        except BaseException:
            self.__exit__()
            raise
        return self

    def __exit__(self, *_: object) -> None:
        for pipe in self._pipes:
            os.close(pipe)
        if self.status is None:
            try:
                os.killpg(self._pid, signal.SIGKILL)
            except OSError:
                pass
        os.waitpid(self._pid, 0)

    def no_answer(self, why: str) -> NoAnswer:
        """The error that names the program, its command and the reason."""
        return NoAnswer(f"no answer of {self._name}: {why}")

    def lines(self) -> Iterator[str]:
        """The lines of standard output. After the last one the process has ended, and its status is known."""
        rest = b""
        for piece in self._pieces():
            lines = (rest + piece).split(b"\n")
            rest = lines.pop()
            if len(rest) > GREATEST_LINE:
                raise self.no_answer(f"a line of more than {GREATEST_LINE // 1024 // 1024} MiB")
            for line in lines:
                yield line.decode("utf-8", "backslashreplace")
        self._wait()

    def _pieces(self) -> Iterator[bytes]:
        """The bytes of standard output. Standard error is read at the same time."""
        output = self._pipes[0]
        poll = select.poll()
        for pipe in self._pipes:
            poll.register(pipe, select.POLLIN)
        while self._pipes:
            for pipe in self._ready(poll):
                piece = os.read(pipe, 1 << 20)
                if not piece:
                    poll.unregister(pipe)
                    self._pipes.remove(pipe)
                    os.close(pipe)
                elif pipe == output:
                    self._size += len(piece)
                    if self._limit.size is not None and self._size > self._limit.size:
                        raise self.no_answer(f"more than {self._limit.size // 1024} KiB")
                    yield piece
                else:
                    self.errors += piece
                    if len(self.errors) > GREATEST_ERRORS:
                        raise self.no_answer(f"more than {GREATEST_ERRORS // 1024} KiB on standard error")

    def _ready(self, poll: select.poll) -> List[int]:
        """The pipes that have something, or have ended."""
        begin = time.monotonic()
        events = poll.poll(1000 * min(PAUSE, max(self._limit.seconds - self._waited, 0)))
        if not events and os.waitid(os.P_PID, self._pid, os.WEXITED | os.WNOHANG | os.WNOWAIT):
            events = poll.poll(0)  # (it may have written between the two calls above)
            if not events:
                raise self.no_answer("it has ended, and another process keeps its output open")
        self._count(begin)
        return [pipe for pipe, _ in events]

    def _wait(self) -> None:
        """Waits for the end of a process that has closed its output. __exit__ reaps it, also after an interrupt."""
        begin, pause = time.monotonic(), 0.0002
        while True:
            ended = os.waitid(os.P_PID, self._pid, os.WEXITED | os.WNOHANG | os.WNOWAIT)
            if ended:
                self.status = ended.si_status if ended.si_code == os.CLD_EXITED else -ended.si_status
                return
            time.sleep(pause)
            begin, pause = self._count(begin), min(2 * pause, 0.05)

    def _count(self, begin: float) -> float:
        """Counts the time since then as time in which balisekit waited. Returns the time now."""
        now = time.monotonic()
        self._waited += min(now - begin, PAUSE)  # (more, if balisekit itself was stopped)
        if self._waited >= self._limit.seconds:
            raise self.no_answer(f"it has not ended within {self._limit.seconds:g} s; --timeout SECONDS allows more")
        if self._limit.stop.is_set():
            raise self.no_answer("balisekit ended it")
        return now

"""Work that several processes share. Its results come in the order in which one process would make them."""
from __future__ import annotations

import os
import pickle
import signal
import threading
from contextlib import contextmanager, suppress
from functools import partial
from itertools import chain, repeat
from tempfile import TemporaryFile
from typing import Any, Callable, Iterable, Iterator, List, Sequence

from balisekit.errors import NoAnswer, held

LEAST, MOST = 2500, 4
"""The fewest items that are shared, and the most processes that share them: each process needs memory."""
DONE = b"."
Work = Callable[[int, int], Iterable[Any]]
"""Makes one part of the results, by the number of the part and the number of parts."""


def copies(items: int, most: int = MOST) -> int:
    """How many copies of this process share this number of items. 0: the process makes them itself.

    That is so for few items, on one processor, and while other threads run: a copy would have their locks without them.
    """
    processors = len(os.sched_getaffinity(0))
    return min(most, processors) if items >= LEAST and processors > 1 and threading.active_count() == 1 else 0


@contextmanager
def shared(works: Sequence[Work], count: int) -> Iterator[Sequence[Iterator[Any]]]:
    """The results of each work, made by this number of copies of the process. They start now and end with the block.

    Without copies this process makes each result when it is read.
    """
    if not count:
        yield [iter(work(0, 1)) for work in works]
        return
    workers: List[Worker] = []
    try:
        for part in range(count):
            with held():
                workers.append(Worker(works, part, count))
        yield [chain.from_iterable(map(Worker.made, workers, repeat(number))) for number in range(len(works))]
    finally:
        for worker in workers:
            worker.end()


def end_with_parent() -> None:
    """Lets the kernel kill this process when its parent has ended: SIGKILL leaves the parent no time to do so."""
    with suppress(Exception):  # (a Python can lack ctypes, or a system forbid it)
        import ctypes

        ctypes.CDLL(None).prctl(1, signal.SIGKILL)  # PR_SET_PDEATHSIG


class Worker:
    """A copy of this process that makes a part of each work. SIGINT, SIGTERM and SIGHUP are blocked in it.

    It writes the results of each work into a file, so it never waits for a reader.
    """

    def __init__(self, works: Sequence[Work], part: int, count: int) -> None:
        self._files = [TemporaryFile() for _ in works]
        self._done = 0
        self._pipe, pipe = os.pipe()
        try:
            self._pid = os.fork()
        except OSError as error:
            raise NoAnswer(f"no process can be started: {error.strerror}") from error
        if not self._pid:
            self._make(works, part, count, pipe)
        os.close(pipe)

    def _make(self, works: Sequence[Work], part: int, count: int, pipe: int) -> None:
        """All that the copy does. It ends without flushing or removing files of the process that started it."""
        status = 1
        try:
            end_with_parent()
            os.close(self._pipe)
            for work, file in zip(works, self._files):
                for each in chain(work(part, count), (None,)):
                    pickle.dump(each, file)
                file.flush()
                os.write(pipe, DONE)
            status = 0
        except BaseException as error:
            from traceback import format_exc

            os.write(pipe, pickle.dumps((error, format_exc())))
        finally:
            os._exit(status)

    def made(self, number: int) -> Iterator[Any]:
        """The results of the work of this number, once they are complete."""
        while self._done <= number:
            self._wait()
            self._done += 1
        with self._files[number] as file:
            file.seek(0)
            yield from iter(partial(pickle.load, file), None)

    def _wait(self) -> None:
        """Waits until the next work is complete. An error of the copy is raised here."""
        said = os.read(self._pipe, 1)
        if said == DONE:
            return
        if said:
            with open(self._pipe, "rb", closefd=False) as pipe:
                error, where = pickle.loads(said + pipe.read())
            raise error from RuntimeError(where)
        status = os.waitstatus_to_exitcode(os.waitpid(self._pid, 0)[1])
        self._pid = 0
        how = signal.Signals(-status).name if status < 0 else f"status {status}"
        raise NoAnswer(f"a process that shares the work has ended too early, by {how}: memory may have run out")

    def end(self) -> None:
        """Kills the copy if it still runs, and closes its files."""
        os.close(self._pipe)
        if self._pid:
            os.kill(self._pid, signal.SIGKILL)
            os.waitpid(self._pid, 0)
        for file in self._files:
            file.close()

"""Limits of processor time that are valid on any machine, whatever else runs on it.

Times are those of the processor, of balisekit and the program together: those of the clock depend on what else runs.
What else runs makes the processor slower too, by its use of memory. So while a task runs, a process beside it does a
fixed piece of work of the same kind again and again, for a quarter of the time. Limits are seconds of a machine on
which a piece takes UNIT. What takes too long is measured again after a pause, because load changes and only ever makes
a task slower: a task that is too slow by itself is so each time.
"""
from __future__ import annotations

import json
import resource
import select
import subprocess
import sys
import time
from itertools import cycle
from typing import Callable, Iterator, List

UNIT = 0.0146
MEASUREMENTS = 6


def _spent() -> float:
    """The processor's time of this process, and of those that it has waited for."""
    used = [resource.getrusage(who) for who in (resource.RUSAGE_SELF, resource.RUSAGE_CHILDREN)]
    return sum(one.ru_utime + one.ru_stime for one in used)


def _pieces() -> Iterator[float]:
    """The processor's time for each piece of work. One after another they go through more than a cache has room for."""
    forms = [{"number": number, "packets": [{"place": place} for place in range(4)]} for number in range(30_000)]
    for begin in cycle(range(0, 30_000, 3000)):
        before = time.process_time()
        part = json.loads(json.dumps(forms[begin : begin + 3000]))
        assert len([f"{form['number']} {form['packets']}" for form in part]) == 3000
        forms[begin : begin + 3000] = part
        yield time.process_time() - before


def _work_beside() -> None:
    """Works until standard input ends. Prints a line after its beginning, and the mean time of a piece at the end."""
    pieces = _pieces()
    next(pieces)
    print("begun", flush=True)
    times = [next(pieces)]
    while not select.select([sys.stdin], [], [], 3 * times[-1])[0]:
        times.append(next(pieces))
    print(sum(times) / len(times), flush=True)


def seconds(task: Callable[[], object]) -> float:
    """The processor's time of a task and of processes that it waits for, in seconds of the machine of the limits."""
    command = [sys.executable, __file__]
    with subprocess.Popen(command, stdin=subprocess.PIPE, stdout=subprocess.PIPE) as beside:
        assert beside.stdin and beside.stdout
        beside.stdout.readline()
        before = _spent()
        task()
        used = _spent() - before
        beside.stdin.close()
        return used * UNIT / float(beside.stdout.readline())


def is_quick(measure: Callable[[], float]) -> bool:
    """Whether one of at most MEASUREMENTS is at most 1. Each is divided by its limit."""
    measured: List[float] = []
    while len(measured) < MEASUREMENTS and (not measured or measured[-1] > 1):
        time.sleep(len(measured))
        measured.append(measure())
    print("of the limit:", measured)  # (shown if the test fails, and by pytest -rP)
    return measured[-1] <= 1


def is_within(limit: float, task: Callable[[], object]) -> bool:
    """Whether a task takes at most `limit` seconds."""
    return is_quick(lambda: seconds(task) / limit)


if __name__ == "__main__":
    _work_beside()

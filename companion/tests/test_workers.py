"""Work that processes share: in order, the same bytes as of one process, and nothing left of it, however it ends."""
from __future__ import annotations

import os
import re
import signal
import subprocess
import sys
import threading
import time
from pathlib import Path
from typing import Callable, Iterator, List

import pytest
from cases_of_program import TOP
from telegrams import ALONE, MESSAGE
from test_limits import table_of

from balisekit.engine.program import Program
from balisekit.errors import NoAnswer, TableError
from balisekit.io import workers
from balisekit.io.workers import copies, shared

Write = Callable[..., Path]
FEW, MANY = 100, 600
"""From how many groups on commands share their work in these tests, and how many keep workers busy for 0.5 s."""
START = f"""
import sys
sys.path.insert(0, {str(TOP / "companion" / "src")!r})
from balisekit.io import workers
workers.LEAST = {FEW}
from balisekit.cli.main import main
sys.exit(main())
"""


def _numbers(part: int, count: int) -> Iterator[int]:
    """The numbers up to 10 of a part."""
    yield from range(10 * part // count, 10 * (part + 1) // count)


def _squares(part: int, count: int) -> Iterator[int]:
    return (number**2 for number in _numbers(part, count))


def _refuses(part: int, count: int) -> Iterator[int]:
    """The last part is refused."""
    yield part
    if part == count - 1:
        raise TableError("a bad row", 7, "telegram")


def _is_killed(part: int, count: int) -> Iterator[int]:
    """The process of the last part ends without a word."""
    yield part
    if part == count - 1:
        os.kill(os.getpid(), signal.SIGKILL)


@pytest.mark.parametrize("count", [0, 1, 2, 3, 7])
def test_in_the_order_of_one_process(count: int) -> None:
    """Each work as a whole, one after the other; the second one may be asked for first."""
    for both in ([0, 1], [1, 0]):
        with shared([_numbers, _squares], count) as made:
            assert {which: list(made[which]) for which in both} == {
                0: list(range(10)),
                1: [number**2 for number in range(10)],
            }


def test_an_error_of_a_worker() -> None:
    """It is raised as it is in one process, and says where in the worker it comes from."""
    for count in (0, 1, 3):
        with pytest.raises(TableError) as raised, shared([_refuses], count) as (made,):
            list(made)
        assert str(raised.value) == "row 7, column telegram: a bad row"
        assert count == 0 or "_refuses" in str(raised.value.__cause__)


def test_a_worker_that_is_killed() -> None:
    """It is named as the reason, and no process is left. Other tests can have started some that go on."""
    before = _children(os.getpid())
    with pytest.raises(NoAnswer, match="ended too early, by SIGKILL: memory may have run out"):
        with shared([_is_killed], 2) as (made,):
            list(made)
    assert {*_children(os.getpid())} <= {*before}


def test_a_reader_that_stops() -> None:
    """Workers end with the block, although nobody has read what they make."""
    begin = time.monotonic()
    with shared([lambda part, count: iter(lambda: time.sleep(60), 0)], 2):
        pass
    assert time.monotonic() - begin < 30


class Ended(BaseException):
    """Raised instead of ending the process."""


@pytest.mark.parametrize("work, status", [(_numbers, 0), (_refuses, 1)])
def test_a_copy(work: workers.Work, status: int, monkeypatch: pytest.MonkeyPatch) -> None:
    """It ends by itself, whatever happens, and nothing after the fork is done twice."""

    def end(number: int) -> None:
        raise Ended(number)

    monkeypatch.setattr(workers, "end_with_parent", lambda: None)
    monkeypatch.setattr(os, "fork", lambda: 0)
    monkeypatch.setattr(os, "close", lambda _: None)  # (both ends of the pipe are here)
    monkeypatch.setattr(os, "_exit", end)
    with pytest.raises(Ended) as raised:
        workers.Worker([work], 1, 2)
    assert raised.value.args == (status,)


FOREVER = """
import os, time
from balisekit.io.workers import shared

def work(part, count):
    os.write(1, b"%d\\n" % os.getpid())
    time.sleep(600)
    yield part

with shared([work], 2):
    time.sleep(600)
"""


def test_a_parent_that_is_killed() -> None:
    """Its workers end too."""
    known = {**os.environ, "PYTHONPATH": str(TOP / "companion" / "src")}
    with subprocess.Popen([sys.executable, "-c", FOREVER], env=known, stdout=subprocess.PIPE) as run:
        assert run.stdout
        found = [int(run.stdout.readline()) for _ in range(2)]
        run.kill()
    until = time.monotonic() + 20
    while any(map(_runs, found)) and time.monotonic() < until:
        time.sleep(0.05)
    left = list(filter(_runs, found))
    for pid in left:
        os.kill(pid, signal.SIGKILL)
    assert not left


def _runs(pid: int) -> bool:
    """Whether a process has not ended. One that nobody has waited for is a zombie."""
    try:
        return Path(f"/proc/{pid}/stat").read_text().rsplit(") ", 1)[1][0] != "Z"
    except OSError:
        return False


def test_few_items_threads_and_one_processor(monkeypatch: pytest.MonkeyPatch) -> None:
    """Then one process does all."""
    monkeypatch.setattr(threading, "active_count", lambda: 1)
    monkeypatch.setattr(os, "sched_getaffinity", lambda _: set(range(64)))
    assert [copies(workers.LEAST + more, *most) for more, *most in ((-1,), (0,), (0, 1))] == [0, workers.MOST, 1]
    monkeypatch.setattr(threading, "active_count", lambda: 2)
    assert copies(workers.LEAST) == 0
    monkeypatch.setattr(threading, "active_count", lambda: 1)
    monkeypatch.setattr(os, "sched_getaffinity", lambda _: {5})
    assert copies(workers.LEAST) == copies(workers.LEAST, 1) == 0


def test_no_process(monkeypatch: pytest.MonkeyPatch) -> None:
    """One line says so."""

    def fork() -> int:
        raise BlockingIOError(11, "Resource temporarily unavailable")

    monkeypatch.setattr(os, "fork", fork)
    with pytest.raises(NoAnswer, match="no process can be started: Resource"), shared([_numbers], 2):
        pass


def _lines(tracks: int, groups: int = FEW + 40) -> List[str]:
    """A table whose groups have names, kilometres and tracks of their own. The last one of each track is far away."""
    rows = ["group,km,track,telegram"]
    for number in range(groups):
        far = 300 * (number + tracks >= groups)
        rows.append(f"Group {number},{number // tracks * 0.25 + far:.3f},{number % tracks or ''},{ALONE}")
    return rows


def _begin(processors: int, *words: object) -> "subprocess.Popen[bytes]":
    """Begins a command that has this many processors, or all if there are fewer."""
    own = sorted(os.sched_getaffinity(0))[:processors]

    def begin() -> None:
        os.sched_setaffinity(0, own)
        for number in (signal.SIGINT, signal.SIGHUP):  # (a job in the background, or below nohup, ignores them)
            signal.signal(number, signal.SIG_DFL)

    return subprocess.Popen(
        [sys.executable, "-c", START, *map(str, words)],
        stdout=subprocess.PIPE,
        stderr=subprocess.PIPE,
        env={**os.environ, "SOURCE_DATE_EPOCH": "1700000000"},
        preexec_fn=begin,
        start_new_session=True,
    )


needs_two = pytest.mark.skipif(len(os.sched_getaffinity(0)) < 2, reason="one processor has no workers")


@needs_two
@pytest.mark.parametrize("tracks", [1, 3])
def test_the_same_page(tracks: int, table: Write, tmp_path: Path) -> None:
    """One process and several make the same bytes, for one track and for three."""
    pytest.importorskip("jinja2")
    path, pages = table(*_lines(tracks)), []
    for processors in (1, 2, 3):
        target = tmp_path / f"{processors}.html"
        with _begin(processors, "report", path, "--html", target) as run:
            _, said = run.communicate(timeout=300)
        assert run.returncode == 1, said
        pages.append(target.read_bytes())
    assert pages[0] == pages[1] == pages[2] and pages[0].count(b'<figure class="strip') > 3 * tracks


@needs_two
def test_the_same_remarks(program: Program, tmp_path: Path) -> None:
    """Whether one process applies all rules or several, with all that is said of groups, rows and messages."""
    path, said = table_of(tmp_path / "table.csv", program, FEW + 20), []
    (tmp_path / "m.txt").write_text(f"{MESSAGE}\n")
    for processors in (1, 2):
        target = tmp_path / f"{processors}.json"
        words = ["--messages", tmp_path / "m.txt", "--line-speed", 80, "--json", target]
        with _begin(processors, "check", path, *words) as run:
            out, errors = run.communicate(timeout=300)
        assert run.returncode == 1 and not errors
        said.append((out, target.read_bytes()))
    assert said[0] == said[1] and said[0][0].count(b": E2: ") > 40


def _children(pid: int) -> List[int]:
    try:
        return list(map(int, Path(f"/proc/{pid}/task/{pid}/children").read_text().split()))
    except OSError:
        return []


def _workers_of(run: "subprocess.Popen[bytes]") -> List[int]:
    """The processes that share the work of a command, once there are any: copies of it, not the program."""
    until = time.monotonic() + 120
    while time.monotonic() < until and run.poll() is None:
        found = [pid for pid in _children(run.pid) if _command(pid) == _command(run.pid)]
        if len(found) > 1:
            return found
        time.sleep(0.02)
    raise AssertionError("no workers")


def _command(pid: int) -> bytes:
    try:
        return Path(f"/proc/{pid}/cmdline").read_bytes()
    except OSError:
        return b""


ENDS = [
    (signal.SIGTERM, 143, b"balisekit: ended by SIGTERM\n"),
    (signal.SIGHUP, 129, b"balisekit: ended by SIGHUP\n"),
    (signal.SIGINT, 130, b"balisekit: interrupted\n"),
]


@needs_two
@pytest.mark.parametrize("number, status, said", ENDS, ids=[each[0].name for each in ENDS])
def test_a_signal(number: signal.Signals, status: int, said: bytes, table: Write, tmp_path: Path) -> None:
    """One line, no file, and no worker is left, whether the signal goes to all processes or to the first one."""
    pytest.importorskip("jinja2")
    path = table(*_lines(1, MANY))
    for send in (os.kill, os.killpg):
        with _begin(4, "report", path, "--html", tmp_path / "report.html") as run:
            signal.pthread_sigmask(signal.SIG_UNBLOCK, [number])
            found = _workers_of(run)
            send(run.pid, number)
            _, errors = run.communicate(timeout=120)
        assert (run.returncode, errors) == (status, said)
        assert not any(Path(f"/proc/{pid}").exists() for pid in found)
        assert os.listdir(tmp_path) == ["table.csv"]


@needs_two
def test_a_worker_of_a_report_is_killed(table: Write, tmp_path: Path) -> None:
    """One line, status 3, and no file."""
    pytest.importorskip("jinja2")
    with _begin(4, "report", table(*_lines(1, MANY)), "--html", tmp_path / "report.html") as run:
        os.kill(_workers_of(run)[-1], signal.SIGKILL)
        _, errors = run.communicate(timeout=120)
    assert run.returncode == 3 and re.fullmatch(rb"balisekit: a process that shares the work .*SIGKILL.*\n", errors)
    assert os.listdir(tmp_path) == ["table.csv"]

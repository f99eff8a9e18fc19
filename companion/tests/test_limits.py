"""Large tables within the promised time, and an interrupt in the middle of the work."""
from __future__ import annotations

import csv
import os
import re
import signal
import subprocess
import sys
import time
from functools import partial
from pathlib import Path
from typing import Any, Callable, Dict, List, Tuple

import line_table
import pytest
from cases_of_program import TOP
from conftest import Run
from limits import is_quick, is_within, seconds
from telegrams import ALONE, SPARE
from test_browser import CHROMIUM, browse

from balisekit.engine.program import Program
from balisekit.rules import checking
from balisekit.tables import reader as tables

Write = Callable[..., Path]
Releases = Callable[[int, str], Path]
OF = 10_000
"""The limits are seconds for this many groups."""
GROWTH = 1.4
"""How many times faster than the number of groups a time may seem to grow: measurements differ by some percent."""
STAND = """#!/bin/sh
case "$*" in
check) echo 'yes: groups 0, messages 0'; exit 0 ;;
--version) echo 'refused: usage is balisecheck check, decode [--radio] or encode [--radio]'; exit 2 ;;
esac
touch "$0.started"
exec sleep 60
"""


def _words(program: Program, *words: object) -> List[str]:
    return [str(TOP / "balisekit"), *map(str, words), "--program", program.path]


def _run(command: List[str]) -> Tuple[int, List[str]]:
    """The status, and the lines of standard output."""
    done = subprocess.run(command, stdout=subprocess.PIPE, check=False)
    return done.returncode, done.stdout.decode().splitlines()


def table_of(path: Path, program: Program, groups: int, other: bool = False) -> Path:
    """A table of groups of two balises and three aspects, each with an identity of its own.

    All are on eleven kilometres, so thousands are between two of them. In the `other` table all authorities differ.
    """
    signals: Dict[str, List[Any]] = {}
    for item in line_table.items():
        signals.setdefault(item[0], []).append(item)
    del signals["Infill of D"]
    kinds = list(signals.values())
    items = []
    for number in range(groups):
        for item in kinds[number % len(kinds)]:
            packets = [
                {**one, "v_main": one["v_main"] + 1} if other and "v_main" in one else one for one in item[5]["packets"]
            ]
            items.append((f"{item[0]}.{number}", *item[1:5], {**item[5], "nid_bg": number + 1, "packets": packets}))
    with open(path, "w", encoding="utf-8", newline="") as file:
        rows = csv.writer(file)
        rows.writerow(line_table.HEADING)
        rows.writerows([*item[:5], text.line] for item, text in zip(items, program.encode([one[5] for one in items])))
    return path


@pytest.fixture(scope="module")
def releases(tmp_path_factory: pytest.TempPathFactory, program: Program) -> Releases:
    """The release OLD or NEW of a line with a number of groups. Each is made once."""
    room = tmp_path_factory.mktemp("releases")

    def of(groups: int, word: str) -> Path:
        path = room / f"{groups}{word}.csv"
        return path if path.exists() else table_of(path, program, groups, word == "NEW")

    return of


@pytest.mark.slow
@pytest.mark.parametrize(
    "few, many, limit, words, wanted",
    [
        (400, 2400, 15, ["links", "OLD"], "links: "),
        (400, 1600, 15, ["draw", "OLD", "--track", "--force", "--svg", "OUT"], ""),
        (120, 1200, 24, ["report", "OLD", "--only", "F", "--force", "--html", "OUT"], 'program: "no: findings '),
        (400, 1600, 30, ["report", "OLD", "--force", "--html", "OUT"], 'program: "no: findings '),
        (100, 600, 22, ["diff", "OLD", "NEW", "--force", "--html", "OUT"], "groups added 0, removed 0; "),
    ],
    ids=["links", "draw", "report of findings", "report", "diff"],
)
def test_10000_groups(
    few: int, many: int, limit: int, words: List[str], wanted: str, releases: Releases, run: Run, tmp_path: Path
) -> None:
    """Within the limit for 10,000 groups, and the time grows no faster than the number of groups.

    The start, which takes as long as some hundred groups, would hide that. So this process runs the commands, once
    for few groups before they are measured. So would the trial of corrections, which a table of 6,000 rows has not.
    """
    if "--html" in words:
        pytest.importorskip("jinja2")

    def once(files: Dict[str, Path]) -> None:
        status, out, _ = run(*[files.get(word, word) for word in words])
        assert status == (0 if words[0] == "draw" else 1) and (not wanted or out[-1].startswith(wanted))

    def measure() -> float:
        """The greater of two ratios to limits: of the time for many groups, and of its growth."""
        short, long = (seconds(partial(once, files)) for files in sizes)
        return max(long / short / (GROWTH * many / few), long * OF / many / limit)

    tables = [word for word in words if word in ("OLD", "NEW")]
    first, *sizes = (
        {"OUT": tmp_path / "out", **{word: releases(size, word) for word in tables}} for size in (30, few, many)
    )
    run(*[first.get(word, word) for word in words])
    assert is_quick(measure)


@pytest.mark.slow
@pytest.mark.skipif(CHROMIUM is None, reason="tests of balisekit in a browser (chromium)")
def test_a_browser_opens_a_report_of_450_groups(releases: Releases, run: Run, tmp_path: Path) -> None:
    """Without a pause: in less than 2 seconds. It lays out what is seen, in 1.4; all of the groups take 2.6.

    The groups, each with a picture, are those of a small report 15 times. The browser is one process here, because
    others would not be waited for, and not counted.
    """
    pytest.importorskip("jinja2")
    page, picture = tmp_path / "report.html", tmp_path / "page.png"
    run("report", releases(30, "OLD"), "--html", page)
    groups = re.compile('<section class="group".*</section>(?=\\s*</section>)', re.DOTALL)
    page.write_text(groups.sub(lambda found: 15 * found[0], page.read_text("utf-8")), "utf-8")
    assert page.read_text("utf-8").count('<figure class="wide"') == 450
    words = ("--single-process", "--window-size=1100,1400", f"--screenshot={picture}")
    assert is_within(2, lambda: browse(tmp_path, page, *words))
    assert picture.stat().st_size > 50_000


@pytest.mark.slow
def test_10000_rows_with_100_bad_ones(table: Write, run: Run) -> None:
    """At most 2 seconds, and each of them is named."""
    path = table("group,telegram", *(f"G{place},{ALONE if place % 100 else SPARE}" for place in range(10_000)))

    def check() -> None:
        status, out, _ = run("check", path)
        assert status == 2 and out.count("    program: spare at 15 end 17") == 100
        assert out[-1] == (
            "INCOMPLETE: 100 of 10000 telegrams refused, 100 of 10000 groups left out; findings in the rest: 9899"
        )

    assert is_within(2, check)


@pytest.mark.slow
def test_20000_remarks_of_two_lines(table: Write) -> None:
    """Words with line ends take a fifth of a second: only digits that may be a telegram are looked at closely."""
    remarks = (
        "see drawing 7, sheet 2\nchecked on 2024-05-01 by A. Doe",
        "Süd: Abnahme am 01.05.2024\ndurch Prüfer, keiner",
    )
    path = table("group,telegram,remark", *(f'G{row},{ALONE},"{remarks[row % 2]}"' for row in range(20_000)))

    def read() -> None:
        assert len(tables.read(str(path)).rows) == 20_000

    assert is_within(0.4, read)


def test_the_limit_is_10000() -> None:
    """What happens there is tried with smaller limits by the tests of `check` and `show`."""
    assert checking.GREATEST_REFUSED == 10_000 and "10,000" in checking.ALL_HELP


def _wait_for(there: Callable[[], bool]) -> None:
    until = time.monotonic() + 120
    while not there():
        assert time.monotonic() < until
        time.sleep(0.005)


def _interrupted(command: List[str], there: Callable[[], bool]) -> Tuple[int, bytes]:
    """The status and standard error of a command that is interrupted as a terminal does it, once this is there.

    A shell has its jobs in the background ignore interrupts, and these tests with them, so the command is told not to.
    """
    with subprocess.Popen(
        command,
        stdout=subprocess.PIPE,
        stderr=subprocess.PIPE,
        start_new_session=True,
        preexec_fn=lambda: signal.signal(signal.SIGINT, signal.SIG_DFL),
    ) as run:
        _wait_for(there)
        os.killpg(run.pid, signal.SIGINT)
        _, said = run.communicate(timeout=120)
    return run.returncode, said


@pytest.mark.parametrize(
    "words",
    [
        ["check", "--json", "out"],
        ["show"],
        ["report", "--html", "out"],
        ["draw", "--group", "A", "--svg", "out"],
        ["draw", "--track", "--svg", "out"],
        ["links", "--json", "out"],
        ["diff", "table.csv", "--html", "out"],
        ["check", "--propose", "out"],
        ["check", "--junit", "out"],
    ],
)
def test_an_interrupt_while_the_program_runs(words: List[str], table: Write, tmp_path: Path) -> None:
    """One line, status 130, and no file."""
    stand = tmp_path / "stand"
    stand.write_text(STAND)
    stand.chmod(0o755)
    path = table("group,km,telegram", f"A,1,{ALONE}")
    command = [
        str(TOP / "balisekit"),
        words[0],
        str(path),
        "--program",
        str(stand),
        *[str(tmp_path / word) if word in ("out", "table.csv") else word for word in words[1:]],
    ]
    assert _interrupted(command, (tmp_path / "stand.started").exists) == (130, b"balisekit: interrupted\n")
    assert sorted(os.listdir(tmp_path)) == ["stand", "stand.started", "table.csv"]


def test_an_interrupt_while_a_file_is_written(releases: Releases, program: Program, tmp_path: Path) -> None:
    """What was there before stays as it was, and nothing is left beside it."""
    pytest.importorskip("jinja2")
    (tmp_path / "report.html").write_text("before")
    command = _words(program, "report", releases(250, "OLD"), "--force", "--html", tmp_path / "report.html")
    assert _interrupted(command, lambda: len(os.listdir(tmp_path)) > 1) == (130, b"balisekit: interrupted\n")
    assert os.listdir(tmp_path) == ["report.html"] and (tmp_path / "report.html").read_text() == "before"


INTERRUPTED_IMPORT = """
import os, signal
signal.signal(signal.SIGINT, signal.default_int_handler)  # (a shell may start its tests with SIGINT ignored)
from balisekit.errors import needed
with needed("jinja2", "a page"):
    os.kill(os.getpid(), signal.SIGINT)
    print("imported", flush=True)
"""


def test_an_interrupt_while_a_package_is_imported() -> None:
    """It waits until the import has ended, which might turn it into the error of a broken package."""
    environment = {**os.environ, "PYTHONPATH": str(TOP / "companion" / "src")}
    ended = subprocess.run([sys.executable, "-c", INTERRUPTED_IMPORT], env=environment, capture_output=True)
    assert ended.stdout == b"imported\n" and ended.stderr.endswith(b"KeyboardInterrupt\n")

"""What the tests share: the program, folders with tables, and runs of the command line."""
from __future__ import annotations

import gc
import os
import re
import sys
import tempfile
from datetime import datetime, timezone
from importlib.util import find_spec
from pathlib import Path
from typing import Any, Callable, Iterator, List, Optional, Sequence, Tuple

import pytest
from cases_of_program import TOP
from covered import COVERAGE
from installed import environment

from balisekit.cli import main as cli
from balisekit.engine import find_program
from balisekit.engine.library import opened
from balisekit.engine.loaded_library import LoadedLibrary
from balisekit.engine.program import Program, pieces
from balisekit.io import clock
from balisekit.present.opening import program_words

try:
    from hypothesis import settings

    settings.register_profile("gate", derandomize=True, deadline=None, database=None, max_examples=100)
    settings.load_profile("gate")
except ImportError:
    pass

os.environ.setdefault("BALISEKIT_PYTHON", sys.executable)
"""The interpreter that ./balisekit uses in these tests."""
if "BALISECHECK" not in os.environ:  # (found once: each call of the start script hashes all sources)
    os.environ["BALISECHECK"] = find_program.find(None)
PAGES = ["browser", "hostile_texts", "report", "report_page", "telegram_parts", "track"]
"""The tests of pages and pictures, which need jinja2."""
collect_ignore = [] if find_spec("jinja2") else [f"test_{name}.py" for name in PAGES]

Answer = Tuple[int, List[str], List[str]]
"""A status, and the lines of standard output and standard error."""
Run = Callable[..., Answer]


def pytest_collection_modifyitems(items: List[pytest.Item]) -> None:
    """Slow tests come last, because xdist then deals out few at a time: neighbours would all be on one worker."""
    items.sort(key=lambda item: item.get_closest_marker("slow") is not None)


def pytest_collection_finish() -> None:
    """The objects of all tests stay: the garbage collector does not look at them again."""
    gc.collect()
    gc.freeze()


@pytest.hookimpl(hookwrapper=True)  # type: ignore[misc]
def pytest_runtest_protocol(item: pytest.Item) -> Iterator[None]:
    """Slow tests and uncovered ones run without coverage, which would slow them. The other tests must reach it."""
    is_covered = COVERAGE and not (item.get_closest_marker("uncovered") or item.get_closest_marker("slow"))
    if is_covered:
        COVERAGE.start()
    yield
    if is_covered:
        COVERAGE.stop()


def pytest_sessionfinish(session: pytest.Session) -> None:
    """Each process that runs tests writes what it has covered."""
    if COVERAGE and session.config.getoption("dist", "no") == "no":
        COVERAGE.save()


@pytest.fixture(scope="session")
def wheel(tmp_path_factory: pytest.TempPathFactory) -> Path:
    """The command of a wheel, in a virtual environment with blanks in its path."""
    return environment(tmp_path_factory.mktemp("wheel") / "a venv")


@pytest.fixture(params=["clone", "wheel"])
def command(request: pytest.FixtureRequest) -> str:
    """The command balisekit: the start script of the clone, and the one that pip installs."""
    return str(TOP / "balisekit" if request.param == "clone" else request.getfixturevalue("wheel"))


@pytest.fixture(scope="session", autouse=True)
def known() -> Iterator[None]:
    """The program under test stays the same: within this process its checksum and its handshake are made once.

    It need not be stored, as in the gate: it is taken for one that was built from the sources of this clone.
    """
    path, checksum, greet = find_program.find(None), find_program.checksum, Program._shake_hands
    sha256 = checksum(path)
    Program(path, sha256)._shake_hands()
    with pytest.MonkeyPatch.context() as patch:
        patch.setattr(find_program, "checksum", lambda other: sha256 if other == path else checksum(other))
        patch.setattr(find_program, "built_here", lambda other: other == sha256)
        patch.setattr(Program, "_shake_hands", lambda self: None if self.path == path else greet(self))
        library = library_under_test(sha256)
        if library:
            _compare(library, path, patch)
        yield


def library_under_test(sha256: str) -> Optional[LoadedLibrary]:
    """The library of this program: the one that was built with it, or stored with it. None if it is not here."""
    folder = Path(os.environ.get("BALISECHECK_LIBRARY") or TOP / "dist" / "x86_64-linux")
    path, about = folder / find_program.LIBRARY, find_program.papers(sha256)
    if opened(str(path)) is None or not (about or "BALISECHECK_LIBRARY" in os.environ):
        return None
    return LoadedLibrary(str(path), find_program.checksum(str(path)), about, None, find_program.ABOUT)


def _compare(library: LoadedLibrary, path: str, patch: pytest.MonkeyPatch) -> None:
    """Whatever the program under test answers in a test of this process, the library has to answer too."""
    check, answers = Program.check, Program._answers

    def check_both(self: Program, document: Any) -> Any:
        content = document if isinstance(document, (str, bytes, dict)) else b"".join(pieces(document))
        answer = check(self, content)
        assert self.path != path or library.check(content) == answer
        return answer

    def answers_both(self: Program, words: Sequence[str], lines: Sequence[bytes]) -> Iterator[Any]:
        others = library._answers(words, lines) if self.path == path else None
        for answer in answers(self, words, lines):
            assert others is None or next(others) == answer
            yield answer

    patch.setattr(Program, "check", check_both)
    patch.setattr(Program, "_answers", answers_both)


def set_day(monkeypatch: pytest.MonkeyPatch, seconds: int) -> None:
    """The clock has the day of this second since 1970, and outputs have its time."""
    time = datetime.fromtimestamp(seconds, timezone.utc)
    monkeypatch.setattr(clock, "today", time.date)
    monkeypatch.setenv("SOURCE_DATE_EPOCH", str(seconds))


def without_program(text: str) -> str:
    """An answer without version and checksum of the program: stored answers need not be of the program under test."""
    return re.sub("(?m)^(?:lib)?balisecheck( [0-9.]+)?, SHA-256 [0-9a-f]{64}: .+$", "balisecheck", text)


@pytest.fixture
def tmp_path(tmp_path_factory: pytest.TempPathFactory) -> Path:
    """A new folder. (To number it, pytest would read the names of all others.)"""
    return Path(tempfile.mkdtemp(dir=tmp_path_factory.getbasetemp()))


@pytest.fixture(scope="session")
def program() -> Program:
    """The program under test."""
    return Program.find()


def without_usual_opening(lines: Sequence[str]) -> List[str]:
    """The lines of an answer without those on the program under test, and on settings if they name no file."""
    program = program_words(Program.find())
    rest = [line for line in lines if line != program and (line[:10] != "settings: " or "SHA-256" in line)]
    return rest[1:] if rest[:1] == [""] and len(rest) < len(lines) else rest  # (`show` has a blank line after them)


@pytest.fixture
def run(capsys: pytest.CaptureFixture[str]) -> Run:
    """Runs words of the command line. How an answer usually begins is left out: test_opening.py has that."""

    def one(*words: object) -> Answer:
        try:
            status = cli.main([str(word) for word in words])
        except SystemExit as ended:
            status = int(ended.code or 0)
        said = capsys.readouterr()
        out, err = map(without_usual_opening, (said.out.splitlines(), said.err.splitlines()))
        return status, out, err

    return one


@pytest.fixture
def table(tmp_path: Path) -> Callable[..., Path]:
    """Writes a table of these lines, or bytes."""

    def write(*lines: str, content: bytes = b"", name: str = "table.csv") -> Path:
        path = tmp_path / name
        path.write_bytes(content or "".join(f"{line}\n" for line in lines).encode())
        return path

    return write

"""What ends a command before its answer: errors with their lines and exit status, absent packages and interrupts."""
from __future__ import annotations

import signal
import sys
from contextlib import contextmanager
from typing import Iterator, List, Optional, Sequence

SHOWN = 20
"""How many faults of a table are shown."""


class KitError(Exception):
    """There is no answer: an input cannot be read, or the program or a rule fails."""

    status = 3
    """As the command ends: 2 for an input that is refused, 3 if there is no answer."""

    def lines(self) -> List[str]:
        """The lines for the user."""
        return [str(self)]


class TableError(KitError):
    """A table, or another input, that cannot be read: where, and why."""

    status = 2

    def __init__(self, why: str, row: Optional[int] = None, column: str = "", line: Optional[int] = None) -> None:
        self.why, self.row, self.column, self.line = why, row, column, line
        self.path, self.faults = "", [self]
        super().__init__(why)

    def __str__(self) -> str:
        place = [f"row {self.row}"] if self.row is not None else [f"line {self.line}"] if self.line is not None else []
        place += [f"column {self.column}"] if self.column else []
        return ": ".join([*([self.path] if self.path else []), *([", ".join(place)] if place else []), self.why])


class TableErrors(KitError):
    """The faults of one table, a line each."""

    status = 2

    def __init__(self, faults: Sequence[TableError]) -> None:
        self.faults = sorted(faults, key=lambda fault: fault.row or fault.line or 0)
        super().__init__(str(self.faults[0]))

    def lines(self) -> List[str]:
        """The first faults, and how many more there are."""
        more = len(self.faults) - SHOWN
        return [str(fault) for fault in self.faults[:SHOWN]] + ([f"and {more} more"] if more > 0 else [])


@contextmanager
def faults_of(path: str) -> Iterator[None]:
    """The faults that are raised here are those of this file."""
    try:
        yield
    except (TableError, TableErrors) as error:
        for fault in error.faults:
            fault.path = path
        raise


class NoAnswer(KitError):
    """The program gave no answer, or is none that balisekit knows; or something that is needed is not there."""


class Terminated(KeyboardInterrupt):
    """SIGTERM or SIGHUP has ended the command."""

    def __init__(self, number: signal.Signals) -> None:
        self.signal = number
        super().__init__(number.name)


@contextmanager
def held() -> Iterator[None]:
    """SIGINT, SIGTERM and SIGHUP wait until the block has ended."""
    before = signal.pthread_sigmask(signal.SIG_BLOCK, (signal.SIGINT, signal.SIGTERM, signal.SIGHUP))
    try:
        yield
    finally:
        signal.pthread_sigmask(signal.SIG_SETMASK, before)


@contextmanager
def needed(name: str, purpose: str) -> Iterator[None]:
    """Where a package is imported: NoAnswer is raised if it is absent or broken.

    An import that is interrupted may raise what a broken package raises, so interrupts wait.
    """
    try:
        with held():
            yield
    except MemoryError:
        raise
    except Exception as error:  # a broken package raises whatever it likes
        is_debian = sys.executable.startswith("/usr/bin/")  # (pip refuses to install for it)
        remedy = "" if is_debian else f"`{sys.executable} -m pip install {name}`, or for /usr/bin/python3 "
        raise NoAnswer(
            f"{purpose} needs {name}, which {sys.executable} cannot import ({type(error).__name__}: {error}): "
            f"{remedy}`sudo apt-get install python3-{name}`"
        ) from error

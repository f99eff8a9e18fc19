"""The account of a file: each of its telegrams is judged, or refused, or named as not judged."""
from __future__ import annotations

from typing import Collection, Iterable, Mapping, NamedTuple, Optional, Sequence, Tuple


class NotJudged(NamedTuple):
    """Telegrams of a file that are not judged, and why."""

    why: str
    rows: Tuple[int, ...]
    """Each row once."""
    telegrams: int
    asked: bool = False
    """Whether an option of the command line asked for it."""
    columns: Tuple[str, ...] = ()
    """The heading of their column, unless it is the column of telegrams. Digits may be spread over several columns."""
    sheet: Optional[str] = None
    """Of a workbook."""
    formulas: int = 0
    """How many formulas there are instead of telegrams whose values are not stored. Each may be a telegram."""
    possible: int = 0
    """How many rows there are instead that could hold a telegram."""


class Account(NamedTuple):
    """What became of the telegrams of a table, or of the messages of a file.

    The reader begins it. Each later stage that leaves something out gives a new one, which has that too.
    """

    telegrams: int
    """How many there are in the file: what is read as one, and each other cell that looks like one."""
    rows: Tuple[int, int]
    """The first and the last row that was read."""
    refused: int = 0
    not_judged: Tuple[NotJudged, ...] = ()
    sheets: Tuple[str, ...] = ()
    """Of a workbook: the sheet that was read."""
    sheets_not_read: Tuple[str, ...] = ()
    columns_not_read: Tuple[str, ...] = ()

    @property
    def judged(self) -> int:
        """How many telegrams the verdict covers."""
        return self.telegrams - self.refused - sum(each.telegrams for each in self.not_judged)

    @property
    def overlooked(self) -> int:
        """How many telegrams are not judged, although no option of the command line asked for that."""
        return sum(each.telegrams for each in self.not_judged if not each.asked)

    @property
    def unknown(self) -> int:
        """How many formulas may be telegrams, because their values are not stored and no option leaves them out."""
        return sum(each.formulas for each in self.not_judged if not each.asked)

    @property
    def possible(self) -> int:
        """How many rows could hold a telegram in what is not read, and no option leaves them out."""
        return sum(each.possible for each in self.not_judged if not each.asked)

    @property
    def is_whole(self) -> bool:
        """Whether everything was read that could be a telegram, or was left out by an option."""
        return not (self.overlooked or self.unknown or self.possible)

    def refusing(self, count: int) -> Account:
        """The same account with this many more telegrams refused."""
        return self._replace(refused=self.refused + count)

    def without(self, why: str, rows: Collection[int], asked: bool = False) -> Account:
        """The same account with the telegrams of these rows not judged."""
        left_out = NotJudged(why, tuple(sorted(rows)), len(rows), asked, sheet=next(iter(self.sheets), None))
        return self._replace(not_judged=(*self.not_judged, left_out)) if rows else self


def of_rows(numbers: Sequence[int]) -> Account:
    """The account of rows with a telegram each, in a file that has nothing else."""
    return Account(len(numbers), (numbers[0], numbers[-1]) if numbers else (0, 0))


def elsewhere(
    why: str, numbers: Iterable[int], asked: bool, columns: Sequence[str] = (), sheet: Optional[str] = None
) -> NotJudged:
    """Telegrams that are not in the column that is read. The row of each is given."""
    rows = list(numbers)
    return NotJudged(why, tuple(sorted(set(rows))), len(rows), asked, tuple(columns), sheet)


def of_formulas(
    why: str, numbers: Iterable[int], asked: bool, columns: Sequence[str] = (), sheet: Optional[str] = None
) -> NotJudged:
    """The same for formulas whose values are not stored."""
    rows = list(numbers)
    return elsewhere(why, rows, asked, columns, sheet)._replace(telegrams=0, formulas=len(rows))


def of_digits(
    remedy: str, digits: Mapping[int, int], asked: bool, columns: Sequence[str] = (), sheet: Optional[str] = None
) -> NotJudged:
    """The same for rows that could hold a telegram, with how many digits each of them has."""
    first = min(digits)
    why = f"row {first} has {digits[first]} hexadecimal digits there: {remedy}"
    return elsewhere(why, digits, asked, columns, sheet)._replace(telegrams=0, possible=len(digits))

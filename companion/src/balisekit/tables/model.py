"""The data of a line as a table has it: rows, aspects, groups and messages."""
from __future__ import annotations

from dataclasses import dataclass, field
from decimal import Decimal
from functools import cached_property
from typing import Dict, Iterator, NamedTuple, Optional, Sequence, Tuple

from balisekit.io.inputs import current_folder
from balisekit.tables.account import Account


class Row(NamedTuple):
    """One telegram of the table."""

    number: int
    """As a spreadsheet counts."""
    group: str
    """The group's name."""
    telegram: str
    """The digits that are handed to the program."""
    cell: str = ""
    """What the table has in the telegram's cell."""
    aspect: str = ""
    balise: Optional[int] = None
    """The number in the column `balise`, if the table has it."""
    name: str = ""
    """The balise's own name."""
    km: Optional[Decimal] = None
    track: str = ""
    nominal: str = ""
    """How the kilometres go in nominal direction: `rising`, `falling` or nothing."""


class Aspect(NamedTuple):
    """One content of a group: its balises in nominal order."""

    name: str
    rows: Tuple[Row, ...]


@dataclass(frozen=True)
class Group:
    """A balise group. One that no signal controls has one aspect."""

    name: str
    aspects: Tuple[Aspect, ...]

    def __repr__(self) -> str:
        return f"<Group {self.name!r}>"

    def rows(self) -> Iterator[Row]:
        """All rows of the group. A row of every aspect comes once for each."""
        for aspect in self.aspects:
            yield from aspect.rows

    @property
    def each_row(self) -> Sequence[Row]:
        """All rows of the group, each once."""
        return self.aspects[0].rows if len(self.aspects) == 1 else list(self._by_number.values())

    def row(self, number: int) -> Optional[Row]:
        """The row with this number, if the group has it."""
        if len(self.aspects) == 1:
            return next((row for row in self.aspects[0].rows if row.number == number), None)
        return self._by_number.get(number)

    @cached_property
    def _by_number(self) -> Dict[int, Row]:
        return {row.number: row for row in self.rows()}

    @cached_property
    def track(self) -> str:
        """The name of its track, or nothing. Each entry of the group asks for it."""
        return next((row.track for row in self.rows() if row.track), "")

    @cached_property
    def places(self) -> Dict[int, int]:
        """The place of each row's balise in nominal order, by the number of the row."""
        return {row.number: place for aspect in reversed(self.aspects) for place, row in enumerate(aspect.rows)}


class Reading(NamedTuple):
    """How a table is read, by the options of commands and of Python."""

    sheet: Optional[str] = None
    """The sheet that was named."""
    skip_column: Tuple[str, ...] = ()
    """The headings of columns that are not to be read."""
    by_position: bool = False
    """Whether balises are ordered by N_PIG."""
    fill_merged: bool = False
    """Whether all cells of a merged area have the value of its first cell."""


@dataclass(frozen=True)
class Table:
    """A table as it was read."""

    path: str
    """The file."""
    sha256: str
    """The checksum of the file."""
    encoding: str
    """`utf-8`, `utf-16`, `windows-1252` or `xlsx`."""
    separator: str
    passed_over: Tuple[str, ...]
    """The headings of the columns that are not used."""
    rows: Tuple[Row, ...]
    """In the order of the table, but those of each group together."""
    groups: Tuple[Group, ...]
    account: Account
    """What became of the telegrams of the file, as far as the table was read."""
    notes: Tuple[str, ...] = ()
    """What the user should know about how the table was read."""
    own: Tuple[str, ...] = ()
    """The headings that are in it because a file of settings states them."""
    meant: Tuple[str, ...] = ()
    """Of the first 1,000 headings that are passed over: the one for which each may have been mistyped, or nothing."""
    columns: Optional[str] = None
    """The file of settings that was named for it."""
    reading: Reading = Reading()
    """How it was read."""
    folder: str = field(default_factory=current_folder)
    """The folder from which these paths start: the current one when the table was read."""

    def __repr__(self) -> str:
        return f"<Table {self.path}: {len(self.rows)} telegrams of {len(self.groups)} groups>"


class Message(NamedTuple):
    """One radio message of a file of messages."""

    number: int
    """The number of its line, counted from 1."""
    text: str
    """The digits that are handed to the program."""
    cell: str = ""
    """What the line has before the name."""
    name: str = ""


class Messages(NamedTuple):
    """A file of radio messages as it was read."""

    path: str
    """The file."""
    sha256: str
    """The checksum of the file."""
    encoding: str
    messages: Tuple[Message, ...]
    account: Account
    folder: str = ""
    """The folder from which the path starts, if the file was read by itself."""

    def __repr__(self) -> str:
        return f"<Messages {self.path}: {len(self.messages)} messages>"

"""Values that a user states by options of commands or in Python: TableError is raised for what is none."""
from __future__ import annotations

import os
import re
from decimal import Decimal
from typing import Iterable, Optional, Sequence

from balisekit.errors import TableError
from balisekit.tables.model import Table
from balisekit.tables.names import passed_over

GREATEST_TOLERANCE = 20
"""In metres. With a greater one no distance to a neighbouring balise or stop location would be compared."""


def tolerance(value: object) -> Decimal:
    """A number of metres that places may differ by."""
    text = str(value)
    is_number = not isinstance(value, bool) and re.fullmatch(r"[0-9]{1,5}([.,][0-9]0*)?", text)
    metres = Decimal(text.replace(",", ".")) if is_number else None
    if metres is None or metres > GREATEST_TOLERANCE:
        raise TableError(f"{text[:40]} is no number of metres from 0 to {GREATEST_TOLERANCE}: write 5 or 2.5")
    return metres


def name(text: object) -> str:
    """A name that is not empty, as an unset variable of a shell is."""
    if not isinstance(text, str) or not text:
        raise TableError("the name is empty" if text == "" else f"{str(text)[:40]} is no name")
    return text


def path(text: object) -> str:
    """A path as a text. That of a Python library can be an object."""
    found = os.fspath(text) if isinstance(text, os.PathLike) else text
    if not isinstance(found, str):
        raise TableError(f"{str(text)[:40]} is no path")
    return name(found)


def look_at_list(argument: str, values: object) -> None:
    """Raises TableError if the value of this argument of Python is no list."""
    if isinstance(values, str):
        raise TableError(f"{argument} is one text: write [{values[:40]!r}]")
    if not isinstance(values, Iterable):
        raise TableError(f"{argument} is {str(values)[:40]}, and no list")


def look_at_switches(**values: object) -> None:
    """Raises TableError if the value of one of these arguments of Python is neither True nor False."""
    for argument, value in values.items():
        if not isinstance(value, bool):
            raise TableError(f"{argument} is {str(value)[:40]!r}: write True or False")


def reading(sheet: Optional[str], columns: Optional[str], skip_columns: Sequence[str]) -> None:
    """Looks at how a table is to be read."""
    look_at_list("skip_columns", skip_columns)
    for each in (sheet, columns, *skip_columns):
        if each is not None:
            name(each)


def refuse_without_kilometres(table: Table) -> None:
    """Raises TableError if no row of the table has a kilometre, which rules over the line need."""
    if all(row.km is None for row in table.rows):
        why = f"{table.path}: no row has a kilometre: links needs the column km"
        raise TableError("; ".join([why, *passed_over(table)]))

"""kilometres in metres: the column km looks like metres.

What it says. All numbers of the column km are whole, and they are so far apart that they are metres rather than
kilometres: balises of one group a kilometre or more from each other, or all groups 50 km or more.

Why it matters. To be looked at: every place and every distance by the kilometres is then wrong by a factor of 1,000.

Usual cause. The column was taken from a list in metres.

How to correct it. Write kilometres, such as 13.850 or 13+850.
"""
from __future__ import annotations

from typing import Iterator

from balisekit.rules.line import Line
from balisekit.rules.location import Location
from balisekit.rules.rule import Options, Remark, Result, Rule
from balisekit.tables.model import Row

LEAST = 100
"""A table in metres has a greater number."""
APART = 50
"""On no line are all groups this many kilometres from the next one."""


def find(line: Line, options: Options) -> Result:
    """Looks at all kilometres, as long as they are whole numbers."""
    first = next(_rows(line), None)
    if first is None or any(row.km != int(row.km or 0) for row in _rows(line)):
        return Result([], int(first is not None))
    known = sorted({int(row.km or 0) for row in _rows(line)})
    wide = any(len({row.km for row in group.rows() if row.km is not None}) > 1 for group in line.table_groups)
    least = min((high - low for low, high in zip(known, known[1:])), default=0)
    if not (wide and known[-1] >= LEAST or len(known) > 2 and least >= APART):
        return Result([], 1)
    sentence = f"the column km has whole numbers only, {known[0]} to {known[-1]}: are they metres?"
    return Result([Remark(RULE.name, Location(row=first), sentence)], 1)


def _rows(line: Line) -> Iterator[Row]:
    return (row for group in line.table_groups for row in group.rows() if row.km is not None)


RULE = Rule("kilometres in metres", "columns", __doc__ or "", find)

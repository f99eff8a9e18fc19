"""Decimal commas without quotes, in a file with commas between its cells: the next cell has the metres."""
from __future__ import annotations

from itertools import islice
from typing import List, Mapping, Sequence

from balisekit.errors import TableError
from balisekit.expressions import expression
from balisekit.tables.cells import Sheet

WHOLE, DIGITS, METRES = expression("[-\u2212]?[0-9]{1,4}"), expression("[0-9]{1,6}"), expression("[0-9]{3}")


def faults(sheet: Sheet, begin: int, width: int, places: Mapping[str, int], name: str = "km") -> List[TableError]:
    """A fault for each row below row `begin` whose kilometre seems to be in two cells.

    `width` is the number of cells of the heading. `places` has the columns that are read, and `name` is the name of the
    column of kilometres. Digits in a column that is read are metres only if the row has a cell too many, or if all
    kilometres look like that.
    """
    if sheet.separator != "," or name not in places:
        return []
    at, rows = places[name], list(enumerate(islice(sheet.rows, begin, None), begin + 1))
    found = [(number, row) for number, row in rows if _is_in_two(row, at) and not any(map(str.strip, row[width:]))]
    filled = sum(any(map(str.strip, row[at : at + 1])) for _, row in rows) if found else 0
    are_all = len(found) == filled and any(METRES.fullmatch(row[at + 1].strip()) for _, row in found)
    if at + 1 in places.values() and not are_all:
        found = [(number, row) for number, row in found if len(row) > width]
    return [TableError(_why(row[at].strip(), row[at + 1].strip()), number, name) for number, row in found]


def _is_in_two(row: Sequence[str], at: int) -> bool:
    """Whether a whole kilometre and digits are beside each other."""
    if at + 1 >= len(row):
        return False
    return bool(DIGITS.fullmatch(row[at + 1].strip()) and WHOLE.fullmatch(row[at].strip()))


def _why(whole: str, metres: str) -> str:
    remedy = f"if it is not, write {whole}.000"
    return f"{whole}, and the next cell has {metres}: is this a decimal comma that is not quoted? {remedy}"

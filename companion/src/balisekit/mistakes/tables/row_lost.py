"""A row of the table is missing.

In real life. A filter was on when the table was exported, or the last row was not copied.

Here. One row is taken out of the table.

For a train. A balise is not programmed, or has the telegram of an older release.
"""
from __future__ import annotations

from typing import Optional

from balisekit.mistakes.mistake import Change
from balisekit.mistakes.of_rows import mistake_of, rows_of, without
from balisekit.mistakes.original import Original
from balisekit.tables.model import Row


def altered(original: Original, row: Row) -> Optional[Change]:
    """The table without a row. The rows to correct are those of its group, since the row itself is gone.

    If the group has no other row, it is gone too, and they are those of its neighbours.
    """
    group = original.group_of[row.number]
    others = frozenset(each.number for each in group.each_row if each is not row)
    if not others:
        return without(original, group)
    return Change(f"row {row.number} is missing", others, lost=frozenset({row.number}))


MISTAKE = mistake_of(__name__, __doc__, rows_of, altered)

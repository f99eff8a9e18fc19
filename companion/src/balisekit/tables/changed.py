"""A table with other cells, as the reader of tables would have read it."""
from __future__ import annotations

from dataclasses import replace
from typing import Any, Collection, Mapping

from balisekit.tables.grouping import groups_of
from balisekit.tables.model import Aspect, Group, Row, Table

Cells = Mapping[int, Mapping[str, Any]]
"""The cells that differ: by row, and by the name of the field of `Row`."""
OF_TELEGRAM = frozenset({"telegram", "cell"})
"""The fields that decide nothing of how rows are grouped."""


def changed_table(table: Table, cells: Cells, lost: Collection[int] = (), by_position: bool = False) -> Table:
    """The table with other cells, and without the `lost` rows.

    TableError or TableErrors is raised if the reader of tables refuses the changed rows.
    """
    if not lost and all(OF_TELEGRAM.issuperset(own) for own in cells.values()):
        rows = tuple(_changed(row, cells) for row in table.rows)
        return replace(table, rows=rows, groups=tuple(_changed_group(group, cells) for group in table.groups))
    kept = [_changed(row, cells) for row in table.rows if row.number not in lost]
    grouped = groups_of(kept, by_position)
    return replace(table, rows=grouped.rows, groups=grouped.groups, notes=(*table.notes, *grouped.notes))


def _changed(row: Row, cells: Cells) -> Row:
    own = cells.get(row.number)
    return row if own is None else row._replace(**own)


def _changed_group(group: Group, cells: Cells) -> Group:
    """A group some of whose telegrams have changed."""
    if not any(row.number in cells for row in group.each_row):
        return group
    aspects = (Aspect(each.name, tuple(_changed(row, cells) for row in each.rows)) for each in group.aspects)
    return Group(group.name, tuple(aspects))

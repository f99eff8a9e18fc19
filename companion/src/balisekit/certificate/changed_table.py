"""The table and the messages of a line after a mistake."""
from __future__ import annotations

from typing import Any, Dict, Mapping, Optional

from balisekit.errors import TableError
from balisekit.mistakes.mistake import Change
from balisekit.tables import changed
from balisekit.tables.model import Messages, Table
from balisekit.tables.reader import MEANINGS


def changed_table(table: Table, change: Change, texts: Mapping[int, str], by_position: bool = False) -> Table:
    """The table after a change. `texts` has the new digits of telegrams, by row.

    TableError or TableErrors is raised if the reader of tables refuses the changed cells or rows.
    """
    _look_at_cells(change)
    cells: Dict[int, Mapping[str, Any]] = {
        row: {"telegram": text, "cell": text, **change.cells.get(row, {})} for row, text in texts.items() if row > 0
    }
    lost = {row for row in change.lost if row > 0}
    return changed.changed_table(table, {**change.cells, **cells}, lost, by_position)


def _look_at_cells(change: Change) -> None:
    """TableError is raised for a cell that the reader of tables refuses, such as a kilometre of five digits."""
    for row, cells in change.cells.items():
        for column, value in cells.items():
            try:
                MEANINGS[column]("" if value is None else str(value), "")
            except TableError as error:
                raise TableError(error.why, row, column) from error


def changed_messages(messages: Optional[Messages], change: Change, texts: Mapping[int, str]) -> Optional[Messages]:
    """The messages after a change, if there are any."""
    if messages is None or not any(place < 0 for place in (*texts, *change.lost)):
        return messages
    kept = [each for each in messages.messages if -each.number not in change.lost]
    made = [each._replace(text=texts.get(-each.number, each.text)) for each in kept]
    return messages._replace(messages=tuple(made))

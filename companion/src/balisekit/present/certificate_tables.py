"""The examples of a certificate as files: the table with one mistake, and the messages if the mistake is in them."""
from __future__ import annotations

from typing import Any, Dict, Iterator, List, Mapping, NamedTuple, Sequence

from balisekit.certificate.certificate import Certificate
from balisekit.certificate.trials import Trial
from balisekit.io import csv_writing
from balisekit.tables.model import Messages, Row, Table

COLUMNS = ("group", "name", "km", "track", "nominal", "aspect", "balise", "telegram")
"""The headings of the file, in their order."""


class Example(NamedTuple):
    """A file with one mistake."""

    name: str
    text: str
    words: str
    """The answer of the check, and the mistake."""


def examples(made: Certificate) -> Iterator[Example]:
    """The example of each kind of mistakes, in a file that the kind names."""
    checked = made.outcome.checked
    for name, score in made.by_kind().items():
        if score.example is None:
            continue
        trial, judgement = score.example
        file, words = name.replace(" ", "-"), f"{judgement.answer.value}: {trial.change.words}"
        if checked.messages is not None and any(place < 0 for place in (*trial.texts, *trial.change.lost)):
            yield Example(f"{file}.txt", messages_text(checked.messages, trial), words)
        else:
            yield Example(f"{file}.csv", table_text(checked.table, trial), words)


def table_text(table: Table, trial: Trial) -> str:
    """The table after a change. Each row has the number that it had: a row that is lost is empty."""
    rows: Dict[int, Row] = {row.number: row for row in table.rows if row.number not in trial.change.lost}
    for number, row in rows.items():
        cells: Mapping[str, Any] = trial.change.cells.get(number, {})
        rows[number] = row._replace(cell=trial.texts.get(number, row.cell))._replace(**cells)
    return csv_writing.text(COLUMNS, (_cells(rows[n]) if n in rows else [""] * 8 for n in range(2, max(rows) + 1)))


def _cells(row: Row) -> Sequence[str]:
    """The cells of a row."""
    own = (row.group, row.name, row.km, row.track, row.nominal, row.aspect, row.balise, row.cell)
    return ["" if each is None else str(each) for each in own]


def messages_text(messages: Messages, trial: Trial) -> str:
    """The file of messages after a change. Each message is in the line in which it was."""
    lines: List[str] = [""] * max(each.number for each in messages.messages)
    for each in messages.messages:
        if -each.number not in trial.change.lost:
            text = trial.texts.get(-each.number, each.cell)
            lines[each.number - 1] = f"{text};{each.name}" if each.name else text
    return "".join(f"{line}\n" for line in lines)

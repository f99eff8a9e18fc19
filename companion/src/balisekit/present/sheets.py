"""Sheets: the variables of a table, their comparison with a sheet in words, and the entries of `check` for a team."""
from __future__ import annotations

from typing import Iterator, List, Union

from balisekit.compare.sheet import COLUMNS, Compared, Difference, Sheet
from balisekit.io import csv_writing, xlsx_writing
from balisekit.present.account_text import overlooked_lines
from balisekit.present.headings import added, entries_counted
from balisekit.present.opening import opening, paths_from
from balisekit.present.outcome_text import Kind, lines_but
from balisekit.present.refusals import lacking, refused_lines
from balisekit.rules.checking import Checked
from balisekit.rules.entries import Entry
from balisekit.rules.families import Outcome
from balisekit.tables.names import clean, counted, describe_balise, quoted

NUMBERS = ("balise", "raw", "value")
"""The columns whose numbers are stored as numbers in an .xlsx."""
ENTRIES = ("rule", "urgency", "identity", "group", "rows", "values", "sentence", "owner", "state", "reason")
FOLDED_ABOVE = "folded below it, in the next rows: {}"
WIDTHS = (6, 18, 12, 24, 12, 32, 80, 16, 10, 40)
"""Of the columns of ENTRIES, in characters."""


def csv_pieces(sheet: Sheet) -> Iterator[str]:
    """The CSV file."""
    return csv_writing.pieces(COLUMNS, (list(map(clean, found.cells)) for found in sheet.all()))


def xlsx_pieces(sheet: Sheet, checked: Checked) -> Iterator[bytes]:
    """The workbook, with what was left out of it."""
    rows = ([_cell(column, clean(text)) for column, text in zip(COLUMNS, found.cells)] for found in sheet.all())
    left_out = [*refused_lines(checked), *overlooked_lines(checked.table), *incomplete(checked)]
    answer = [*opening(checked, shown=paths_from(checked)), *left_out]
    return xlsx_writing.pieces("variables", COLUMNS, rows, answer=answer, is_whole=checked.whole)


def incomplete(checked: Checked) -> List[str]:
    """The last line of a sheet from which something was left out."""
    return [] if checked.whole else [f"INCOMPLETE: {', '.join(lacking(checked))}"]


def _cell(column: str, text: str) -> Union[str, int, float]:
    if column in NUMBERS and text.lstrip("+-").replace(".", "", 1).isdigit() and text.isascii():
        return float(text) if "." in text else int(text)
    return text


def difference_words(each: Difference) -> str:
    """A difference in a line: the row of the sheet, both values, and which variable it is."""
    if each.place is None:
        return f"row {each.row} of the sheet: {clean(each.what)}"
    row, group, variable, _ = each.place
    parts = [describe_balise(group, row)]
    parts += [f"packet {variable.packet}"] if variable.packet else []
    parts += [variable.element] if variable.element else []
    unit = f" {variable.unit}" if each.column == "value" and variable.unit else ""
    found = f"{quoted(each.found)}{unit}" if each.found else "nothing"
    where = "  ".join([*parts, variable.name])
    of_sheet = f"row {each.row} of the sheet, column {each.column}"
    return f"{of_sheet}: expected {quoted(each.expected)}, found {found}: {where}"


def last_line(checked: Checked, compared: Compared) -> str:
    """How many cells differ, and what was compared."""
    count, path = len(compared.differences), clean(compared.path)
    parts = lacking(checked)
    parts += [f"{counted(compared.refused, 'row')} of the sheet about them not compared"] if compared.refused else []
    said = f"differences {count}; compared: {counted(compared.rows - compared.refused, 'row')} of {path}"
    left = compared.variables - compared.seen
    said += f"; not in the sheet: {left} of {compared.variables} variables" if left else ""
    return f"INCOMPLETE: {', '.join(parts)}; {said}" if parts else said


def lines(checked: Checked, compared: Compared) -> Iterator[str]:
    """The comparison in words."""
    yield from (f"note: {clean(note)}" for note in compared.notes)
    yield from map(difference_words, compared.differences)
    yield last_line(checked, compared)


def entries_pieces(outcome: Outcome) -> Iterator[bytes]:
    """The workbook of entries. NoAnswer is raised if the package that writes it is absent."""
    rows = ([clean(text) or None for text in row] for entry in outcome.entries for row in _rows(outcome, entry))
    answer = [line.text for line in lines_but(outcome, Kind.ENTRY)]
    return xlsx_writing.pieces("entries", ENTRIES, rows, WIDTHS, "an .xlsx", answer, outcome.status != 2)


def _rows(outcome: Outcome, entry: Entry) -> Iterator[List[str]]:
    """An entry, and the entries that are folded below it."""
    yield _row(outcome, entry, FOLDED_ABOVE.format(entries_counted(len(entry.folded))) if entry.folded else "")
    yield from (_row(outcome, folded, state="folded") for folded in entry.folded)


def _row(outcome: Outcome, entry: Entry, more: str = "", state: str = "") -> List[str]:
    """One entry. The team writes in who looks after an open one."""
    identity, accepted = outcome.identity(entry), outcome.acceptances(entry)
    about = entry.group.name if entry.group else entry.message.name if entry.message else ""
    return [
        entry.rule,
        entry.urgency.name.lower().replace("_", " "),
        "/".join(map(str, identity)) if identity else "",
        about,
        ", ".join(map(str, entry.rows)),
        "; ".join(f"{name} {value}" for name, value in entry.values.items()),
        "; ".join([entry.sentence, *added(entry), *([more] if more else [])]),
        "; ".join(dict.fromkeys(each.who for each in accepted)),
        state or ("accepted" if accepted else "open"),
        "; ".join(dict.fromkeys(each.reason for each in accepted)),
    ]

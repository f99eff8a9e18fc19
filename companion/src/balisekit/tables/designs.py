"""The files of a design: workbooks with one sheet a kind, and CSV files with a column `kind`. Together they are one.

A sheet of a workbook has the name of its kind, and needs no column `kind`; or it has another name and this column. A
sheet of another name without any heading of a design, such as a title page, is not read, and the files say so. A sheet
that has such headings is never passed over: it is refused, since its name may be mistyped.
"""
from __future__ import annotations

import os
from typing import List, NamedTuple, Optional, Sequence, Tuple

from balisekit.errors import TableError, TableErrors, faults_of
from balisekit.io import inputs
from balisekit.tables import csv as csv_file
from balisekit.tables.cells import Sheet
from balisekit.tables.encoding import WORKBOOKS
from balisekit.tables.headings import SEARCHED, Headings, alike
from balisekit.tables.names import clean, quoted
from balisekit.tables.own_headings import DESIGN
from balisekit.tables.plan import (
    NEEDED,
    READERS,
    ROWS_OF_SHEET,
    THE_PLAN,
    DesignFile,
    Plan,
    PlanRow,
    refuse_clashes,
    rows_of,
)

THE_DESIGN = "the design"
"""What a sentence calls the only file of a design."""
FEWEST = 2
"""How many headings of a design a row of a sheet has at least that is no title page."""


class _Sheet(NamedTuple):
    """A sheet of a design before its rows are read."""

    cells: Sheet
    headings: Headings
    kind: str = ""
    """That of its rows, if its name states it."""
    source: str = THE_DESIGN
    """What a sentence calls it."""


def read(plan: Optional[str], designs: Sequence[str], headings: Headings = Headings(DESIGN)) -> Plan:
    """The design of these files, of which the plan is one. TableError or TableErrors is raised for what is no design.

    `headings` are those that the user has given to columns of designs. A plan can have them too.
    """
    paths = [*([plan] if plan is not None else []), *designs]
    rows: List[PlanRow] = []
    files: List[DesignFile] = []
    sheets_before = 0
    for path in paths:
        only = (THE_DESIGN if designs else THE_PLAN) if len(paths) == 1 else ""
        file = inputs.read_settings(path)
        with faults_of(path):
            sheets, others = _sheets_of(file.content, headings, only or clean(os.path.basename(path)), bool(only))
            own = [row for at, each in enumerate(sheets, sheets_before) for row in _rows_of(each, at * ROWS_OF_SHEET)]
            if not own:
                raise TableError("the design has no row below its headings")
        rows += own
        sheets_before += len(sheets)
        names = tuple(each.cells.name for each in sheets if each.cells.name)
        notes = tuple(note for each in sheets for note in each.cells.notes)
        files.append(DesignFile(path, file.sha256, len(own), names, others, notes))
    with faults_of(paths[0]):
        refuse_clashes(rows)
    return Plan(paths[0], files[0].sha256, tuple(rows), tuple(files))


def _sheets_of(content: bytes, own: Headings, name: str, is_only: bool) -> Tuple[List[_Sheet], Tuple[str, ...]]:
    """The sheets of a file with rows of a design, and the names of the other sheets of a workbook."""
    with_kind = own._replace(needed=NEEDED)
    if not content.startswith(WORKBOOKS):
        return [_Sheet(csv_file.read(content, with_kind), with_kind, source=name)], ()
    from balisekit.tables import xlsx as xlsx_file  # (a CSV needs no zip and no XML)

    sheets: List[_Sheet] = []
    others: List[str] = []
    for cells in xlsx_file.read_all(content):
        kind = cells.name.strip().lower()
        source = f"sheet {quoted(cells.name)}{'' if is_only else f' of {name}'}"
        if kind in READERS:
            sheets += [_Sheet(cells, own, kind, source)] if _is_filled(cells) else []
        elif with_kind.row_of(cells.rows) is not None:
            sheets.append(_Sheet(cells, with_kind, source=source))
        else:
            _refuse_mistyped(cells, own)
            others += [cells.name] if _is_filled(cells) else []
    return sheets, tuple(others)


def _is_filled(cells: Sheet) -> bool:
    return any(any(map(str.strip, row)) for row in cells.rows)


def _refuse_mistyped(cells: Sheet, headings: Headings) -> None:
    """TableError is raised for a sheet with headings of a design, or with almost the name of a kind, which is none."""
    meant = alike(cells.name.strip().lower(), READERS)
    has_headings = any(len(headings.places(row)) >= FEWEST for row in cells.rows[:SEARCHED])
    if has_headings or meant and _is_filled(cells):
        hint = f'did you mean "{meant}"?' if meant else f"a sheet has the name of its kind: {', '.join(READERS)}"
        raise TableError(f"sheet {quoted(cells.name)}: this name is no kind: {hint}")


def _rows_of(sheet: _Sheet, before: int) -> Tuple[PlanRow, ...]:
    """The rows of a sheet. A fault of a workbook names its sheet."""
    try:
        return rows_of(sheet.cells, sheet.headings, sheet.kind, sheet.source, before)
    except (TableError, TableErrors) as error:
        for fault in error.faults if sheet.cells.name else ():
            fault.why = f"sheet {quoted(sheet.cells.name)}: {fault.why}"
        raise

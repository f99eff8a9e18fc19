"""`balisekit table`: all variables of a table in one flat sheet, and what differs from a sheet that is expected."""
from __future__ import annotations

import argparse
from dataclasses import replace
from typing import List, Sequence

from balisekit.cli import options as shared
from balisekit.cli.in_force import in_force
from balisekit.compare.sheet import Sheet, compare
from balisekit.errors import TableError
from balisekit.present import sheets
from balisekit.present.account_text import overlooked_lines
from balisekit.present.check_text import head_line
from balisekit.present.opening import opening
from balisekit.present.refusals import refused_lines
from balisekit.rules import checking
from balisekit.rules.checking import Checked
from balisekit.tables import expected
from balisekit.tables.names import clean, notes_on

EXPECT = "a CSV file or an .xlsx with the columns that table writes: compare it with the table"


def add_options(parser: argparse.ArgumentParser) -> None:
    """The options of this command."""
    shared.add(parser, "table", "--by-position", *shared.READING, "--program", "--timeout")
    parser.add_argument("--csv", **shared.output_file("write the sheet as CSV"))
    parser.add_argument("--xlsx", **shared.output_file("write the sheet as a workbook"))
    parser.add_argument("--expect", **shared.input_file(EXPECT))
    shared.add(parser, "--all", "--force")
    parser.set_defaults(messages=None)


def run(options: argparse.Namespace) -> int:
    """Does it. The answer is the exit status."""
    if not (options.csv or options.xlsx or options.expect):
        raise TableError("name what to do: --csv FILE or --xlsx FILE writes the sheet, --expect FILE compares one")
    wanted = expected.read(options.expect, options.columns) if options.expect else None
    checked = checking.check(*shared.inputs(options), options.by_position, options.all)
    checked = replace(checked, settings=in_force(options, [checked.table, *([wanted] if wanted else [])]))
    sheet = Sheet(checked)
    if options.csv:
        options.csv.write(sheets.csv_pieces(sheet))
    if options.xlsx:
        options.xlsx.write(sheets.xlsx_pieces(sheet, checked))
    said = _lines(options, checked, sheet.notes)
    status = 0 if checked.whole else 2
    if wanted:
        compared = compare(checked, wanted)
        said += sheets.lines(checked, compared)
        status = status or (1 if compared.differences else 0)
    else:
        said += sheets.incomplete(checked)
    shared.say(said, options.csv, options.xlsx)
    return status


def _lines(options: argparse.Namespace, checked: Checked, directions: Sequence[str]) -> List[str]:
    """What was read and written, and which telegrams are refused."""
    table = checked.table
    written = [f"written: {clean(str(output))}" for output in (options.csv, options.xlsx) if output]
    notes = [*notes_on(table), *(f"note: {clean(note)}" for note in directions)]
    begin = [head_line(table), *opening(checked)]
    return [*begin, *notes, *refused_lines(checked), *overlooked_lines(table), *written]

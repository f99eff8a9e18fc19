"""`balisekit design`: a design as the telegrams of a table imply it, so that a team starts by correcting one.

Such a design confirms nothing: it says what the telegrams say. A row confirms once an engineer is named in it.
"""
from __future__ import annotations

import argparse
from collections import Counter
from dataclasses import replace
from itertools import chain
from typing import Iterator, List

from balisekit.cli import options as shared, settings
from balisekit.cli.in_force import in_force
from balisekit.io import csv_writing
from balisekit.io.outputs import Output
from balisekit.present.account_text import overlooked_lines
from balisekit.present.check_text import head_line
from balisekit.present.opening import opening
from balisekit.present.refusals import lacking, refused_lines
from balisekit.rules import checking
from balisekit.rules.checking import Checked
from balisekit.rules.line import Line
from balisekit.rules.passed_over import PassedOver, Rules, notes_of
from balisekit.rules.rule import Options
from balisekit.rules.track_plan.implied import Made, implied
from balisekit.tables.names import clean, notes_on
from balisekit.tables.own_headings import DESIGN
from balisekit.tables.plan import COLUMNS, MADE, cells

OF_DESIGN = Rules("the design", "the design", compare="has")
"""What the design needs of a group."""
NO_TRACK = "no track, although other groups have one: its rows of the design have none either"
OLD_NAME = "plan is an older name of design, which also states every key of an aspect, and a column who"


def add_options(parser: argparse.ArgumentParser) -> None:
    """The options of this command."""
    shared.add(parser, *shared.INPUTS)
    parser.add_argument("--jumps", **shared.input_file(settings.JUMPS))
    file = shared.output_file("the file to write; by default standard output")
    parser.add_argument("--csv", **file, default=Output("-"))
    shared.add(parser, "--all", "--force")


def run(options: argparse.Namespace) -> int:
    """Does it. The answer is the exit status."""
    return write(options, is_plan=False)


def write(options: argparse.Namespace, is_plan: bool) -> int:
    """Writes the design, or a plan, which has neither a title nor a column `who`."""
    jumps = settings.jumps(options)
    checked = checking.check(*shared.inputs(options), options.by_position, options.all)
    checked = replace(checked, settings=in_force(options, [checked.table], ("jumps", "plan", "design")))
    line = Line.of(checked, jumps)
    made = implied(line, Options(jumps=jumps), in_full=not is_plan)
    made = made._replace(notes=[*([OLD_NAME] if is_plan else []), *made.notes, *_left_out(line)])
    columns, title = (COLUMNS, []) if is_plan else (DESIGN, [f"{MADE}\n"])
    rows = ((*cells(row), "")[: len(columns)] for row in made.rows)
    options.csv.write(chain(title, csv_writing.pieces(columns, rows)))
    shared.say(_lines(options, checked, made), options.csv)
    return 0 if checked.whole else 2


def _left_out(line: Line) -> Iterator[str]:
    """Notes on what the design does not place: groups and messages, or all of them."""
    if not line.along:
        yield "no row has a kilometre: the design has only aspects"
    yield from OF_DESIGN.notes(line)
    tracks = {group.track for group in line.groups}
    without = [PassedOver(group.group, NO_TRACK) for group in line.groups if not group.track]
    yield from notes_of(without) if len(tracks) > 1 else ()


def _lines(options: argparse.Namespace, checked: Checked, made: Made) -> List[str]:
    """What was read and written. The last line counts the rows, or says that telegrams were refused."""
    counts = Counter(row.kind for row in made.rows)
    written = ", ".join(f"{kind} {count}" for kind, count in counts.items()) or "no row"
    last = f"written: {clean(str(options.csv))}: {written}"
    return [
        head_line(checked.table),
        *opening(checked),
        *notes_on(checked.table),
        *(f"note: {clean(note)}" for note in made.notes),
        *refused_lines(checked),
        *overlooked_lines(checked.table),
        last if checked.whole else f"INCOMPLETE: {', '.join(lacking(checked))}; {last}",
    ]

"""`balisekit report`: one page of HTML that goes into the safety file."""
from __future__ import annotations

import argparse
import os
import shlex
from typing import Iterator

from balisekit.cli import options as shared, settings
from balisekit.cli.in_force import in_force
from balisekit.cli.outcome import add_only, letters_of, links_of, outcome as outcome_of, stated
from balisekit.cli.selection import check_aspect
from balisekit.io import clock
from balisekit.io.inputs import InputPath
from balisekit.present.certificate_reading import read
from balisekit.present.opening import from_table, opening
from balisekit.present.outcome_text import closing_lines
from balisekit.present.report_page import report_page
from balisekit.rules.families import PROVED, Outcome
from balisekit.rules.rule import Options
from balisekit.tables.names import clean
from balisekit.tables.settings import Settings

FULL = "fold nothing: decoded telegrams and groups without findings are printed too"
OF_THE_DOCUMENT = ("messages", "by_position", *(word[2:].replace("-", "_") for word in shared.READING), "all")
"""The options that change the document."""
SHOWING = ("aspect", "full")
"""The options that change only what is shown."""


def add_options(parser: argparse.ArgumentParser) -> None:
    """The options of this command."""
    shared.add(parser, *shared.INPUTS)
    parser.add_argument("--html", **shared.output_file("the file to write"), required=True)
    shared.add(parser, "--force", "--accepted", "--all", "--aspect")
    parser.add_argument("--full", **shared.flag(FULL))
    parser.add_argument(
        "--certificate", **shared.input_file("what `certify --json` wrote of this table, for the cover")
    )
    add_only(parser)
    settings.add_options(parser)


def run(options: argparse.Namespace) -> int:
    """Does it. The answer is the exit status."""
    now, of_line, heading = clock.now(), stated(options), settings.heading(options)
    outcome = outcome_of(options, of_line, keep=True)
    check_aspect(outcome.checked.table, options.aspect)
    command = clean(shlex.join(_command(options)))
    links = links_of(outcome, of_line)
    if PROVED not in outcome.letters:
        links.line.findings = {}  # (pictures would show them)
    certified = read(options.certificate, outcome, _judging(options, outcome, of_line)) if options.certificate else None
    page = report_page(outcome, links, heading, command, now, options.aspect, options.full, certified)
    options.html.write(page)
    written = f"written: {clean(str(options.html))}"
    shared.say([*opening(outcome.checked, outcome.judged), written, *closing_lines(outcome)], options.html)
    return outcome.status


def _judging(options: argparse.Namespace, outcome: Outcome, line: Options) -> Settings:
    """The settings that change what is found, as `certify` has them."""
    others = argparse.Namespace(**{**vars(options), **dict.fromkeys(SHOWING)})
    table, keys = outcome.checked.table, settings.used_by(letters_of(options))
    return in_force(others, [table], keys, added=line.added)


def _command(options: argparse.Namespace) -> Iterator[str]:
    """The words of a command that hands the same document to the program, in the folder of the table."""
    yield from ("balisekit", "check", os.path.basename(options.table))
    for name in OF_THE_DOCUMENT:
        given = getattr(options, name)
        for value in given if isinstance(given, list) else [given] if given else []:
            yield f"--{name.replace('_', '-')}"
            is_path = isinstance(value, InputPath)
            yield from () if value is True else (from_table(options.table, value) if is_path else str(value),)

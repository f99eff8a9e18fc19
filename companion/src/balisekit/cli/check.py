"""`balisekit check`: what was refused, the program's findings, and what rules over the line find."""
from __future__ import annotations

import argparse
import os

from balisekit.cli import options as shared, settings
from balisekit.cli.outcome import add_only, outcome as outcome_of, stated
from balisekit.errors import TableError
from balisekit.io import clock
from balisekit.present.explanations import page_of
from balisekit.present.formats import FORMATS
from balisekit.present.outcome_text import lines

OF_PAGE = ("table", "explain", "rules_from", "command", "run", "debug")
"""What the command line has if it asks for the page of a rule."""
IS_BOTH = "{} is a file and the name of a rule: write {} for the file, or ask for the page in another folder"


def add_options(parser: argparse.ArgumentParser) -> None:
    """The options of this command."""
    shared.add(parser, *shared.INPUTS)
    text = f"{shared.EXPLAIN}; with E9 as TABLE the page of that rule"
    shared.add(parser, "--explain", help=text)
    shared.add(parser, "--folded", "--all", "--accepted")
    add_only(parser)
    settings.add_options(parser)
    for each in FORMATS:
        parser.add_argument(f"--{each.name}", **shared.output_file(each.help, each.always_new))
    shared.add(parser, "--force")


def run(options: argparse.Namespace) -> int:
    """Does it. The answer is the exit status."""
    page = list(page_of(options.table, settings.added(options))) if options.explain else []
    if page:
        if os.path.lexists(options.table):
            raise TableError(IS_BOTH.format(options.table, os.path.join(os.curdir, options.table)))
        shared.refuse_unused(
            options, "with the page of a rule", *(each for each in vars(options) if each not in OF_PAGE)
        )
        shared.say(page)
        return 0
    clock.now()  # (a SOURCE_DATE_EPOCH that is none is refused before any work)
    outcome = outcome_of(options, stated(options))
    outputs = {each: getattr(options, each.name) for each in FORMATS if getattr(options, each.name)}
    for each, output in outputs.items():
        each.write(output, outcome)
    notes = [each.lacking for each in outputs if each.lacking and not outcome.checked.whole]
    said = lines(outcome, options.explain, options.propose is not None, notes, options.folded)
    shared.say(said, *outputs.values())
    return outcome.status

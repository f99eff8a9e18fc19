"""`balisekit links`: what the groups of a line say of each other, against the kilometres of the table."""
from __future__ import annotations

import argparse
from dataclasses import replace

from balisekit.cli import options as shared, settings
from balisekit.cli.in_force import in_force
from balisekit.io.outputs import write_json
from balisekit.present.check_json import entries_json
from balisekit.present.links_text import as_json, lines, status_of
from balisekit.rules import checking
from balisekit.rules.families import apply
from balisekit.rules.stated import refuse_without_kilometres

LETTERS = ("L",)


def add_options(parser: argparse.ArgumentParser) -> None:
    """The options of this command."""
    shared.add(parser, *shared.INPUTS, "--tolerance")
    parser.add_argument("--jumps", **shared.input_file(settings.JUMPS))
    shared.add(parser, "--explain")
    shared.add(parser, "--json", "--force")


def run(options: argparse.Namespace) -> int:
    """Does it. The answer is the exit status."""
    line = settings.of_line(options)
    program, table, messages = shared.inputs(options)
    refuse_without_kilometres(table)
    checked = checking.check(program, table, messages, options.by_position)
    checked = replace(checked, settings=in_force(options, [table], ("tolerance", "jumps", "plan", "design")))
    outcome = apply(checked, LETTERS, line)
    links = next(part.applied for part in outcome.parts if part.applied)
    if options.json:
        write_json(options.json, {**as_json(checked, links), "entries": entries_json(outcome)})
    shared.say(lines(checked, links, options.explain), options.json)
    return status_of(checked, links)

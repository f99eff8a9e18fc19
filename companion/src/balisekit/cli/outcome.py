"""What `check` and `report` have in common: which families of rules are asked for, and what they find."""
from __future__ import annotations

import argparse
import time
from dataclasses import replace
from datetime import date
from typing import Optional, Sequence, Tuple

from balisekit.cli import options as shared, settings
from balisekit.cli.in_force import in_force
from balisekit.engine.program import Program
from balisekit.errors import TableError
from balisekit.io import clock
from balisekit.rules import accepted, checking
from balisekit.rules.discovery import ADDED
from balisekit.rules.families import FAMILIES, PLAN, Outcome, apply, families
from balisekit.rules.line import Line
from balisekit.rules.links import L2, Links, compare
from balisekit.rules.rule import Options
from balisekit.rules.stated import refuse_without_kilometres
from balisekit.tables.model import Messages, Table

Inputs = Tuple[Program, Table, Optional[Messages]]
Signed = Tuple[accepted.Entries, date]
ONLY = f"apply only these families of rules: {'; '.join(f'{each.letter}, {each.things}' for each in FAMILIES.values())}"


def families_of(text: str) -> Tuple[str, ...]:
    """The letters of families. ArgumentTypeError is raised for a text that is no list of them."""
    letters = [letter.strip().upper() for letter in text.split(",")]
    if not all(letter in FAMILIES for letter in letters):
        raise argparse.ArgumentTypeError(f"{text[:40]} is no list of {', '.join(FAMILIES)}: write F or F,L")
    return tuple(letters)


def add_only(parser: argparse.ArgumentParser) -> None:
    """The option --only."""
    parser.add_argument("--only", **shared.value("FAMILIES", families_of, ONLY))


def letters_of(options: argparse.Namespace) -> Sequence[str]:
    """The families that are asked for: all of them without --only."""
    return options.only or tuple(FAMILIES)


def stated(options: argparse.Namespace) -> Options:
    """What the user states of the line. TableError is raised for an option that none of the requested rules uses."""
    asked = letters_of(options)
    settings.refuse_unused(options, asked)
    line = settings.of_line(options)
    if set(asked) == {PLAN} and line.plan is None:
        raise TableError("--only X needs a design of the line: give --design FILE")
    if ADDED in (options.only or ()) and not families(line)[ADDED].rules:
        raise TableError("--only U needs rules: give --rules-from, and --rules for those that are off")
    return line


def signed_by(options: argparse.Namespace, line: Options) -> Optional[Signed]:
    """The file of accepted entries, if one is named, and the day by which they are judged."""
    return (accepted.read(options.accepted, line.added), clock.today()) if options.accepted else None


def outcome(options: argparse.Namespace, line: Options, keep: bool = False, inputs: Optional[Inputs] = None) -> Outcome:
    """What the rules find in such a line, and what was accepted by today if there is a file of entries.

    With `keep` the records of all telegrams are kept, and other data are not, for a report: it draws pictures of them,
    and has the heading that the file of settings states. Without `inputs` those that the options name are read.
    """
    began = time.perf_counter()
    signed = signed_by(options, line)
    program, table, messages = inputs or shared.inputs(options)
    asked = letters_of(options)
    known = families(line)
    if all(known[letter].needs_kilometres for letter in asked if letter in known):
        refuse_without_kilometres(table)
    checked = checking.check(program, table, messages, options.by_position, options.all)
    keys = settings.used_by([*asked, *("L" if keep else "")])  # (a report has pictures of tracks with links)
    checked = replace(checked, settings=in_force(options, [table], keys, keep, line.added))
    if keep:
        checked.accepted.keep()
    return replace(apply(checked, asked, line, signed, began), with_all=options.all)


def links_of(outcome: Outcome, options: Options) -> Links:
    """The links that pictures of tracks show, whether or not rules over the line are asked for."""
    for part in outcome.parts:
        if part.applied is not None and L2 in part.applied.results:
            return part.applied
    links = compare(Line.of(outcome.checked, options.jumps), options, [L2])
    links.line.for_pictures()
    return links

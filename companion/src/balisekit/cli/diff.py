"""`balisekit diff`: what differs between two releases of a line, field by field."""
from __future__ import annotations

import argparse
from dataclasses import replace
from typing import Any, Dict, Optional, Tuple

from balisekit.cli import options as shared
from balisekit.cli.in_force import in_force
from balisekit.compare.releases import by_place, compare
from balisekit.engine.grammar import Refusal
from balisekit.engine.program import Program
from balisekit.errors import TableError
from balisekit.io import clock, inputs
from balisekit.io.inputs import Input
from balisekit.io.outputs import write_json
from balisekit.present.diff_text import as_json, lines, page
from balisekit.rules import checking
from balisekit.rules.checking import Checked
from balisekit.tables import document as document_file, messages as messages_file, reader as tables
from balisekit.tables.model import Messages, Table


def add_options(parser: argparse.ArgumentParser) -> None:
    """The options of this command."""
    for side in ("old", "new"):
        text = "a table, or a document of a line as --document writes it"
        parser.add_argument(side, **shared.input_file(text, side.upper()))
        parser.add_argument(f"--{side}-messages", **shared.input_file(f"radio messages of the {side} release"))
    shared.add(parser, "--sheet", help="the sheet to read, in both .xlsx files")
    shared.add(parser, *shared.READING[1:])
    shared.add(parser, "--program", "--timeout")
    parser.add_argument("--html", **shared.output_file("write the comparison as one page of HTML"))
    shared.add(parser, "--json", "--force")


def run(options: argparse.Namespace) -> int:
    """Does it. The answer is the exit status."""
    now = clock.now()
    sides = [
        _read(options.old, options.old_messages, shared.reading(options)),
        _read(options.new, options.new_messages, shared.reading(options)),
    ]
    if all(document for _, _, document in sides):
        shared.refuse_unused(options, "with two documents", "sheet", "columns", "skip_column", "fill_merged")
    named = not any(document for _, _, document in sides)
    program = Program.find(options.program, options.timeout)
    old, new = (_checked(program, *side, named) for side in sides)
    tables = [table for table, _, document in sides if document is None]
    settings = in_force(options, tables)
    found = compare(replace(old, settings=settings), replace(new, settings=settings), named)
    found.lacks_names = not named and any(_has_names(*side[:2]) for side in sides if side[2] is None)
    if options.html:
        options.html.write(page(found, now))
    if options.json:
        write_json(options.json, as_json(found))
    shared.say(lines(found), options.html, options.json)
    return found.status


def _read(path: str, messages: Optional[str], how: Dict[str, Any]) -> Tuple[Table, Optional[Messages], Optional[Input]]:
    """A table with its messages, or those of a document, and the document."""
    file = inputs.read(path)
    if not document_file.is_document(file.content):
        return tables.read(path, **how), messages_file.read(messages) if messages else None, None
    if messages:
        raise TableError(f"{path}: a document contains its messages: leave out {messages}")
    return (*document_file.read(file), file)


def _has_names(table: Table, messages: Optional[Messages]) -> bool:
    """Whether a table names aspects or messages, which a document does not."""
    has_aspects = any(len(group.aspects) > 1 for group in table.groups)
    return has_aspects or any(message.name for message in (messages.messages if messages else ()))


def _checked(
    program: Program, table: Table, messages: Optional[Messages], document: Optional[Input], named: bool
) -> Checked:
    """What the program says of a release. TableError is raised if it does not take the document for one."""
    if document:
        answer = program.check(document.content)
        if isinstance(answer, Refusal) and answer.balise is None and answer.message is None:
            raise TableError(f"{document.path}: program: {answer.line}")
    return checking.check(program, *((table, messages) if named else by_place(table, messages)))

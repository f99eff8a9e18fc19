"""The options that commands share, and what each command does with them."""
from __future__ import annotations

import argparse
import re
import sys
from decimal import Decimal
from typing import Any, Callable, Dict, Iterable, Optional, Tuple, TypeVar

from balisekit.cli import console
from balisekit.engine.program import Program
from balisekit.errors import TableError
from balisekit.io.inputs import InputPath
from balisekit.io.outputs import Output
from balisekit.rules import checking, stated
from balisekit.tables import messages as messages_file, reader
from balisekit.tables.model import Messages, Table

TABLE = "a CSV file or an .xlsx with the columns group and telegram"
TIMEOUT = "how long to wait for each answer of the program; by default one minute, and longer for a large input"
ASPECT = "the aspect of the groups that a track shows; by default the aspect with the farthest end of authority"
TOLERANCE = "by how much places may differ, for L1 and L2 beyond Q_LOCACC; by default 0"
SKIP = "the heading of a column that is not to be read, even if it has telegrams; it can be given several times"
EXPLAIN = "show cause and remedy of each rule that has found something"
FOLDED = "list each entry that is folded below the one correction that explains it"
EXACT = Decimal()
"""The tolerance without --tolerance."""
Value = TypeVar("Value")


def name(text: str) -> str:
    """A name that is not empty."""
    return _stated(stated.name, text)


def _seconds(text: str) -> float:
    """A time in seconds, greater than 0."""
    if not re.fullmatch(r"[0-9]{1,6}([.][0-9]{1,3})?", text) or not float(text):
        raise argparse.ArgumentTypeError(f"{text[:40]} is no time in seconds: write 600 or 2.5")
    return float(text)


def tolerance(text: str) -> Decimal:
    """A number of metres that places may differ by."""
    return _stated(stated.tolerance, text)


def _stated(read: Callable[[object], Value], text: str) -> Value:
    """A value that is read as in Python."""
    try:
        return read(text)
    except TableError as error:
        raise argparse.ArgumentTypeError(error.why) from error


def value(metavar: str, kind: Callable[[str], Any], text: str) -> Dict[str, Any]:
    """The settings of an option with a value."""
    return {"metavar": metavar, "type": kind, "help": text}


def input_file(text: str, metavar: str = "FILE") -> Dict[str, Any]:
    """The settings of an option that names a file to read."""
    return value(metavar, lambda path: InputPath(name(path)), text)


def output_file(text: str, always_new: bool = False) -> Dict[str, Any]:
    """The settings of an option that names a file to write."""
    return value("FILE", lambda path: Output(name(path), always_new), f"{text}; - is standard output")


def flag(text: str) -> Dict[str, Any]:
    """The settings of an option without a value."""
    return {"action": "store_true", "help": text}


OPTIONS: Dict[str, Dict[str, Any]] = {
    "table": input_file(TABLE, "TABLE"),
    "--messages": input_file("radio messages, one per line, each with a name after a semicolon if you like"),
    "--by-position": flag("order the balises of a group by N_PIG, which hides a wrong N_PIG"),
    "--sheet": value("NAME", name, "the sheet of an .xlsx file to read"),
    "--columns": input_file('your own headings: a TOML file with lines such as telegram = "Telegram (hex)"'),
    "--skip-column": {**value("HEADING", name, SKIP), "action": "append"},
    "--fill-merged": flag("give all cells of a merged area of an .xlsx file the value of its first cell"),
    "--program": value("PATH", name, "the balisecheck to use"),
    "--timeout": value("SECONDS", _seconds, TIMEOUT),
    "--explain": flag(EXPLAIN),
    "--folded": flag(FOLDED),
    "--all": flag(checking.ALL_HELP),
    "--accepted": input_file("a CSV file of accepted entries, each with who accepted it"),
    "--json": output_file("write the complete result as JSON"),
    "--force": flag("let outputs replace existing files; an input is never replaced"),
    "--aspect": value("NAME", name, ASPECT),
    "--tolerance": {**value("METRES", tolerance, TOLERANCE), "default": EXACT},
}
READING = ("--sheet", "--columns", "--skip-column", "--fill-merged")
"""How tables are read."""
INPUTS = ("table", "--messages", "--by-position", *READING, "--program", "--timeout")


def add(parser: argparse.ArgumentParser, *options: str, **changed: Any) -> None:
    """Adds shared options, with other settings than those of the table above."""
    for option in options:
        parser.add_argument(option, **{**OPTIONS[option], **changed})


def refuse_unused(options: argparse.Namespace, purpose: str, *unused: str) -> None:
    """Raises TableError if one of these options is given, which serve another purpose."""
    for option in unused:
        if not any(getattr(options, option, None) is default for default in (None, False, EXACT)):
            raise TableError(f"--{option.replace('_', '-')} is not used {purpose}")


def reading(options: argparse.Namespace) -> Dict[str, Any]:
    """How the table is to be read, for `reader.read`."""
    how = {"sheet": options.sheet, "columns": options.columns, "fill_merged": options.fill_merged}
    return {**how, "skip_columns": options.skip_column or ()}


def inputs(options: argparse.Namespace) -> Tuple[Program, Table, Optional[Messages]]:
    """The program, the table and the messages that the options name."""
    table = reader.read(options.table, by_position=options.by_position, **reading(options))
    messages = messages_file.read(options.messages) if options.messages else None
    return Program.find(options.program, options.timeout), table, messages


def say(lines: Iterable[str], *outputs: Optional[Output]) -> None:
    """Writes the answer in words: to standard error if one of these outputs is standard output."""
    out = sys.stderr if any(output and output.is_standard_output for output in outputs) else sys.stdout
    write = console.writer(out)
    for line in lines:
        write(line)

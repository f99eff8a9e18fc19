"""The command line: `balisekit check`, `show`, `draw`, `report`, `links`, `diff`, `plan` and `table`."""
from __future__ import annotations

import argparse
import gc
import os
import shutil
import signal
import sys
from contextlib import contextmanager, nullcontext, suppress
from importlib import import_module
from itertools import product
from typing import Any, ContextManager, Iterator, List, NoReturn, Optional, Sequence, TextIO

from balisekit import __version__
from balisekit.cli.signals import Signals
from balisekit.errors import KitError, NoAnswer, TableError, Terminated, held

COMMANDS = {
    "check": "check the telegrams, groups and messages of a table",
    "show": "show each telegram in words",
    "draw": "draw a group, a message or a track as SVG",
    "report": "write a report as one page of HTML",
    "certify": "make mistakes in a table, and count which of them `check` would find",
    "links": "compare linking, link flags and profiles with the kilometres of a table",
    "diff": "compare two releases of a line, field by field",
    "design": "write the design that the telegrams of a table imply, for you to correct and confirm",
    "plan": "the older name of design: write a track plan without the column who",
    "table": "write all variables of a table as one flat sheet, or compare the table with such a sheet",
}
"""The commands, each a module of this folder, and what their help says."""
CLOSED = "standard output was closed"
QUIET = ("show",)
"""The commands that do not report that their reader has closed the pipe: no verdict is lost."""
STATUSES = """\
exit status:
  0  nothing was found or differs, or everything found is accepted; or the command is done
  1  `check`, `report`, `links`, `diff` or `table --expect` found something, or an accepted entry is at fault
  2  INCOMPLETE: a telegram or message was refused, telegrams of the table were not read, or a rule L, E or X
     compared none of what it had to; or refused: a table that cannot be read, wrong options, an output that would
     replace an input or, without --force, another file
  3  no answer, such as no program, or a file that cannot be written
  an interrupt ends a command with status 130, SIGTERM with 143, SIGHUP with 129

balisekit is not proved. It quotes findings and refusals of balisecheck.
"""
NO_SCRIPT = ("-h", "--help", "--program")
"""The start script of a clone is not run for a command with these options."""


class _Once(argparse.Action):
    """Stores the value of an option, which is given once."""

    def __call__(self, parser: Any, namespace: Any, values: Any, option_string: Optional[str] = None) -> None:
        if option_string and getattr(namespace, self.dest, self.default) is not self.default:
            parser.error(f"argument {option_string}: it is given twice")
        setattr(namespace, self.dest, values)


class _Version(argparse.Action):
    """Writes the versions of balisekit and of the program that was released with it, and whether that has a library.

    It ends, and starts no program.
    """

    def __call__(self, parser: Any, *_: Any) -> None:
        from balisekit.engine.find_program import released, stored_library

        stored = stored_library()
        library = stored and f"library {stored.path}"
        print(*filter(None, (f"balisekit {__version__}", released(), library)), sep="\n")
        parser.exit()


class _Parser(argparse.ArgumentParser):
    """A parser whose options cannot be cut short or given twice."""

    def __init__(self, **settings: Any) -> None:
        super().__init__(allow_abbrev=False, **settings)
        self.register("action", None, _Once)

    def error(self, message: str) -> NoReturn:
        """Ends with status 2. The message repeats words of the command line: control characters are escaped."""
        from balisekit.tables.names import clean

        super().error(clean(message))


def parser(arguments: Sequence[str]) -> argparse.ArgumentParser:
    """The options of the command that these arguments name. Only its module is imported.

    If they begin with a command no parser is made of the others, which no help or error then names.
    """
    whole = _Parser(
        prog="balisekit",
        description="Checks, shows, draws and compares tables of balise telegrams with balisecheck.",
        epilog=STATUSES,
        formatter_class=argparse.RawDescriptionHelpFormatter,
    )
    whole.add_argument("--version", action=_Version, nargs=0, help="show the versions and checksums and exit")
    _add_debug(whole)
    commands = whole.add_subparsers(dest="command", required=True, metavar="COMMAND")
    named = next((argument for argument in arguments if not argument.startswith("-")), None)
    for name in [named] if named in COMMANDS and named == arguments[0] else COMMANDS:
        command = commands.add_parser(name, help=COMMANDS[name], description=COMMANDS[name])
        if name == named:
            with held():  # (if its import is interrupted and begun again, decimal writes a warning)
                module = import_module(f"balisekit.cli.{name}")
            module.add_options(command)
            _add_debug(command)
            command.set_defaults(run=module.run)
    return whole


def _add_debug(command: argparse.ArgumentParser) -> None:
    text = "show where in balisekit an error comes from"
    command.add_argument("--debug", action="store_true", default=argparse.SUPPRESS, help=text)


def main(arguments: Optional[List[str]] = None) -> int:
    """Runs a command line. The answer is the exit status."""
    if _is_closed():
        return _ended(NoAnswer(CLOSED), False, CLOSED)
    options, ends = argparse.Namespace(debug=False, command=None), arguments is None
    try:
        arguments = sys.argv[1:] if arguments is None else arguments
        with Signals(ends) as signals, _without_collector(ends), _script_ahead(arguments):
            try:
                parser(arguments).parse_args(arguments, options)
            except SystemExit:  # help was written, or the options are wrong
                sys.stdout.flush()
                raise
            return _run(options, signals)
    except KitError as error:
        return _ended(error, options.debug, *error.lines(), status=error.status)
    except KeyboardInterrupt as error:
        return _interrupted(error, options.debug)
    except BrokenPipeError as error:
        return _ended(error, options.debug, *([] if options.command in QUIET else [CLOSED]))
    except Exception as error:
        if isinstance(error.__cause__, KeyboardInterrupt):
            # (before Python 3.12 what is raised while a class names its attributes comes out as a RuntimeError)
            return _interrupted(error.__cause__, options.debug)
        return _ended(error, options.debug, _reason(error))


def _interrupted(error: KeyboardInterrupt, debug: bool) -> int:
    """Reports the signal that has ended the command."""
    number = error.signal if isinstance(error, Terminated) else signal.SIGINT
    why = "interrupted" if number == signal.SIGINT else f"ended by {number.name}"
    return _ended(error, debug, why, status=128 + number)


def _script_ahead(arguments: Sequence[str]) -> ContextManager[None]:
    """Runs the start script of a clone meanwhile, if a command needs it."""
    if not arguments or arguments[0] not in COMMANDS or any(word.startswith(NO_SCRIPT) for word in arguments):
        return nullcontext()
    from balisekit.engine.find_program import script_ahead

    return script_ahead()


def _run(options: argparse.Namespace, signals: Signals) -> int:
    """Runs the command. Its outputs are moved into place once standard output has taken the text."""
    from balisekit.cli import console
    from balisekit.io.inputs import guarded
    from balisekit.io.output_folder import OutputFolder
    from balisekit.io.outputs import Output, check_outputs, placing
    from balisekit.tables.decimals import own_context

    outputs = [value for value in vars(options).values() if isinstance(value, (Output, OutputFolder))]
    force = getattr(options, "force", False)
    shows = options.command == "check" and not any(output.is_standard_output for output in outputs)
    with own_context(), guarded(output.path for output in outputs):
        _claim(options, any(os.path.lexists(output.path) for output in outputs))
        check_outputs(outputs, force)
        with placing(outputs, force), console.working(options.command) if shows else nullcontext():
            status: int = options.run(options)
            sys.stdout.flush()
            signals.done()
    return status


def _claim(options: argparse.Namespace, replaces: bool) -> None:
    """Raises ReplacedInput if an output would replace a file that an option names.

    If the file of an output exists, that also holds for the program, TOML files and what these name. Each input is
    claimed again when it is read. But only here it is refused before a message that --force would replace it.
    """
    from balisekit.engine import find_program
    from balisekit.io.inputs import InputPath, claimed
    from balisekit.tables.own_headings import CHECK_TABLE, stated

    named = [claimed(value) for value in vars(options).values() if isinstance(value, InputPath)]
    if replaces:
        for path, columns in product(named, (options.columns, None)):
            with suppress(TableError, NoAnswer):  # (they are raised again if the command reads the TOML file)
                stated(path, columns, CHECK_TABLE)
        program = options.program or os.environ.get("BALISECHECK") or "balisecheck"
        claimed(shutil.which(program) or "")
        found = claimed(find_program.answering(options.program, options.timeout))
        claimed(os.path.join(os.path.dirname(found), "ABOUT"))


@contextmanager
def _without_collector(ends: bool) -> Iterator[None]:
    """Cycles of objects stay in memory. If the process then `ends`, they stay until its end."""
    collects = gc.isenabled()
    gc.disable()  # (each search for cycles would visit all telegrams, and would free little)
    try:
        yield
    finally:
        if ends:
            gc.freeze()  # (the end of the process would visit and free them one by one)
        if collects:
            gc.enable()


def _reason(error: BaseException) -> str:
    """Why there is no answer."""
    if isinstance(error, MemoryError):
        return "the system refused memory, so there is no answer: give the process more, or check fewer rows at a time"
    if isinstance(error, OSError):
        place = "standard output or a temporary file" if error.filename is None else str(error.filename)
        return f"{place}: {error.strerror or error}"
    return f"an error of balisekit itself, {type(error).__name__}: {error}; --debug shows where it comes from"


def _is_closed() -> bool:
    """Whether standard output is closed. Text for a closed stream is dropped, and goes to no other stream."""
    closed = sys.stdout is None
    sys.stdout, sys.stderr = (
        open(os.devnull, "w", encoding="utf-8") if stream is None else stream for stream in (sys.stdout, sys.stderr)
    )
    for stream in (sys.stdout, sys.stderr):
        if hasattr(stream, "reconfigure"):
            stream.reconfigure(encoding="utf-8", errors="backslashreplace")
    return closed


def _ended(error: BaseException, debug: bool, *lines: str, status: int = 3) -> int:
    """Reports why there is no answer. If that cannot be written, the exit status still reports it."""
    from balisekit.tables.names import clean

    try:
        if debug:
            import traceback

            traceback.print_exception(type(error), error, error.__traceback__)
        for line in lines:
            print(f"balisekit: {clean(line)}", file=sys.stderr)
    except OSError:
        pass
    for stream in (sys.stdout, sys.stderr):
        _let_go(stream)
    return status


def _let_go(stream: TextIO) -> None:
    """Drops what a stream cannot take. Otherwise Python would try again at exit, and set a status of its own."""
    try:
        stream.flush()
    except OSError:
        os.dup2(os.open(os.devnull, os.O_WRONLY), stream.fileno())

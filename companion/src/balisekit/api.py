"""The functions of the public interface, and what they give."""
from __future__ import annotations

import argparse
import json
import os
from dataclasses import replace
from decimal import Decimal
from typing import Any, Callable, Dict, Iterator, List, Mapping, NamedTuple, Optional, Sequence, Tuple, Union

from balisekit.cli import outcome as commands, settings
from balisekit.compare import releases
from balisekit.engine.program import Program
from balisekit.errors import TableError
from balisekit.io import inputs
from balisekit.io.inputs import InputPath
from balisekit.io.outputs import Json
from balisekit.present import diff_text, outcome_text
from balisekit.present.check_json import as_json
from balisekit.rules import stated
from balisekit.rules.added import AddedRule
from balisekit.rules.discovery import letter_of
from balisekit.rules.entries import Entry
from balisekit.rules.families import Outcome
from balisekit.tables import messages as messages_file, own_headings, reader
from balisekit.tables.decimals import own_context
from balisekit.tables.model import Messages, Table
from balisekit.tables.names import clean

Path = Union[str, "os.PathLike[str]"]
Number = Union[int, float, Decimal, str]


class Finding(NamedTuple):
    """One cause that an engineer has to look at: findings of the program, or a remark of another rule."""

    rule: str
    """`F11`, `L2`, or the name of an added rule."""
    family: str
    """`F` for the program, whose findings are proved; `L`, `E` or `X` for balisekit; `U` for added rules."""
    rows: Tuple[int, ...]
    """The rows of the table that it is about."""
    group: Optional[str]
    """The name of the group, if it is about one."""
    aspect: str
    """The aspects that it is about, with commas between them. It is empty if it is about no aspect."""
    direction: Optional[str]
    """`nominal` or `reverse`."""
    km: Optional[Decimal]
    """The kilometre of the first of its rows."""
    sentence: str
    """What is wrong, with the values that differ and their units."""
    values: Mapping[str, str]
    """The values of the sentence, by their names."""
    urgency: str
    """What may follow at worst: `wrong_information`, `wrong_place`, `not_judged`, `braking` or `rule_only`."""
    expected: str
    """The case of correct data that gets such a finding, if it fits one."""
    accepted: bool
    """Whether the file of accepted entries accepts it."""
    message: Optional[int] = None
    """The line of the file of messages, if it is about a message."""
    program: Tuple[str, ...] = ()
    """The lines of the program, unchanged."""
    folded: Tuple[Finding, ...] = ()
    """The findings that are gone if this one is corrected, so that it stands for them."""


class Result:
    """What `check` finds of a table. No findings are no success by themselves: `status` says whether all was judged."""

    def __init__(self, outcome: Outcome) -> None:
        self._outcome = outcome
        self.findings: Tuple[Finding, ...] = tuple(_finding(outcome, entry) for entry in outcome.entries)
        """All of them, in the order of the answer. Those of correct data come last. Refused telegrams and groups that
        were left out are not among them: they are in `lines` and in `to_json()`."""

    @property
    def status(self) -> int:
        """As the command ends: 2 if anything was not judged, 1 if anything is open, else 0."""
        return self._outcome.status

    @property
    @own_context()
    def last_line(self) -> str:
        """The last line of the answer, with the verdict of the program."""
        return outcome_text.last_lines(self._outcome)[-1]

    @property
    @own_context()
    def lines(self) -> List[str]:
        """The answer in words, as the command writes it."""
        return list(outcome_text.lines(self._outcome))

    @property
    def open(self) -> Tuple[Finding, ...]:
        """The findings that nobody has accepted."""
        return tuple(finding for finding in self.findings if not finding.accepted)

    def of(self, *rules: str) -> Tuple[Finding, ...]:
        """The findings of these rules or families: `of("F", "L2")`."""
        return tuple(each for each in self.findings if each.rule in rules or each.family in rules)

    def to_records(self) -> List[Dict[str, Any]]:
        """A dictionary of plain values for each finding: `pandas.DataFrame(result.to_records())` is a table of them. In
        a record `km` is a float, `rows`, `values` and `program` are texts, and `folded` is a number."""
        return [_record(finding) for finding in self.findings]

    @own_context()
    def to_json(self) -> Dict[str, Any]:
        """The object that `check --json` writes, by schemas/kit-check.json."""
        answer: Dict[str, Any] = _plain(as_json(self._outcome))
        return answer

    def __repr__(self) -> str:
        path = self._outcome.checked.table.path
        return f"<Result of {path}: status {self.status}, {len(self.findings)} findings, {self.last_line}>"


class Difference:
    """All that differs between two releases."""

    def __init__(self, found: releases.Difference) -> None:
        self._found = found

    @property
    def status(self) -> int:
        """2 if anything was refused, 1 if anything differs, else 0."""
        return self._found.status

    @property
    def last_line(self) -> str:
        """The last line of the answer: how much differs, and whether all could be compared."""
        return diff_text.last_line(self._found)

    @property
    def lines(self) -> List[str]:
        """The answer in words, as `balisekit diff` writes it."""
        return list(diff_text.lines(self._found))

    @property
    def unchanged(self) -> int:
        """How many telegrams and messages are unchanged."""
        return self._found.unchanged

    @property
    def whole(self) -> bool:
        """Whether all telegrams and messages could be compared."""
        return self._found.whole

    def to_json(self) -> Dict[str, Any]:
        """The object that `balisekit diff --json` writes. It has lists of what was added, removed, renumbered,
        exchanged or changed, with rows, words and values."""
        answer: Dict[str, Any] = _plain(diff_text.as_json(self._found))
        return answer

    def __repr__(self) -> str:
        return repr(self._found)


@own_context()
def read_table(
    path: Path,
    sheet: Optional[str] = None,
    by_position: bool = False,
    columns: Optional[Path] = None,
    fill_merged: bool = False,
    skip_columns: Sequence[str] = (),
) -> Table:
    """The table of a CSV file or of a sheet of an .xlsx. `by_position` is as in `check`.

    `columns` is a TOML file with headings of your own, and `fill_merged` fills the cells of merged areas.
    `skip_columns` are the headings of columns that are not to be read, even if they have telegrams.
    """
    own = None if columns is None else stated.path(columns)
    stated.reading(sheet, own, skip_columns)
    stated.look_at_switches(by_position=by_position, fill_merged=fill_merged)
    return reader.read(stated.path(path), sheet, by_position, own, fill_merged, skip_columns)


@own_context()
def read_messages(path: Path) -> Messages:
    """The radio messages of a file."""
    return messages_file.read(stated.path(path))


@own_context()
def check(
    table: Union[Path, Table],
    *,
    messages: Union[Path, Messages, None] = None,
    only: Optional[str] = None,
    accepted: Optional[Path] = None,
    plan: Optional[Path] = None,
    design: Union[Path, Sequence[Path], None] = None,
    jumps: Optional[Path] = None,
    tolerance: Optional[Number] = None,
    line_speed: Optional[int] = None,
    release_speed: Optional[int] = None,
    rules: Union[str, Sequence[str], None] = None,
    rules_from: Sequence[Union[Path, AddedRule]] = (),
    columns: Optional[Path] = None,
    by_position: bool = False,
    everything: bool = False,
    program: Union[Program, Path, None] = None,
) -> Result:
    """What the program and all families of rules find of a table, or of the table in a file.

    The options are those of `balisekit check`, with the same names and meanings; `everything` is `--all`. Options that
    are not given are taken from balisekit.toml, as for the command, or from the file of settings with which the table
    was read. `rules_from` takes files, names of packages, and an `AddedRule` of a script. `accepted` is a file that
    `balisekit check --propose FILE` begins, and docs/guide.md describes.
    """
    stated.look_at_switches(by_position=by_position, everything=everything)
    found = _table_from_here(table) if isinstance(table, Table) else read_table(table, None, by_position, columns)
    options = _as_read(found, _own_settings(found, columns))
    given = {"plan": plan, "jumps": jumps, "tolerance": tolerance, "line_speed": line_speed}
    given.update(release_speed=release_speed, rules=_names_of(rules))
    vars(options).update({name: None if value is None else _read(name, value) for name, value in given.items()})
    options.design = _design(design)
    options.rules_from = _rules_from(rules_from)
    options.only = None if only is None else _asked(commands.families_of, "only", only)
    options.accepted = None if accepted is None else InputPath(stated.path(accepted))
    options.by_position, options.all = by_position or found.reading.by_position, everything
    inputs_given = _program(program), found, None if messages is None else _messages(messages)
    return Result(commands.outcome(options, commands.stated(options), inputs=inputs_given))


def _own_settings(table: Table, columns: Optional[Path]) -> Optional[str]:
    """The file of settings for a table: that with which it was read, or another one with the same headings."""
    if columns is None:
        return table.columns
    own = stated.path(columns)
    if own != table.columns:
        _look_at_headings(table, own)
    return own


@own_context()
def diff(old: Result, new: Result) -> Difference:
    """What differs between two releases of a table that were checked: groups, telegrams, messages and findings F of the
    program. It does not compare what other rules find."""
    if not isinstance(old, Result) or not isinstance(new, Result):
        raise TableError("diff compares two results of check")
    return Difference(releases.compare(old._outcome.checked, new._outcome.checked))


def _as_read(table: Table, columns: Optional[str]) -> argparse.Namespace:
    """The options of the command that reads a table as it was read."""
    reading = {**table.reading._asdict(), "skip_column": list(table.reading.skip_column)}
    return argparse.Namespace(table=table.path, columns=columns, **reading)


def _look_at_headings(table: Table, columns: Optional[str]) -> None:
    """Raises TableError if a file of settings states other headings than those with which a table was read."""
    read, named = (own_headings.found(table.path, file) for file in (table.columns, columns))
    of_read, of_named = (file.tables.get(own_headings.COLUMNS_TABLE, {}) for file in (read, named))
    if any(of_read.get(name, name) != heading for name, heading in of_named.items()):
        why = f"{clean(named.path)} states other headings than {clean(read.path) or 'the usual ones'}"
        raise TableError(f"{why}, with which the table was read: give this file to read_table too, as columns")


def _table_from_here(table: Table) -> Table:
    """The same table with paths that start from the current folder, which can be another one since it was read."""
    columns = table.columns and _from_here(table.columns, table.folder)
    return replace(table, path=_from_here(table.path, table.folder), columns=columns, folder=inputs.current_folder())


def _messages(given: Union[Path, Messages]) -> Messages:
    """The messages of a file, or those that were read, with a path that starts from the current folder."""
    said = given if isinstance(given, Messages) else read_messages(given)
    return said._replace(path=_from_here(said.path, said.folder))


def _from_here(path: str, folder: str) -> str:
    """A path that starts from this folder, as it is in the current one."""
    return path if folder == inputs.current_folder() else os.path.join(folder, path)


def _program(program: Union[Program, Path, None]) -> Program:
    """The program that was given, the program at a path that was given, or the program of this balisekit."""
    if program is None or isinstance(program, Program):
        return program or Program.find()
    return Program.find(stated.path(program))


def _rules_from(given: Sequence[Union[Path, AddedRule]]) -> Optional[List[Any]]:
    """The rules of users as the command has them. An empty list names none."""
    stated.look_at_list("rules_from", given)
    return [each if isinstance(each, AddedRule) else _read("rules_from", each) for each in given] or None


def _design(given: Union[Path, Sequence[Path], None]) -> Optional[List[Any]]:
    """The files of a design as the command has them. An empty list names none."""
    if given is None or isinstance(given, (str, os.PathLike)):
        return None if given is None else [_read("design", given)]
    stated.look_at_list("design", given)
    return [_read("design", each) for each in given] or None


def _names_of(rules: Union[str, Sequence[str], None]) -> Optional[str]:
    """The names of rules as the command has them. An empty list names none."""
    if rules is None or isinstance(rules, str):
        return rules
    stated.look_at_list("rules", rules)
    return ",".join(map(str, rules)) if list(rules) else None


def _read(name: str, value: object) -> Any:
    """The value of an option as the command reads it."""
    return _asked(settings.KINDS[name].read, name, os.fspath(value) if isinstance(value, os.PathLike) else str(value))


def _asked(read: Callable[[str], Any], name: str, text: str) -> Any:
    """What an option makes of a text. TableError is raised if it takes no such text."""
    if not isinstance(text, str):
        raise TableError(f"{name} is {str(text)[:40]}, and no text")
    try:
        return read(text)
    except argparse.ArgumentTypeError as error:
        raise TableError(f"{name}: {error}") from error


def _finding(outcome: Outcome, entry: Entry) -> Finding:
    """An entry as callers get it."""
    return Finding(
        rule=entry.rule,
        family=letter_of(entry.rule),
        rows=tuple(entry.rows),
        group=entry.group.name if entry.group else None,
        aspect=", ".join(entry.aspects),
        direction=entry.direction or None,
        km=entry.km,
        sentence=entry.sentence,
        values=dict(entry.values),
        urgency=entry.urgency.name.lower(),
        expected=entry.expected,
        accepted=bool(outcome.acceptances(entry)),
        message=entry.message.number if entry.message else None,
        program=tuple(entry.quoted),
        folded=tuple(_finding(outcome, each) for each in entry.folded),
    )


def _record(finding: Finding) -> Dict[str, Any]:
    """A finding with plain values, which tables of other libraries take."""
    values = "; ".join(f"{name} {value}" for name, value in finding.values.items())
    rows, program = ", ".join(map(str, finding.rows)), "; ".join(finding.program)
    km = None if finding.km is None else float(finding.km)
    folded = len(finding.folded)
    return {**finding._asdict(), "rows": rows, "km": km, "values": values, "program": program, "folded": folded}


def _plain(value: object) -> Any:
    """A member of the answer as other tools read it from the file."""
    if isinstance(value, dict):
        return {name: _plain(each) for name, each in value.items()}
    if isinstance(value, (list, tuple, Iterator)):
        return list(map(_plain, value))
    return json.loads(value) if isinstance(value, Json) else value

"""Which settings of a command differ from their defaults, and where they are from: one record for all outputs."""
from __future__ import annotations

import argparse
import os
from typing import TYPE_CHECKING, Collection, Iterable, Iterator, List, Sequence, Union

from balisekit.cli import settings
from balisekit.cli.options import EXACT
from balisekit.io import inputs
from balisekit.io.output_folder import OutputFolder
from balisekit.rules.rule import RELEASE_SPEED, Rule
from balisekit.tables import own_headings
from balisekit.tables.model import Table
from balisekit.tables.settings import Setting, Settings, Source

if TYPE_CHECKING:  # (only `table` reads such a sheet, and its module needs zip and XML)
    from balisekit.tables.expected import Expected

_READING = ("sheet", "skip_column", "by_position", "fill_merged")
GIVEN = (*_READING, "all", "only", "group", "aspect", "full", *settings.KINDS)
"""The options that change what is judged or shown. Inputs and outputs are named elsewhere."""
RULES_FROM = ("--rules-from", f"check.{own_headings.RULES_FROM}")
"""The settings that name added rules."""
DEFAULT = ("release_speed", RELEASE_SPEED)
"""The only setting that is as if it were not given if it has this value."""


def in_force(
    options: argparse.Namespace,
    tables: Iterable[Union[Table, Expected]],
    keys: Sequence[str] = (),
    headed: bool = False,
    added: Sequence[Rule] = (),
) -> Settings:
    """Which settings of a command differ from their defaults, by the command line and by the files of these tables.

    `keys` are those of [check] that the command uses. With `headed` it also uses [report]. `added` are added rules.
    """
    read = list(tables)
    own = {heading for table in read for heading in table.own}
    files = [_source(file, options, own, keys, headed) for file in _files(options, [table.path for table in read])]
    files = [source._replace(settings=tuple(_with_rules(source.settings, added))) for source in files]
    given = tuple(_with_rules(_settings_given(options), added))
    return Settings((*([Source(settings=given)] if given else []), *files))


def _files(options: argparse.Namespace, tables: Sequence[str]) -> List[own_headings.Found]:
    """The files that state something about these tables, each once."""
    found = (own_headings.found(table, options.columns) for table in tables)
    return list({file.path: file for file in found if file.path}.values())


def _settings_given(options: argparse.Namespace) -> Iterator[Setting]:
    """Those that the command line has, of the options that change what is judged or shown."""
    for name in GIVEN:
        value = getattr(options, name, None)
        if any(value is default for default in (None, False, EXACT)) or (name, value) == DEFAULT:
            continue
        if isinstance(value, OutputFolder):  # (--all of `draw` names one)
            continue
        option = f"--{name.replace('_', '-')}"
        for each in value if isinstance(value, list) else [value]:
            yield _setting(option, each, name in own_headings.FILES)


def _source(
    file: own_headings.Found, options: argparse.Namespace, own: Collection[str], keys: Iterable[str], headed: bool
) -> Source:
    """What a file states that differs from the defaults, or that an option replaces.

    `own` are the headings that tables have by it.
    """
    check, given = file.tables[own_headings.CHECK_TABLE], settings.given(options)
    replaced = {key: f"--{key.replace('_', '-')}" for key in keys if key in given}
    stated = [
        _setting(f"check.{key}", each, key in own_headings.FILES, replaced.get(key, ""))
        for key in keys
        if key in check and (key in given or (key, check[key]) != DEFAULT)
        for each in _each(key, check[key])
    ]
    sheets = [own_headings.COLUMNS_TABLE, *([own_headings.EXPECT_TABLE] if getattr(options, "expect", None) else [])]
    for table in sheets:
        headings = {name: text for name, text in file.tables[table].items() if text != name and text in own}
        stated += [_setting(f"{table}.{name}", text) for name, text in headings.items()]
    heading = file.tables[own_headings.REPORT_TABLE] if headed else {}
    stated += [_setting(f"report.{key}", value) for key, value in heading.items()]
    return Source(file.path, file.sha256, tuple(stated))


def _each(key: str, value: object) -> Sequence[object]:
    """The values of a key of [check]: a setting for each file or package of a list."""
    of_files = key in own_headings.FILES or key == own_headings.RULES_FROM
    return value if isinstance(value, list) and of_files else [value]


def _with_rules(settings: Iterable[Setting], added: Sequence[Rule]) -> Iterator[Setting]:
    """The settings, and for each that names added rules where these are from, with the checksum of their code."""
    for setting in settings:
        origins = [rule.origin for rule in added if rule.origin and setting.name in RULES_FROM]
        own = [each for each in origins if setting.value in (each.package, each.path)]
        yield from (setting._replace(value=str(each), is_path=not each.package, sha256=each.sha256) for each in own)
        yield from [] if own else [setting]


def _setting(name: str, value: object, is_path: bool = False, replaced_by: str = "") -> Setting:
    """A setting, with the checksum of the file that it names, if this file is used. A plan need not be written yet."""
    if isinstance(value, (list, tuple, frozenset)):
        text = ",".join(map(str, sorted(value) if isinstance(value, frozenset) else value))
        return Setting(name, text, replaced_by=replaced_by)
    is_read = is_path and not replaced_by and os.path.exists(str(value))
    sha256 = inputs.read_settings(str(value)).sha256 if is_read else ""
    return Setting(name, "" if value is True else str(value), is_path, sha256, replaced_by)

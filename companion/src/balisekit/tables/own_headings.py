"""balisekit.toml: headings of one's own, what a project states of its line, and what its reports are headed with."""
from __future__ import annotations

import os
import sys
from typing import Any, Dict, List, Mapping, NamedTuple, Optional, Sequence, Tuple

from balisekit.errors import TableError, faults_of, needed
from balisekit.expressions import expression
from balisekit.io import inputs
from balisekit.tables.cells import COLUMNS, GREATEST_NAME
from balisekit.tables.headings import Headings, alike

BESIDE = "balisekit.toml"
"""The file that is read if it is in the folder of the table."""
COLUMNS_TABLE, EXPECT_TABLE, DESIGN_TABLE = "columns", "expect", "design"
CHECK_TABLE, REPORT_TABLE = "check", "report"
SHEET = ("group", "identity", "aspect", "balise", "packet", "element", "variable", "raw", "value", "unit", "km")
"""The columns of a flat table of variables."""
DESIGN = ("kind", "km", "km_to", "track", "way", "value", "name", "who")
"""The columns of a design: `who` has the name of the engineer who confirmed a row."""
KNOWN = {COLUMNS_TABLE: tuple(dict.fromkeys((*COLUMNS, *SHEET))), EXPECT_TABLE: SHEET, DESIGN_TABLE: DESIGN}


class ReportHeading(NamedTuple):
    """The texts of [report], which head a report. A text that is not stated is empty."""

    project: str = ""
    revision: str = ""
    author: str = ""
    signatures: Tuple[str, ...] = ()
    """Who signs: there is a box for each of these."""


class Found(NamedTuple):
    """A file that states something about a table. Without a file all is empty."""

    path: str = ""
    sha256: str = ""
    tables: Mapping[str, Mapping[str, Any]] = {}
    """By their names."""


STATED = {
    CHECK_TABLE: (
        "line_speed",
        "release_speed",
        "tolerance",
        "jumps",
        "plan",
        "design",
        "confirmed",
        "rules",
        "rules_from",
        "layouts",
    ),
    REPORT_TABLE: ReportHeading._fields,
}
"""The tables by which a project states something, and the keys of each."""
GREATEST_FILE = 1_000_000
"""The most bytes that a file of settings can have."""
LONG_NUMBER, KEY = expression("[0-9](?:_?[0-9]){4000}"), expression(r"""\s*([A-Za-z0-9_."' -]{1,100}?)\s*=""")
"""A number that Python does not read, and the key at the beginning of a line."""
RULES_FROM = "rules_from"
FILES = {"jumps", "plan", "design"}
"""The keys of [check] whose values are paths, relative to the folder of the file. That of `design` can be a list."""


def of_table(path: str, named: Optional[str]) -> Headings:
    """The headings of a table of telegrams: by the file that is named, else by balisekit.toml beside it."""
    file = named or beside(path)
    own = _read(file)[COLUMNS_TABLE] if file else {}
    return Headings(own={name: own[name] for name in COLUMNS if name in own}, source=file, strict=bool(named))


def of_sheet(path: str, named: Optional[str], needed_columns: Sequence[str]) -> Headings:
    """The headings of a sheet of variables: by [expect], else by [columns] if the sheet has these headings."""
    file = named or beside(path)
    tables = _read(file) if file else {}
    of_expect = tables.get(EXPECT_TABLE, {})
    own = of_expect or tables.get(COLUMNS_TABLE, {})
    known = {name: own[name] for name in SHEET if name in own}
    return Headings(SHEET, tuple(needed_columns), known, file, bool(named and of_expect))


def of_design(path: str, named: Optional[str]) -> Headings:
    """The headings of the design of a table's line: by [design]."""
    file = named or beside(path)
    own = _read(file)[DESIGN_TABLE] if file else {}
    return Headings(DESIGN, (), own, file)


def stated(path: str, named: Optional[str], table: str) -> Tuple[str, Mapping[str, object]]:
    """The file that states something about a table's line, and the keys and values of `table`, one of STATED."""
    file = named or beside(path)
    return file, _read(file)[table] if file else {}


def found(path: str, named: Optional[str]) -> Found:
    """The file that states something about a table."""
    file = named or beside(path)
    return Found(file, inputs.read_settings(file).sha256, _read(file)) if file else Found()


def not_read(path: str, named: Optional[str]) -> List[str]:
    """A note on balisekit.toml in the folder of this file, if another file is named: it may state the line too."""
    file = beside(path) if named else ""
    is_other = file and named and not (os.path.exists(named) and os.path.samefile(file, named))
    return [f"{file} is not read: --columns names another file"] if is_other else []


def beside(path: str) -> str:
    """The path of balisekit.toml in the folder of this file, or nothing if there is none.

    A link that leads nowhere, a pipe and a folder of that name are found too, and refused when they are read.
    """
    file = os.path.join(os.path.dirname(path), BESIDE)
    return file if os.path.lexists(file) else ""


def _read(path: str) -> Dict[str, Dict[str, Any]]:
    """The tables of a file. Lines at the top are those of [columns]."""
    with faults_of(path):
        form = _parsed(inputs.read_settings(path).content)
        tables = {name: form.pop(name, {}) for name in (COLUMNS_TABLE, EXPECT_TABLE, DESIGN_TABLE, *STATED)}
        check = tables[CHECK_TABLE]
        _place_rules(path, check)
        for name in FILES.intersection(check if isinstance(check, dict) else ()):
            check[name] = _placed(path, name, check[name])
        if form and tables[COLUMNS_TABLE]:
            raise TableError(f"{next(iter(form))} is outside of [columns]: put all headings of the table there")
        tables[COLUMNS_TABLE] = tables[COLUMNS_TABLE] or form
        for name in KNOWN:
            _look_at(name, tables[name])
        for name, keys in STATED.items():
            _look_at_stated(name, tables[name], keys)
    return tables


def _placed(path: str, name: str, value: Any) -> Any:
    """The path of a key of [check], or each one of a list, from here. Anything else stays: it is refused later."""
    if isinstance(value, list):
        return [_placed(path, name, each) for each in value]
    if not isinstance(value, str):
        return value
    if not value.strip():
        raise TableError(f'[check] {name} is empty: write {name} = "{name}.csv"')
    return inputs.claimed(os.path.join(os.path.dirname(path), value))


def _place_rules(path: str, check: Any) -> None:
    """Gives the files of [check] rules_from their paths from here. The names of packages are no paths."""
    named = check.get(RULES_FROM) if isinstance(check, dict) else None
    if isinstance(named, list) and all(isinstance(each, str) for each in named):
        folder = os.path.dirname(path)
        check[RULES_FROM] = [
            inputs.claimed(os.path.join(folder, each)) if inputs.is_python(each) else each for each in named
        ]


def _parsed(content: bytes) -> Dict[str, Any]:
    """The content of a TOML file."""
    if len(content) > GREATEST_FILE:
        raise TableError(f"it has {len(content):,} bytes, more than {GREATEST_FILE:,}: is it a file of settings?")
    if sys.version_info >= (3, 11):
        import tomllib
    else:
        with needed("tomli", "reading headings of your own"):
            import tomli as tomllib
    try:
        form: Dict[str, Any] = tomllib.loads(content.decode("utf-8-sig"))
    except (UnicodeDecodeError, tomllib.TOMLDecodeError, RecursionError) as error:
        raise TableError(f'it is no TOML, with lines such as telegram = "Telegram (hex)": {error}') from error
    except ValueError as error:  # (Python reads no number of more than 4,300 digits)
        raise _with_long_number(content.decode("utf-8-sig")) from error
    return form


def _with_long_number(text: str) -> TableError:
    """The error of a file with a number that is too long to be read: its line, and the key if that is in the line."""
    for number, line in enumerate(text.split("\n"), 1):
        if LONG_NUMBER.search(line):
            key = KEY.match(line)
            return TableError(f"{f'{key[1]} is ' if key else ''}a number of more than 4,000 digits", line=number)
    return TableError("a number is too long")


def _look_at_stated(table: str, stated: Any, keys: Sequence[str]) -> None:
    """Raises TableError for a key that is none of these."""
    if not isinstance(stated, dict):
        raise TableError(f"{table} is no table: write [{table}], and a line for each key below it")
    for name in stated:
        if name not in keys:
            raise TableError(f"[{table}] has an unknown key {name}: {_meant(name, keys, 'keys')}")


def _meant(name: str, known: Sequence[str], what: str) -> str:
    """The known name of which this one might be a mistyping, or all known names."""
    meant = alike(name, known)
    return f'did you mean "{meant}"?' if meant else f"the {what} are {', '.join(known)}"


def _look_at(table: str, headings: Any) -> None:
    """Raises TableError for what names no column, and for two columns of one heading."""
    if not isinstance(headings, dict):
        raise TableError(f"{table} is no table: write [{table}], and a line for each heading below it")
    first: Dict[str, str] = {}
    for name, heading in headings.items():
        if name not in KNOWN[table]:
            hint = _meant(name, KNOWN[table], "columns")
            raise TableError(f"[{table}] names an unknown column {name}: {hint}")
        if not isinstance(heading, str) or not heading.strip():
            raise TableError(f'the heading of {name} is no text: write {name} = "..."')
        if "\0" in heading:
            raise TableError(f"the heading of {name} has a NUL, which no table has")
        if len(heading) > GREATEST_NAME:
            raise TableError(f"the heading of {name} has more than {GREATEST_NAME:,} characters")
        key = " ".join(heading.split()).lower()
        if first.setdefault(key, name) != name:
            raise TableError(f'{first[key]} and {name} have one heading, "{heading}"')

"""What a user states of the line: by options, else by the table [check] of balisekit.toml beside the table.

The table [report] of the file has the heading of reports.
"""
from __future__ import annotations

import argparse
import os
import re
from functools import partial
from typing import Any, Callable, Dict, FrozenSet, Mapping, NamedTuple, Optional, Sequence, Tuple

from balisekit.cli import options as shared
from balisekit.errors import TableError, faults_of
from balisekit.etcs import raw_layouts
from balisekit.io.inputs import InputPath, is_python
from balisekit.rules import meaning
from balisekit.rules.chainage import Jump, look_at, read_jumps
from balisekit.rules.discovery import ADDED, ADDED_NAME
from balisekit.rules.rule import ALL, LINE_SPEED, RELEASE_SPEED, Options, Rule
from balisekit.tables import designs, own_headings
from balisekit.tables.cells import GREATEST_NAME
from balisekit.tables.names import clean
from balisekit.tables.plan import Plan

GREATEST_LINE_SPEED, GREATEST_RELEASE_SPEED = 500, 100
"""In km/h. ETCS has speeds up to 600 km/h, but no line is that fast, and trains are released at 40 km/h or less."""
NAMES = [rule.name for rule in meaning.RULES]
JUMPS = "a CSV file with km, km_after and track: the places at which the kilometres jump"
DESIGN = (
    "a file of the line's design, for the rules X: a workbook with a sheet for each kind, or a CSV; can be repeated"
)
CONFIRMED = "the least share of the variables that the design has to confirm: below it the answer is INCOMPLETE"
PLAN = "a CSV file that describes the track: a part of the design, as those of --design are"
RULES = "rules E or added ones to apply too, with their parts that are off by default: E2,E20 or all"
RULES_FROM = "a file of Python with a rule of your own, or an installed package with such rules; can be repeated"


def _speed(greatest: int, text: str) -> int:
    """A speed in km/h."""
    if not re.fullmatch("[0-9]{1,3}", text) or not 0 < int(text) <= greatest:
        raise argparse.ArgumentTypeError(f"{text[:40]} is no speed in km/h from 1 to {greatest}")
    return int(text)


_line_speed, _release_speed = partial(_speed, GREATEST_LINE_SPEED), partial(_speed, GREATEST_RELEASE_SPEED)


def _rules(text: str) -> FrozenSet[str]:
    """Names of rules E and of added rules, or `all`. Whether there are such added rules is known once they are read."""
    names = [name.strip() for name in text.split(",")]
    if [name.lower() for name in names] == [ALL]:
        return frozenset({ALL})
    unknown = [name for name in names if not (name.upper() in NAMES or re.fullmatch(ADDED_NAME, name.upper()))]
    if unknown:
        known = f"the rules are {', '.join(NAMES)}"
        raise argparse.ArgumentTypeError(f"{unknown[0][:40] or 'nothing'} is no rule: write all or E7,E11; {known}")
    return frozenset(name.upper() for name in names)


def _rules_from(text: str) -> str:
    """The path of a file of Python, or the name of a package."""
    return InputPath(shared.name(text)) if is_python(text) else shared.name(text)


def _layouts(text: str) -> FrozenSet[int]:
    """The numbers of packets to trains that balisekit has a layout of."""
    known = {layout.number for layout in raw_layouts.layouts().values() if layout.from_track}
    found = set()
    for each in text.split(","):
        if not re.fullmatch("[0-9]{1,3}", each.strip()) or int(each) not in known:
            raise argparse.ArgumentTypeError(
                f"{each[:40] or 'nothing'} is no raw packet of which balisekit has a layout"
            )
        found.add(int(each))
    return frozenset(found)


def _share(text: str) -> float:
    """How many of a hundred variables a design has to confirm."""
    if not re.fullmatch(r"[0-9]{1,3}([.][0-9]{1,3})?", text) or float(text) > 100:
        raise argparse.ArgumentTypeError(
            f"{text[:40]} is no share: write a number of per cent from 0 to 100, such as 95"
        )
    return float(text)


class Kind(NamedTuple):
    """What the value of a key of [check] can be."""

    read: Callable[[str], Any]
    """Reads it as an option has it."""
    types: Tuple[type, ...]
    """Its types in a file."""
    example: str
    families: str
    """The letters of the families of rules that use it."""
    one_by_one: bool = False
    """Whether the items of a list are read one by one."""
    item: type = str
    """The type of the items of a list."""


KINDS: Mapping[str, Kind] = {
    "line_speed": Kind(_line_speed, (int,), "160", "E"),
    "release_speed": Kind(_release_speed, (int,), "40", "E"),
    "tolerance": Kind(shared.tolerance, (int, float), "2.5", "LEX"),
    "jumps": Kind(str, (str,), '"jumps.csv"', "LEX"),
    "plan": Kind(str, (str,), '"plan.csv"', "LEX"),
    "design": Kind(str, (str, list), '"design.xlsx"', "LEX", one_by_one=True),
    "confirmed": Kind(_share, (int, float), "95", "X"),
    "rules": Kind(_rules, (str, list), '["E2", "E20"]', f"E{ADDED}"),
    "layouts": Kind(_layouts, (list,), "[39, 67]", "E", item=int),
    "rules_from": Kind(_rules_from, (list,), '["acme.py"]', ADDED, one_by_one=True),
}
"""The keys of [check]."""
GREATEST_SIGNATURES = 20
LONGEST = 60
"""The bits of the longest whole number that is shown: it has at most 18 digits."""
TYPES: Mapping[type, str] = {str: "a text", list: "a list", dict: "a table", bool: "true or false", float: "a fraction"}
"""The words for what a file has instead. Anything else but a whole number is a date or a time."""


def add_options(parser: argparse.ArgumentParser) -> None:
    """The options that state what the line is."""
    shared.add(parser, "--tolerance", help=f"{shared.TOLERANCE}, and 1 for E, X1 and X2")
    speed = f"the greatest speed of the line, for E2 (else {LINE_SPEED}) and E11"
    release = f"the greatest release speed of the line, for E2; {RELEASE_SPEED} by default"
    parser.add_argument("--line-speed", **shared.value("KM/H", _line_speed, speed))
    parser.add_argument("--release-speed", **shared.value("KM/H", _release_speed, release))
    parser.add_argument("--jumps", **shared.input_file(JUMPS))
    parser.add_argument("--plan", **shared.input_file(PLAN))
    parser.add_argument("--confirmed", **shared.value("PERCENT", _share, CONFIRMED))
    parser.add_argument("--design", action="append", **shared.input_file(DESIGN))
    parser.add_argument("--rules", **shared.value("RULES", _rules, RULES))
    parser.add_argument("--rules-from", action="append", **shared.value("FILE.py", _rules_from, RULES_FROM))


def used_by(letters: Sequence[str]) -> Sequence[str]:
    """The keys of [check] that the rules of these families use."""
    return [name for name, kind in KINDS.items() if not set(kind.families).isdisjoint(letters)]


def refuse_unused(options: argparse.Namespace, letters: Sequence[str]) -> None:
    """Raises TableError if an option is given that the rules of these families do not use."""
    of_design = {"plan", "design"} if {"E", "X"}.isdisjoint(letters) else set()  # (L uses only its jumps)
    used = set(used_by(letters)) - of_design
    shared.refuse_unused(options, f"with --only {','.join(letters)}", *(name for name in KINDS if name not in used))


def of_line(options: argparse.Namespace) -> Options:
    """What the options and balisekit.toml state. TableError is raised for a value of the file that is none."""
    of_file, of_command = _of_file(options), given(options)
    stated = {**of_file, **of_command}
    _look_at_files(options, stated)
    more: Dict[str, Any] = {}
    if "tolerance" in stated:
        more["tolerance"] = more["tolerance_of_places"] = stated["tolerance"]
    plan = _design(options, stated)
    known = added(options, stated)
    asked = stated.get("rules", frozenset())
    for name in sorted(asked.difference(NAMES, (ALL, *(rule.name for rule in known)))):
        raise TableError(f"{name} is no rule: --rules names rules {NAMES[0]} to {NAMES[-1]} and those of --rules-from")
    return Options(
        **more,
        line_speed=stated.get("line_speed"),
        release_speed=stated.get("release_speed", RELEASE_SPEED),
        jumps=_jumps(stated, plan),
        plan=plan,
        asked=asked,
        added=known,
        layouts=stated.get("layouts", frozenset()),
        confirmed=stated.get("confirmed"),
        replaced=_replaced(of_file.get("rules_from", ()), of_command.get("rules_from")),
    )


def _replaced(of_file: Sequence[str], given: Optional[Sequence[Any]]) -> Tuple[str, ...]:
    """What a file of settings names in vain, because the command line names other files or packages."""
    return () if given is None else tuple(each for each in of_file if each not in given)


def added(options: argparse.Namespace, stated: Optional[Mapping[str, Any]] = None) -> Tuple[Rule, ...]:
    """The rules that the user adds, if the command applies rules. Without a table only the options state them."""
    named = (given(options) if stated is None else stated).get("rules_from", ())
    if not named or not hasattr(options, "rules_from"):
        return ()
    from balisekit.rules.adding import load  # (few users need it)

    return load(named)


def jumps(options: argparse.Namespace) -> Tuple[Jump, ...]:
    """Where the kilometres jump, by the option, by balisekit.toml and by its plan, which need not be written yet."""
    stated = {**_of_file(options), **given(options)}
    written = {**stated, "design": [each for each in stated.get("design", ()) if os.path.exists(each)]}
    if not os.path.exists(stated.get("plan", "")):
        written.pop("plan", None)
    return _jumps(stated, _design(options, written))


def _design(options: argparse.Namespace, stated: Mapping[str, Any]) -> Optional[Plan]:
    """The design of all files that are stated, if there is one."""
    plan, files = stated.get("plan"), stated.get("design", ())
    headings = own_headings.of_design(options.table, options.columns)
    return designs.read(plan, files, headings) if files or plan is not None else None


def _jumps(stated: Mapping[str, Any], plan: Optional[Plan]) -> Tuple[Jump, ...]:
    """Those of the file of jumps, and those of the plan, each once."""
    own = read_jumps(stated["jumps"]) if "jumps" in stated else ()
    found = tuple(dict.fromkeys([*own, *(Jump(*each) for each in (plan.jumps if plan else ()))]))
    files = [stated[name] for name in ("jumps", "plan") if name in stated]
    with faults_of(" and ".join([*files, *stated.get("design", ())])):
        look_at(found)
    return found


def given(options: argparse.Namespace) -> Dict[str, Any]:
    """The options that were given, of those that the command has."""
    values = {name: getattr(options, name, None) for name in KINDS}
    return {name: value for name, value in values.items() if value is not None and value is not shared.EXACT}


def _of_file(options: argparse.Namespace) -> Dict[str, Any]:
    """What the table [check] of the file has."""
    path, values = own_headings.stated(options.table, options.columns, own_headings.CHECK_TABLE)
    with faults_of(path):
        return {name: _value(name, value) for name, value in values.items()}


def _look_at_files(options: argparse.Namespace, stated: Mapping[str, Any]) -> None:
    """TableError is raised for a file that only [check] names, and that is not there."""
    path, _ = own_headings.stated(options.table, options.columns, own_headings.CHECK_TABLE)
    with faults_of(path):
        if "rules_from" in stated and hasattr(options, "rules_from"):
            _refuse_found(path, options)
        for name in sorted(own_headings.FILES & (stated.keys() - given(options).keys())):
            for file in stated[name] if isinstance(stated[name], list) else [stated[name]]:
                if not os.path.lexists(file):
                    raise TableError(f"[check] {name}: there is no file {clean(file[:GREATEST_NAME])}")


def _refuse_found(path: str, options: argparse.Namespace) -> None:
    """TableError is raised if a file states rules that is not named by the command line: a table may bring it along."""
    if not options.columns and "rules_from" not in given(options):
        why = "[check] rules_from names code that would run, and nobody has named this file"
        raise TableError(f"{why}: give --columns {clean(path)}, or --rules-from")


def _value(name: str, value: object) -> Any:
    """A value of the file, read as an option is if it has the type that is wanted."""
    kind = KINDS[name]
    has_type = type(value) in kind.types  # (true and false are whole numbers for isinstance)
    if not has_type or isinstance(value, list) and not all(type(item) is kind.item for item in value):
        raise TableError(f"[check] {name} is {_type_words(value, kind)}: write {name} = {kind.example}")
    if isinstance(value, int) and value.bit_length() > LONGEST:
        raise TableError(f"[check] {name} is a number of more than 18 digits: write {name} = {kind.example}")
    try:
        if kind.one_by_one:
            return list(map(kind.read, value if isinstance(value, list) else [str(value)]))
        return kind.read(",".join(map(str, value)) if isinstance(value, list) else str(value))
    except argparse.ArgumentTypeError as error:
        raise TableError(f"[check] {name}: {error}") from error


def _type_words(value: object, kind: Kind) -> str:
    """What a value is that has not the type that is wanted."""
    if type(value) is int:
        return "a number"
    words = TYPES.get(type(value), "a date or a time")
    items = "numbers" if kind.item is int else "texts"
    return f"{words} of other things than {items}" if type(value) in kind.types else words


def heading(options: argparse.Namespace) -> own_headings.ReportHeading:
    """What the table [report] of the file has. TableError is raised for a value that is no text."""
    path, values = own_headings.stated(options.table, options.columns, own_headings.REPORT_TABLE)
    with faults_of(path):
        texts = {name: _texts(name, value) for name, value in values.items()}
    signatures = texts.pop("signatures", ())
    return own_headings.ReportHeading(**{name: text for name, (text,) in texts.items()}, signatures=signatures)


def _texts(name: str, value: object) -> Tuple[str, ...]:
    """The text of a key, or the texts of `signatures`."""
    several = isinstance(value, list)
    texts = value if isinstance(value, list) else [value]
    if several != (name == "signatures") or not all(isinstance(text, str) and text.strip() for text in texts):
        example = '["prepared", "verified"]' if name == "signatures" else '"..."'
        raise TableError(f"[report] {name} is no text: write {name} = {example}")
    if len(texts) > GREATEST_SIGNATURES or any(len(text) > GREATEST_NAME for text in texts):
        most = f"more than {GREATEST_NAME:,} characters or {GREATEST_SIGNATURES} texts"
        raise TableError(f"[report] {name} has {most}")
    return tuple(texts)

"""How an answer begins: which program answered, which settings differ from their defaults, and what was accepted.

In words a path is as the command has it. What others read has paths from the folder of the table, so that it is the
same in each folder in which the command ran.
"""
from __future__ import annotations

import os
from functools import partial
from typing import Any, Callable, Dict, Iterator, List, Optional

from balisekit.engine.find_program import ABOUT, RELEASES, SOURCES
from balisekit.engine.program import Program
from balisekit.expressions import expression
from balisekit.io import clock
from balisekit.rules.accepted import Judged
from balisekit.rules.checking import Checked
from balisekit.tables.names import clean, counted, quoted
from balisekit.tables.settings import Setting, Settings, Source

KNOWN = {
    ABOUT: "the {kind} of this balisekit, by ABOUT",
    RELEASES: "a released program by RELEASES, but not the program of this balisekit",
    SOURCES: "not a released program: it was built from the sources of this clone",
    "": "not a released program: it was named by --program",
}
"""What is said of a program, by what its checksum is known by."""
NAMES = {"program": "balisecheck", "library": "libbalisecheck", "module": "balisecheck.mjs"}
PLAIN = expression("[-+/.,A-Za-z0-9_]*")
"""A value that needs no quotes."""
DEFAULTS = "all have their defaults"
Shown = Callable[[str], str]
"""How a path is shown."""


def from_table(table: str, path: str, folder: str = "") -> str:
    """The path of a file from the folder of the table. Both start from this folder, or else from the current one."""
    return os.path.relpath(os.path.join(folder, path), os.path.join(folder, os.path.dirname(table) or os.curdir))


def paths_from(checked: Checked) -> Shown:
    """Shows paths from the folder of the table that was checked."""
    return partial(from_table, checked.table.path, folder=checked.table.folder)


def opening(checked: Checked, judged: Optional[Judged] = None, shown: Shown = str) -> Iterator[str]:
    """The program, the settings, and the file of accepted entries if there is one: a line each."""
    yield from opening_of(checked.program, checked.settings, shown)
    if judged:
        yield f"entries: {entries_words(judged, shown)}"


def opening_of(program: Program, settings: Settings, shown: Shown = str) -> List[str]:
    """The program and the settings."""
    return [program_words(program), f"settings: {settings_words(settings, shown)}"]


def program_words(program: Program) -> str:
    """Which program or library answered, and whether it is a released one."""
    name = NAMES[program.kind]
    version = f" {program.about['version']}" if "version" in program.about else ""
    return f"{name}{version}, SHA-256 {program.sha256}: {known_words(program)}{_node_words(program)}"


def _node_words(program: Program) -> str:
    """Which node runs a module."""
    about = program.about
    return f", run by node {clean(about['node_version'])}, {clean(about['node'])}" if "node" in about else ""


def known_words(program: Program) -> str:
    """Whether what answered is a released program, or its library."""
    return KNOWN[program.known_by].format(kind=program.kind)


def settings_words(settings: Settings, shown: Shown = str) -> str:
    """Which settings differ from their defaults, those of the command line first."""
    return "; ".join(_source_words(source, shown) for source in settings.sources) or DEFAULTS


def _source_words(source: Source, shown: Shown) -> str:
    if not source.path:
        return ", ".join(f"{each.name} {_value(each, shown)}".strip() for each in source.settings)
    words = ", ".join(f"{each.name} = {_value(each, shown)}{_replaced(each)}" for each in source.settings)
    return f"{clean(shown(source.path))} (SHA-256 {source.sha256}): {words or DEFAULTS}"


def _replaced(setting: Setting) -> str:
    """Which option replaces a value of a file."""
    return f" (not used: {setting.replaced_by} replaces it)" if setting.replaced_by else ""


def _value(setting: Setting, shown: Shown) -> str:
    """The value, and the checksum of the file that it names."""
    text = shown(setting.value) if setting.is_path else setting.value
    value = text if PLAIN.fullmatch(text) else quoted(text)
    return f"{value} (SHA-256 {setting.sha256})" if setting.sha256 else value


def entries_words(judged: Judged, shown: Shown = str) -> str:
    """The file of accepted entries, and the day by which it was judged."""
    entries, dated = judged.entries, clock.dated()
    only = f"; SOURCE_DATE_EPOCH, {dated}, only dates outputs" if dated not in (None, judged.day) else ""
    many = counted(len(entries.entries), "entry", "entries")
    file = f"{many} of {clean(shown(entries.path))} (SHA-256 {entries.sha256})"
    return f"{file}, judged on {judged.day} by the clock{only}"


def program_json(program: Program) -> Dict[str, str]:
    """The program or library for other tools."""
    about = {name: value for name, value in program.about.items() if name != program.kind}
    return {"kind": program.kind, "path": program.path, "sha256": program.sha256, "known_by": program.known_by, **about}


def settings_json(settings: Settings, shown: Shown) -> List[Dict[str, Any]]:
    """The settings for other tools. The command line has no path."""
    return [
        {
            "file": shown(source.path) if source.path else None,
            "sha256": source.sha256 or None,
            "values": [_setting_json(each, shown) for each in source.settings],
        }
        for source in settings.sources
    ]


def _setting_json(setting: Setting, shown: Shown) -> Dict[str, Optional[str]]:
    value = shown(setting.value) if setting.is_path else setting.value
    replaced = {"replaced_by": setting.replaced_by} if setting.replaced_by else {}
    return {"name": setting.name, "value": value, "sha256": setting.sha256 or None, **replaced}

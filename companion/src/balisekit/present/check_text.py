"""The first and last lines of an answer in words: what was refused, and the program's verdict."""
from __future__ import annotations

from typing import Callable, Dict, Iterator, List, Tuple

from balisekit.present.refusals import not_looked_at, refused_counts
from balisekit.rules.checking import Checked
from balisekit.tables.model import Group, Table
from balisekit.tables.names import clean, counted, describe_group

NAMED = 3
"""How many groups with one number of aspects are named."""


def left_out_lines(checked: Checked) -> Iterator[str]:
    """The groups that were left out, and why."""
    return (f"left out: {describe_group(one.group)}: {one.why}" for one in checked.left_out)


def head_line(table: Table, shown: Callable[[str], str] = str) -> str:
    """The first line of an answer."""
    return (
        f"{clean(shown(table.path))}: {counted(len(table.rows), 'telegram')} of {counted(len(table.groups), 'group')}"
    )


def last_line(checked: Checked) -> str:
    """The program's verdict, or that something was left out."""
    if checked.whole and checked.verdict:
        return f'program: "{checked.verdict.line}"'
    found = f"; findings in the rest: {len(checked.findings)}" if checked.findings else ""
    return f"INCOMPLETE: {', '.join(missing_in(checked))}{found}"


def missing_in(checked: Checked) -> List[str]:
    """How much was refused, left out, not tried or not read."""
    groups = f"{len(checked.left_out)} of {len(checked.table.groups)} groups left out"
    refused = checked.refused or checked.refused_messages or checked.left_out
    return [*([*refused_counts(checked), groups] if refused else []), *not_looked_at(checked)]


def aspects_found(table: Table) -> str:
    """How many aspects the groups of the table have. Nothing else shows that the table lacks a whole aspect."""
    parts: List[str] = []
    for count, groups in groups_by_aspects(table):
        word = "" if parts else " group" if len(groups) == 1 else " groups"
        few = len(groups) <= NAMED and len(groups) < len(table.groups)
        names = f" ({', '.join(clean(group.name) for group in groups)})" if few else ""
        parts.append(f"{count} in {len(groups)}{word}{names}")
    return f"aspects found: {', '.join(parts)}"


def groups_by_aspects(table: Table) -> List[Tuple[int, List[Group]]]:
    """Each number of aspects, the greatest first, and the groups that have it."""
    found: Dict[int, List[Group]] = {}
    for group in table.groups:
        found.setdefault(len(group.aspects), []).append(group)
    return sorted(found.items(), reverse=True)

"""Groups and aspects that options name. An unknown name is refused with the names that resemble it."""
from __future__ import annotations

from dataclasses import replace
from difflib import get_close_matches
from typing import Dict, Iterable, Optional, Sequence, Tuple

from balisekit.engine.program import Program
from balisekit.errors import TableError
from balisekit.rules import checking
from balisekit.rules.line import Line, has_no_direction
from balisekit.tables.model import Group, Table
from balisekit.tables.names import quoted

COMPARED = 100
"""How many characters of a name are compared with other names."""


def meant(name: str, known: Iterable[str]) -> str:
    """A question with the known names that resemble this one in either case, at most three. Without any it is empty."""
    spelled: Dict[str, str] = {}
    for each in known:
        spelled.setdefault(each[:COMPARED].casefold(), each)
    near = [quoted(spelled[each]) for each in get_close_matches(name[:COMPARED].casefold(), spelled)]
    return f" (did you mean {' or '.join(filter(None, (', '.join(near[:-1]), near[-1])))}?)" if near else ""


def groups_named(table: Table, names: Sequence[str]) -> Table:
    """The table with only these groups, in its own order."""
    known = {group.name: group for group in table.groups}
    for name in names:
        if name not in known:
            raise TableError(f"there is no group {quoted(name)} in {table.path}{meant(name, known)}")
    groups = tuple(group for group in table.groups if group.name in names)
    others = [row.number for row in table.rows if row.group not in names]
    account = table.account.without("--group leaves them out", others, asked=True)
    rows = tuple(row for row in table.rows if row.group in names)
    return replace(table, groups=groups, rows=rows, account=account)


def with_directions_of(
    table: Table, groups: Sequence[Group], program: Program, by_position: bool
) -> Tuple[Sequence[Group], Sequence[str]]:
    """Groups of a table, single balises with the direction of the links that name them, and notes on these.

    The other groups of the table are looked at only if it does not show the direction of one of these.
    """
    if not any(map(has_no_direction, groups)):
        return groups, ()
    line = Line.of(checking.check(program, table, None, by_position))
    names = {group.name for group in groups}
    notes = [note for name, note in line.direction_notes.items() if name in names]
    return [group for group in line.directed if group.name in names], notes


def check_aspect(table: Table, aspect: Optional[str]) -> None:
    """Raises TableError if no group has the aspect that is asked for."""
    known = dict.fromkeys(known.name for group in table.groups for known in group.aspects if known.name)
    if aspect is not None and aspect not in known:
        raise TableError(f"there is no aspect {quoted(aspect)} in {table.path}{meant(aspect, known)}")


def check_aspect_of(group: Group, aspect: Optional[str]) -> None:
    """Raises TableError if this group does not have the aspect that is asked for."""
    known = [known.name for known in group.aspects]
    if aspect is not None and aspect not in known:
        has = f"its aspects are {', '.join(map(quoted, known))}" if any(known) else "what it sends is for every aspect"
        raise TableError(f"group {quoted(group.name)} has no aspect {quoted(aspect)}: {has}")

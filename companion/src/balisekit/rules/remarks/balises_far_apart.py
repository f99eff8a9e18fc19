"""far apart: balises of one group stand far apart.

What it says. By the column km the first and the last balise of a group are more than 100 m from each other. A group of
eight balises is shorter.

Why it matters. To be looked at: pictures and sums of distances count from a wrong place.

Usual cause. A kilometre was typed wrongly, or a row belongs to another group. The kilometres may also jump there.

How to correct it. Correct the kilometre or the group.
"""
from __future__ import annotations

from typing import Optional

from balisekit.rules.line import Line
from balisekit.rules.location import Location
from balisekit.rules.rule import Options, Remark, Result, Rule
from balisekit.tables.model import Group, Row
from balisekit.tables.names import clean, kilometre, quoted

FAR = 100
"""More metres than a group of eight balises is long."""


def find(line: Line, options: Options) -> Result:
    """Looks at each group."""
    found = [remark for remark in map(_look_at, line.table_groups) if remark]
    return Result(found, len(line.table_groups))


def _look_at(group: Group) -> Optional[Remark]:
    places = {row.km: row for row in reversed(group.each_row) if row.km is not None}
    if len(places) < 2:
        return None
    low, high = min(places), max(places)
    metres = (high - low) * 1000
    if metres <= FAR:
        return None
    rows = sorted((places[low], places[high]), key=lambda row: row.number)
    sentence = f"{clean(group.name)}: {' and '.join(map(_row, rows))} are {metres.normalize():f} m apart by km"
    return Remark(RULE.name, Location(row=rows[0]), sentence, values={"metres": metres})


def _row(row: Row) -> str:
    km = "" if row.km is None else f" (km {kilometre(row.km)})"
    return f"row {row.number}{f' {quoted(row.name)}' if row.name else ''}{km}"


RULE = Rule("far apart", "groups", __doc__ or "", find)

"""The rules X: what the telegrams say beside a track plan. They are applied only if there is one.

They are rules of balisekit, and not proved. A remark shows that telegrams and plan differ, and not which of them is
wrong.
"""
from __future__ import annotations

from typing import Iterator

from balisekit.rules.discovery import rules_of
from balisekit.rules.line import Line
from balisekit.rules.passed_over import PassedOver, Rules, behind_infill, notes_of

RULES = rules_of(__name__, __path__)
OF_PLACES = Rules("X1 to X3, X5, X6 and X10", "X1 to X3, X5, X6 and X10")
"""What needs the kilometre of a group, and its direction. X4 needs them for rows with a way, and X7 needs none."""
NO_TRACK = "no track, though other groups have one, so X1 to X3, X5, X6 and X10 compare it with no row that has a track"
IN_PLAN = frozenset({12, 15, 16, 21, 27, 39, 41, 42, 46, 49, 65, 66, 68, 88, 131, 132, 137, 138, 139})
"""The packets that are compared with a plan."""


def passed_over(line: Line) -> Iterator[PassedOver]:
    """The groups and messages that some of these rules do not look at."""
    yield from OF_PLACES.find(line)
    yield from behind_infill(line, lambda number: number in IN_PLAN, "rules X")


def notes_on(line: Line) -> Iterator[str]:
    """A note for each reason, and for the groups without a track, which only rows without a track are compared with."""
    trackless = (PassedOver(group.group, NO_TRACK) for group in line.trackless)
    return notes_of([*passed_over(line), *trackless])


__all__ = ["OF_PLACES", "RULES", "notes_on", "passed_over"]

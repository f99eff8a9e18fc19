"""What is wrong by a finding of the program, with the values that differ: sentences of balisekit on the program's JSON.

The finding is the program's. Each number here is one that the program has decoded, or a sum of such numbers.
"""
from __future__ import annotations

from typing import Callable, Mapping

from balisekit.rules.statements import headers, packets, profiles
from balisekit.rules.statements.scene import Scene, Statement

STATEMENTS: Mapping[int, Callable[[Scene], Statement]] = {
    1: headers.position_wrong,
    2: headers.total_wrong,
    3: headers.header_differs,
    4: headers.mark_outside,
    5: headers.mark_unanswered,
    6: headers.counter_unfit,
    7: headers.counters_differ,
    8: packets.duplicates_differ,
    9: packets.not_modelled,
    10: profiles.no_profile,
    11: profiles.profile_short,
    12: profiles.no_profile,
    13: profiles.profile_short,
    14: headers.identity_used,
    15: headers.marks_differ,
    16: headers.not_told_apart,
}
"""What says it, by the rule."""


def statement(scene: Scene) -> Statement:
    """What is wrong by the finding of this scene; its name alone if the JSON does not show it."""
    try:
        return STATEMENTS[scene.finding.rule](scene)
    except (IndexError, KeyError, StopIteration, ValueError):
        return Statement(scene.finding.name)

"""Which variables of a packet 12, and of the profiles beside it, a row of kind `aspect` states, by its keys."""
from __future__ import annotations

from typing import Mapping, Sequence

from balisekit.etcs.geometry import ELEMENT_KEYS
from balisekit.rules.telegrams import GRADIENTS, SPEEDS, allowance
from balisekit.rules.track_plan.confirmed import Path
from balisekit.rules.track_plan.placed import PlacedPlan, Saying
from balisekit.rules.track_plan.x3_ends import lengths_of
from balisekit.tables.plan import PlanRow

VARIABLES: Mapping[str, Sequence[Path]] = {
    "v": [("v_main",)],
    "overlap": [("overlap", "d_ol")],
    "danger": [("danger_point", "d_dp")],
    "loa": [("end_speed",)],
    "loa_time": [("end_timeout",)],
    "end_time": [("end_timer", "t_endtimer")],
    "end_start": [("end_timer", "d_endtimerstartloc")],
    "overlap_time": [("overlap", "t_ol")],
    "overlap_start": [("overlap", "d_startol")],
}
"""The variables of a packet 12 that a key states. The end is the sum of several."""


def confirm_authority(
    placed: PlacedPlan, saying: Saying, row: PlanRow, stated: Sequence[str], differ: Sequence[str]
) -> None:
    """Takes down which variables of a packet 12 a row confirms, and which it contradicts."""
    packet = saying.packet
    release = ("overlap", "v_releaseol") if packet.form.get("overlap") else ("danger_point", "v_releasedp")
    variables = {**VARIABLES, "release": [release], "end": lengths_of(packet), "sections": lengths_of(packet)}
    same = [key for key in stated if key not in differ]
    placed.confirmed.confirm([row], packet, [path for key in same for path in variables[key]])
    placed.confirmed.contradict([row] if differ else [], packet, [path for key in differ for path in variables[key]])
    if {"end", "overlap"} <= {*same}:
        _confirm_reach(placed, saying, row)


def _confirm_reach(placed: PlacedPlan, saying: Saying, row: PlanRow) -> None:
    """A row with end and overlap implies how far the profiles beside it reach, if they end where the overlap does."""
    supervised = saying.packet.authority.supervised
    for profile in saying.passage.of(GRADIENTS, SPEEDS):
        stretches = profile.stretches
        allowed = allowance(saying.packet, saying.packet.lengths) + allowance(profile, len(stretches) + 1)
        if not profile.is_open and stretches and abs((stretches[-1].end or 0) - supervised) <= allowed:
            mark = [("elements", len(stretches), key) for key in ELEMENT_KEYS[profile.number][:2]]
            placed.confirmed.confirm([row], profile, mark)

"""The borders of a plan that no packet names, for the rule X5."""
from __future__ import annotations

from typing import AbstractSet, Iterator, Tuple

from balisekit.rules.rule import Remark
from balisekit.rules.track_plan.borders import NOT_DECODED
from balisekit.rules.track_plan.placed import BEYOND, Counts, PlacedPlan, cells_of, plan_words
from balisekit.tables.plan import BORDERS, PlanRow

UNSURE = "borders of the plan that a packet without a known place may name"
"""Why borders of the plan are not looked for."""
KIND_WORDS = {"level": "level", "rbc": "RBC"}


def unnamed_borders(
    placed: PlacedPlan, named: AbstractSet[int], unplaced: AbstractSet[Tuple[str, str]], counts: Counts
) -> Iterator[Remark]:
    """The borders of the plan that no packet names, unless one without a known place may be about them."""
    rows = [row for kind in BORDERS for row in placed.plan.of_kind(kind) if row.number not in named]
    left = [row for row in rows if (row.kind, row.track) not in unplaced]
    unnamed = {row.number: list(_unnamed(placed, row)) for row in left}
    remarked = [each for some in unnamed.values() for each in some]
    unsure = len(rows) - len(left) + (len(remarked) if counts.get(NOT_DECODED) else 0)
    beyond = sum(1 for row in left if _is_beyond(placed, row))
    is_sure = not counts.get(NOT_DECODED)
    counts.update({why: count for why, count in ((BEYOND, beyond), (UNSURE, unsure)) if count})
    if is_sure:
        placed.confirmed.uncovered.update(number for number, some in unnamed.items() if some)
        yield from remarked


def _is_beyond(placed: PlacedPlan, row: PlanRow) -> bool:
    """Whether a border is before the first or after the last group of its track."""
    place = placed.place(row.track, row.km)
    known = placed.decoded.nearest(row.track, place) if place is not None else None
    return place is not None and known is not None and not placed.decoded.is_inside(row.track, place)


def _unnamed(placed: PlacedPlan, row: PlanRow) -> Iterator[Remark]:
    """A border of the plan that no packet names, if it is within the table."""
    place = placed.place(row.track, row.km)
    group = placed.decoded.nearest(row.track, place) if place is not None else None
    if place is not None and group is not None and placed.decoded.is_inside(row.track, place):
        packets = "41 or 46" if row.kind == "level" else "131 or 42"
        sentence = f"no packet {packets} names the {KIND_WORDS[row.kind]} border of {plan_words(row)}"
        yield Remark("X5", group.location(), sentence, values={"plan_km": row.km}, facts=[cells_of(row)])

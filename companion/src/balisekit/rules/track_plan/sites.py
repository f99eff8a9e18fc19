"""Aspects and groups of the table beside their rows of a plan, which are found by names: for X4 and X8."""
from __future__ import annotations

from typing import Iterator, Mapping

from balisekit.design.groups import DesignedGroup, differing_kilometres
from balisekit.rules.line import Line
from balisekit.rules.passages import GroupData
from balisekit.rules.rule import Options
from balisekit.rules.track_plan.aspect_sites import Site
from balisekit.rules.track_plan.placed import PlacedPlan
from balisekit.tables.names import clean, kilometre, quoted
from balisekit.tables.plan import PlanRow

NEAR = 500
"""How far, in decimetres, the kilometre of an aspect may be from its group, since a signal is not at its balises."""


def elsewhere(placed: PlacedPlan, sites: Mapping[str, Site]) -> Iterator[str]:
    """The rows whose kilometre or track is not that of the group: an aspect is found by its name only."""
    rows = [row for row in placed.plan.of_kind("aspect") if row.name in sites]
    apart = [row for row in rows if not _is_at(sites[row.name].data, row)]
    if apart:
        why = "not compared: the kilometre or track of these aspects, which the table does not have for the group"
        yield f"{placed.named(apart)}: {why}"


def _is_at(data: GroupData, row: PlanRow) -> bool:
    """Whether a row has the track of a group, and a kilometre near it, as far as the row states them."""
    km = data.group.km
    is_near = km is not None and abs(km - row.km) * 10_000 <= NEAR
    return (not row.track or row.track == clean(data.group.track)) and (not row.km or is_near)


def lacks_kilometres(data: GroupData, group: DesignedGroup) -> bool:
    """Whether the table lacks a kilometre that the plan has for the group or for one of its balises."""
    wanted = len(group.row.group_terms.kilometres)
    return data.group.km is None or None in [each.km for each in data.group.group.aspects[0].rows[:wanted]]


def differing_places(line: Line, data: GroupData, group: DesignedGroup, options: Options) -> Iterator[str]:
    """What differs in the track, the kilometre and the kilometres of the balises."""
    own, row, allowed = data.group, group.row, line.decoded.tolerance(options.tolerance)
    if clean(own.track) != row.track:
        yield f"the track is {quoted(own.track)}, and {quoted(row.track)}"
    stated, wanted = [each.km for each in own.group.aspects[0].rows], row.group_terms.kilometres
    first = wanted[:1] == (row.km,)  # (else the plan has two kilometres of the first balise)
    for what, pair in (("the first", ([own.km], [row.km])), ("a", (stated[first:], wanted[first:]))):
        for one, other in differing_kilometres(*pair, allowed):
            yield f"{what} balise is at km {kilometre(one)}, and at km {kilometre(other)}"

"""E11: spacing of balises.

What it says. Neighbouring balises of a group are less than 2.3 m or more than 12 m apart by their kilometres, or their
order contradicts the column `nominal`. This column states whether the kilometres rise or fall in nominal direction. The
rule rests on the installation of balise groups in SUBSET-036 and SUBSET-040.
- With a `--line-speed` above 180 km/h the least spacing is 3.0 m, and above 300 km/h it is 5.0 m.
- One unit of the last decimal of the kilometres, at most 1 m, is allowed in either direction.
- A group whose balises all have the same kilometre is not compared.

Why it matters. At worst the train has a wrong position, because distances of the group count from its first balise.
Balises that are too close disturb each other, so a train might miss one. A balise that is too far away is not taken for
a part of the group.

Example. Before (`examples/meaning/mistakes/E11.csv`): the second balise of Signal 3 is at km 13.033, 33 m from the
first one. After: it is at km 13.003, 3 m from the first one.

When it is a false alarm. The rule assumes that the track keeps these distances. That is not so if a balise has an
exception, or if `--line-speed` is the speed of a faster track. The rule also assumes that the kilometres within a group
follow the track. They do not if they jump there, if they belong to something else, or if all or some of them are
rounded coarsely.

Usual cause. A kilometre was typed wrongly. Or a row belongs to another group. Or the balises were exchanged in the
table, or the column `nominal` was filled in for the other direction.

How to correct it. Correct the kilometre, the group of the row or the column `nominal`.

How to accept it. Name the exception for these balises, or the source of their kilometres.

How sure. 88 %, because the distances are from memory. The 5.0 m above 300 km/h are 75 % sure.
"""
from __future__ import annotations

from collections import Counter
from decimal import Decimal
from typing import Dict, Iterator, List, Tuple

from balisekit.rules.line import Line
from balisekit.rules.location import NO_KILOMETRE, BaliseGroup, Location
from balisekit.rules.meaning.words import balises_of
from balisekit.rules.rule import Options, Remark, Result, Rule, Urgency
from balisekit.tables.model import Row
from balisekit.tables.names import kilometre

LEAST, GREATEST = Decimal("2.3"), Decimal(12)
"""In metres."""
LEAST_ABOVE = ((300, Decimal("5.0")), (180, Decimal("3.0")))
"""The least spacing above a line speed in km/h."""
ONE_KILOMETRE = "one kilometre for the group"
"""Why balises are not compared: many tables have only the kilometre of the group."""
WORDS = {"rising": 1, "falling": -1}
Place = Tuple[Row, Decimal]
"""A balise with its kilometre."""


def find(line: Line, options: Options) -> Result:
    """Looks at each two neighbours of a group."""
    stated = options.line_speed or 0
    least = next((spacing for speed, spacing in LEAST_ABOVE if stated > speed), LEAST)
    unit, found, looked_at = Decimal(line.decoded.resolution) / 10, [], 0
    skipped: Counter[str] = Counter()
    for group in (group for group in line.groups if group.balises > 1):
        known = _places(group)
        neighbours = [(known[each - 1], known[each]) for each in known if each - 1 in known]
        skipped[NO_KILOMETRE] += group.balises - 1 - len(neighbours)
        if len({km for _, km in known.values()}) > 1:
            looked_at += len(neighbours)
            found += [*_spacing(group, neighbours, least, unit), *_direction(group, list(known.values()))]
        else:
            skipped[ONE_KILOMETRE] += len(neighbours)
    return Result.of_places(found, looked_at, {}, skipped)


def _places(group: BaliseGroup) -> Dict[int, Place]:
    """The balises that have a kilometre, in nominal order."""
    return {place: (row, row.km) for place, row in enumerate(balises_of(group)) if row and row.km is not None}


def _spacing(
    group: BaliseGroup, neighbours: List[Tuple[Place, Place]], least: Decimal, unit: Decimal
) -> Iterator[Remark]:
    for (before, from_km), (row, km) in neighbours:
        metres = abs(km - from_km) * 1000
        if least - unit <= metres <= GREATEST + unit:
            continue
        limit = f"less than {least}" if metres < least else f"more than {GREATEST}"
        sentence = (
            f"the balise is at km {kilometre(km)}, {_number(metres)} m from the one before it in the group, row "
            f"{before.number}: that is {limit} m, and {_number(unit)} m is allowed for the rounding of the kilometres"
        )
        yield Remark(
            "E11", Location(group, row), sentence, values={"spacing_m": metres}, compared=[Location(group, before)]
        )


def _number(value: Decimal) -> str:
    """A number without zeros behind it."""
    text = f"{value:f}"
    return text.rstrip("0").rstrip(".") if "." in text else text


def _direction(group: BaliseGroup, places: List[Place]) -> Iterator[Remark]:
    """The column `nominal` beside the kilometres, if these go one way."""
    steps = {(km > before) - (km < before) for (_, before), (_, km) in zip(places, places[1:])} - {0}
    rows = [row for row in group.group.rows() if row.nominal]
    if len(steps) != 1 or not rows or {WORDS.get(row.nominal) for row in rows} == steps:
        return
    words = "rise" if steps == {1} else "fall"
    first, last = places[0][1], places[-1][1]
    sentence = (
        f"the column nominal says {rows[0].nominal}, and the kilometres of the balises {words} in nominal direction, "
        f"from km {kilometre(first)} to km {kilometre(last)}"
    )
    yield Remark("E11", Location(group), sentence, values={"first_km": first, "last_km": last})


RULE = Rule("E11", "neighbouring balises", __doc__ or "", find, Urgency.WRONG_PLACE, needs_kilometres=True)

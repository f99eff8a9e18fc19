"""L2: distance differs.

What it says. The distance to a linked group by D_LINK differs from the distance by the kilometres by more than
Q_LOCACC, `--tolerance` and rounding. These three values are added, and `--tolerance` is 0 m by default. The rule rests
on SUBSET-026, 3.4.4, 3.16.2.3 and 7.5.1.
- Both distances count from the sending group. After a link with a remark, the distances of the next links count from
  the group of that link. The remark names the group from which the distances count.
- A remark contains "in rear of it" if, by the kilometres, trains pass the linked group before the group from which the
  distances count.
- If the direction of the sending group along the kilometres is not known, the first link that is compared shows this
  direction.
- If all links over one stretch differ by the same amount, and the links are of two or more groups, one remark asks
  whether the kilometres jump there. The amounts count as the same if they are at most 2 m plus `--tolerance` apart.

Why it matters. At worst the train has a wrong position. It expects the group at another place. If the group is inside
the expectation window, the train corrects its position by a wrong distance. If the group is outside the window, the
train applies the linking reaction, so it might brake or be tripped.

Example. Before (`examples/links/distance-differs.csv`): by the kilometres B (km 11.000) is 1,000 m from A (km 10.000),
and the link of A has D_LINK 1,010 m with Q_LOCACC 5 m. After (`examples/links/line.csv`): D_LINK is 1,000 m.

When it is a false alarm. The rule relies on the kilometres of the table as positions on the track. The remark can be
false if the kilometres follow another axis, are rounded coarsely, or belong to signals. It can also be false if the
kilometres jump at a place that neither `--jumps` nor a track plan states. All links over that place then differ by the
same amount. The rule also assumes that the links stay on the track. That is not so for a route through another track,
or for a balloon loop that leads back to a group which was already passed. {one way}

Usual cause. A group was moved and the links to it were not generated again. Or Q_SCALE is not the scale of the
distances. Or a distance was counted from another balise than the first balise of the group. Or the kilometre in the
table is wrong. Then all links to and from that group differ.

How to correct it. Correct D_LINK, or the kilometre of the table. If the kilometres are rounded, state by how much with
`--tolerance`. If they jump, state the place with `--jumps`.

How to accept it. Give the route that the links follow, or the source of the kilometres, as the reason.
"""
from __future__ import annotations

from decimal import Decimal
from typing import Iterator, Optional, Sequence, Set, Union

from balisekit.rules.chainage import Chainage
from balisekit.rules.chains import Chain
from balisekit.rules.line import Line
from balisekit.rules.link_steps import jumps_of, steps_of
from balisekit.rules.location import IN_JUMP, BaliseGroup, incomparable
from balisekit.rules.rule import Options, Remark, Result, Rule, Urgency

DECIMETRES = 10_000
"""In a kilometre."""
ZERO = Decimal()
JUMP = 20
"""By how many decimetres, beside the tolerance, differences may vary that are taken for one jump of the kilometres."""


def find(line: Line, options: Options) -> Result:
    """Compares each link to a group of the table."""
    result = Result.of_chains(line, lambda chain: compare(line, chain, options.tolerance))
    return result._replace(found=_with_jumps(line, options, result.found)) if len(result.found) > 1 else result


def compare(line: Line, chain: Chain, tolerance: Decimal) -> Iterator[Union[Remark, str, None]]:
    """After a wrong distance the sum begins anew.

    If the direction of the sender along the kilometres is not known, the first link that is compared shows it.
    """
    base, summed, lengths = chain.sender, 0, 0
    along = base.along(chain.direction) if base else None
    for link in chain.links:
        summed, lengths = summed + link.distance, lengths + 1
        here = link.target
        why = incomparable(base, here)
        if base is None or here is None or why:
            yield why
            continue
        wanted = _apart(line, base, here)
        if wanted is None:
            yield IN_JUMP
            continue
        if along is None:
            along = (wanted > 0) - (wanted < 0) or None
        wanted *= along or 1
        if wanted == summed or abs(wanted - summed) <= line.allowed(link, lengths, tolerance):
            yield None
            continue
        distance, by_kilometres = Decimal(summed) / 10, wanted / 10
        sentence = (
            f"{here} is {_metres(distance)} from {base} by D_LINK, and {_metres(abs(by_kilometres))}"
            f"{' in rear of it' if wanted < 0 else ''} by the kilometres: they differ by "
            f"{_metres(abs(distance - by_kilometres))}, and Q_LOCACC is {link.accuracy} m"
            + (f" and the tolerance {_metres(tolerance)}" if tolerance else "")
        )
        values = {"metres_by_d_link": distance, "metres_by_kilometres": by_kilometres}
        sentence += line.wrong_order(base, here)
        yield Remark("L2", chain.at(link), sentence, here, values)
        base, summed, lengths = here, 0, 0


def _apart(line: Line, base: BaliseGroup, here: BaliseGroup) -> Optional[Decimal]:
    """From a group to another one by the kilometres, in decimetres."""
    if not line.jumps:
        return ((here.km or ZERO) - (base.km or ZERO)) * DECIMETRES
    return None if base.place is None or here.place is None else Decimal(here.place - base.place)


def _with_jumps(line: Line, options: Options, found: Sequence[Remark]) -> Sequence[Remark]:
    """The same, with one remark for all links over a stretch at which the kilometres seem to jump."""
    tolerance = int(options.tolerance * 10) + JUMP
    jumps = list(jumps_of(list(steps_of(line)), tolerance))
    over = {location: jump for jump in jumps for location in jump.locations}
    said: Set[int] = set()
    others = []
    for remark in found:
        jump = over.get(remark.location)
        if jump is None:
            others.append(remark)
        elif id(jump) not in said:
            said.add(id(jump))
            words = jump.words(Chainage.of(line.jumps, jump.track))
            sentence = f"{remark.sentence}. {words}: give the jump by --jumps, or correct the kilometres"
            also = [location for location in jump.locations if location != remark.location]
            others.append(remark._replace(sentence=sentence, also=also, facts=jump.facts))
    return others


def _metres(distance: Decimal) -> str:
    """A distance in metres, without zeros behind it."""
    text = f"{distance:f}"
    return f"{text.rstrip('0').rstrip('.') if '.' in text else text} m"


RULE = Rule("L2", "links", __doc__ or "", find, Urgency.WRONG_PLACE, needs_kilometres=True)

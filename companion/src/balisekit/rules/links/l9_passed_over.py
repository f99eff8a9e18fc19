"""L9: linked group passed over.

What it says. A packet 5 leads past a group without naming it, although the group has Q_LINK 1 and data for trains in
this direction. The rule rests on SUBSET-026, 3.4.4.
- The rule looks for such groups between neighbours. The first two neighbours are the group that sends the packet 5 and
  the first group that it names. The next two are the first and the second group that it names, and so on.
- The kilometres show which groups lie between two neighbours. The remark names up to three groups between two
  neighbours.
- The group must have data for the direction in which trains pass it. If this direction is not known, the group must
  have data for both directions.
- Packets 0, 145, 254 and 255 and refused telegrams do not count as data.
- The rule does not look between two neighbours on different tracks. It also does not look if one of them is not in the
  table, or if its place is unknown. A place is unknown if the kilometre is missing, or if a jump leaves it out or
  repeats it.
- A group that has Q_LINK 1 and is not named, but is not known to have such data, is not reported. A note counts such
  groups.

Why it matters. To be looked at: a train that uses these links ignores the group. Such a train uses a group with Q_LINK
1 only if a link names the group. So the train loses the information of this group, and does not react to the loss.

Example. Before (`examples/links/group-passed-over.csv`): A (km 10.000) links only C (km 12.000), and B (km 11.000) has
Q_LINK 1 and is between them. After (`examples/links/line.csv`): the packet 5 of A names B and then C.

When it is a false alarm. The rule assumes that trains which use a packet 5 pass all groups between those that it names.
That is not so if a group is on another route. The remark is harmless if a later packet 5 names the group in time. The
remark is also harmless for a group with repositioning information (packet 16), if another packet 5 leads to this group
by a link with NID_BG 16,383. The rule also assumes that a group with Q_LINK 1 is for these trains. A group for level 2
or a national system (packet 44) is for other trains, if the packets 5 are for level 1. Finally, it assumes that trains
pass groups in the order of their kilometres. That is not so if the kilometres jump back and nobody stated the jump.

Usual cause. The group was added later, and the links of its neighbours were not generated again. Or the route of this
packet 5 does not pass the group.

How to correct it. Add the group to the packet 5, and correct the distance to the next group. If trains must use the
group without linking, set the Q_LINK of the group to 0.

How to accept it. As the reason, give the route of the packet 5, or name the trains that the group is for.
"""
from __future__ import annotations

from decimal import Decimal
from itertools import accumulate, chain as joined, islice
from typing import Dict, Iterator, List, Optional, Sequence, Set, Tuple, Union

from balisekit.rules.chains import Chain
from balisekit.rules.line import Line
from balisekit.rules.location import BaliseGroup
from balisekit.rules.rule import Options, Remark, Result, Rule, Urgency
from balisekit.tables.names import listed

NAMED = 3
Way = Tuple[str, Optional[int]]
"""A track, and whether the kilometres rise or fall for a train."""


def find(line: Line, options: Options) -> Result:
    """Looks between each two neighbours of a packet 5, the group that sends it first."""
    result = Result.of_chains(line, lambda chain: _look_at(line, chain))
    return Result(result.found, result.looked_at, result.not_looked_at, list(_note(line)))


def _pairs(chain: Chain) -> Iterator[Tuple[Optional[BaliseGroup], Optional[BaliseGroup]]]:
    """Each two neighbours."""
    before = chain.sender
    for link in chain.links:
        yield before, link.target
        before = link.target


def _way(chain: Chain) -> Optional[int]:
    return chain.sender.along(chain.direction) if chain.sender else None


def _look_at(line: Line, chain: Chain) -> Iterator[Union[Remark, str, None]]:
    for before, after in _pairs(chain):
        why = line.incomparable(before, after)
        if before is None or after is None or why:
            yield why
        else:
            linked = line.linked(before.track, _way(chain), True)
            ranges = linked.between(before, after, chain)
            groups = [linked.groups[place] for place in islice(joined(*ranges), NAMED)]
            count = sum(map(len, ranges))
            found = _remark(chain, before, after, groups, count) if groups else None
            yield found._replace(facts=[linked.fact(ranges)]) if found and count > NAMED else found


def _note(line: Line) -> Iterator[str]:
    """How many groups are passed over that are not known to say anything in that direction."""
    passed: Dict[Way, List[int]] = {}
    for chain in (chains[0] for chains in line.alike):
        for before, after in _pairs(chain):
            if before is None or after is None or line.incomparable(before, after):
                continue
            silent = line.linked(before.track, _way(chain), False)
            steps = passed.setdefault((before.track, _way(chain)), [0] * (len(silent.groups) + 1))
            for places in silent.between(before, after, chain):
                steps[places.start] += 1
                steps[places.stop] -= 1
    silent_ones: Set[int] = set()
    for (track, way), steps in passed.items():
        counted = zip(line.linked(track, way, False).groups, accumulate(steps))
        silent_ones.update(group.number for group, count in counted if count)
    if silent_ones:
        words = "1 group with Q_LINK 1 is not linked by packets 5 that pass it, and says"
        if len(silent_ones) > 1:
            words = f"{len(silent_ones)} groups with Q_LINK 1 are not linked by packets 5 that pass them, and say"
        yield f"L9: {words} nothing in that direction, as far as it is known"


def _remark(chain: Chain, before: BaliseGroup, after: BaliseGroup, groups: Sequence[BaliseGroup], count: int) -> Remark:
    words = ("has", "stands", "it") if count == 1 else ("have", "stand", "them")
    sentence = (
        f"{listed(list(map(str, groups)), len(groups), count)} {words[0]} Q_LINK 1 and {words[1]} between {before} and "
        f"{after}, and this packet 5 does not name {words[2]}: a train that uses linking passes {words[2]} over"
    )
    places = {
        "from_km": before.km,
        "to_km": after.km,
        **{f"km_{place}": each.km for place, each in enumerate(groups, 1)},
    }
    values = {"groups_passed_over": Decimal(count), **{name: km for name, km in places.items() if km is not None}}
    return Remark("L9", chain.location, sentence, groups[0], values, groups)


RULE = Rule("L9", "pairs", __doc__ or "", find, Urgency.RULE_ONLY, needs_kilometres=True)

"""E16: direction of a single balise.

What it says. Packets 5 lead past a single balise that none of them names, or they disagree about its direction. A
single balise is a group of one balise. The rule rests on SUBSET-026, 3.4.2 and 3.4.4.
- A packet 5 leads past the balise if it is sent in rear of the balise, and its last link is beyond the kilometre of the
  balise. The packet 5 must be for trains that run in the direction of the balise's own packet. If this direction along
  the kilometres is not known, trains of both directions count.
- A balise that no packet 5 names is reported only if it has Q_LINK 1 and a packet for only one direction. Packets 44,
  145 and 254 do not count as such a packet. Rule L5 reports single balises with Q_LINK 0.
- The rule also reports a balise if the packets 5 that name it give it both directions.
- The rule also reports a balise if the packets 5 that name it give it another direction than the column `nominal`.
- A balise that no packet 5 names is not reported if a group at most 10 km in rear has a refused telegram. That telegram
  might name the balise.
- A balise with packet 16 (repositioning information) is not reported if a packet 5 might lead to it by a last link with
  NID_BG 16,383. This link leads to a place at most 500 m away, is on another track, or is from a group whose place or
  direction is not known.

Why it matters. At worst the train gets wrong information. The train learns the direction of a single balise by linking,
or by radio in level 2. If the train does not know the direction, it ignores packets that hold in only one direction. If
the train has the wrong direction, it uses the packets for the other direction.

Example. Before (`examples/meaning/mistakes/E16.csv`): a single balise at km 15.600 has a packet 12 for the nominal
direction. Packets 5 of other groups lead past this balise and do not name it. After: the packets 5 of Signals 3 and 4
name the balise.

When it is a false alarm. The rule assumes that the table has all links. On a line with level 2, radio might send other
links. Groups beyond the table might also name the balise. It assumes that packets 5 which lead past a balise are for
trains that pass it. That is not so if the balise is on another route. It assumes that all trains that run the same way
by the kilometres reach the balise from the same side. That is not so on a balloon loop or triangle. {kilometres}
{missing} {one way}

Usual cause. The link to an infill balise was forgotten. Or Q_LINKORIENTATION was copied from another link. Or the
column `nominal` was filled in for the other direction.

How to correct it. Name the balise in the packets 5 that lead past it, and give all these links one orientation. If the
column `nominal` is wrong, correct the column.

How to accept it. State how a train learns the direction of this balise, for example by radio.

How sure. 95 %, by practice and memory of the standard.
"""
from __future__ import annotations

from collections import Counter
from decimal import Decimal
from typing import Dict, Iterator, Tuple

from balisekit.etcs.geometry import DIRECTIONS
from balisekit.rules.chains import Chain
from balisekit.rules.line import Line
from balisekit.rules.location import IN_JUMP, NO_KILOMETRE, BaliseGroup, Location
from balisekit.rules.meaning.along import FAR, Passed, rear
from balisekit.rules.passages import GroupData
from balisekit.rules.rule import Options, Remark, Result, Rule, Urgency
from balisekit.rules.telegrams import Link
from balisekit.tables.names import rows_words

REPOSITIONING = 16
WORDS = {1: "rising", -1: "falling"}
Named = Dict[int, Dict[int, Tuple[Chain, Link]]]
"""Of each single balise, by its number: by its nominal direction along the kilometres the first link that gives it."""


def find(line: Line, options: Options) -> Result:
    """Looks at each single balise."""
    passed, found, lacks = Passed(line), [], Counter[str]()
    single = [data for data in line.decoded.groups if data.group.balises == 1]
    named = _named(line) if single else {}
    all_named = {link.identity for chain in (*line.chains, *line.decoded.chains.infill) for link in chain.links}
    for data in single:
        if data.group.number in named:
            found += list(_directions(data.group, named[data.group.number]))
        if data.group.linked and data.group.identity not in all_named and data.of_one_direction:
            found += list(_unnamed(line, passed, data))
            lacks[NO_KILOMETRE if data.group.km is None else IN_JUMP] += data.place is None
    return Result(found, len(single) - sum(lacks.values()), lacks)


def _named(line: Line) -> Named:
    """Which nominal directions the links give single balises."""
    named: Named = {}
    for chain in line.chains:
        way = chain.sender.along(chain.direction) if chain.sender else None
        for link in chain.links if way is not None else ():
            here = link.target
            if way is not None and here and here.balises == 1 and chain.sender and here.track == chain.sender.track:
                named.setdefault(here.number, {}).setdefault(way if link.nominal else -way, (chain, link))
    return named


def _directions(group: BaliseGroup, links: Dict[int, Tuple[Chain, Link]]) -> Iterator[Remark]:
    """What links say of one balise against each other, and against the column `nominal`."""
    if len(links) > 1:
        (chain, link), (other, other_link) = links[1], links[-1]
        sentence = (
            f"Q_LINKORIENTATION says that the kilometres rise in the nominal direction of the single balise {group}, "
            f"and the packet 5 of {_source(other)} says that they fall"
        )
        yield Remark("E16", chain.at(link), sentence, group, compared=[other.at(other_link)])
    elif group.rising is not None and not group.by_links and links and group.rising not in links:
        ((way, (chain, link)),) = links.items()
        sentence = (
            f"Q_LINKORIENTATION gives the single balise {group} the nominal direction {WORDS[way]}, and the column "
            f"nominal says {WORDS[group.rising]}"
        )
        rows = [Location(group, row) for row in dict.fromkeys(group.group.rows())]
        yield Remark("E16", chain.at(link), sentence, group, compared=rows)


def _source(chain: Chain) -> str:
    row = chain.location.row
    return f"{chain.sender}{f', {rows_words([row.number])}' if row else ''}"


def _unnamed(line: Line, passed: Passed, data: GroupData) -> Iterator[Remark]:
    """A packet for one direction of a balise that no packet 5 names."""
    packet = data.of_one_direction
    if packet is None or packet.row is None:
        return
    direction = DIRECTIONS[1 - packet.form["q_dir"]]
    way = data.group.along(direction)
    track, place = data.group.track, data.place
    if place is None:
        return
    ways = [each for each in ((1, -1) if way is None else (way,)) if passed.is_passed(track, place, each)]
    if not ways or any(line.may_be_refused(track, *rear(place, each, FAR)) for each in ways):
        return
    is_repositioning = any(each.number == REPOSITIONING for own in data.telegrams.values() for each in own.packets)
    if is_repositioning and passed.leads_to_repositioning(track, place):
        return
    sentence = (
        f"it is for the {direction} direction, the balise is single and has Q_LINK 1, and no packet 5 names it: those "
        f"of other groups lead past {line.decoded.km(track, place)}"
    )
    where = Location(data.group, packet.row, None, packet.place, direction, None, packet.number, packet.n_pig)
    yield Remark("E16", where, sentence, values={"km": Decimal(place) / 10_000})


RULE = Rule("E16", "single balises", __doc__ or "", find, Urgency.WRONG_INFORMATION, needs_kilometres=True)

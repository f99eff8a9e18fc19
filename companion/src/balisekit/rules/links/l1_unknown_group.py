"""L1: linked group not in the table.

What it says. A packet 5 names a group that is not in the table, although its D_LINK leads to a place between the ends
of the table's track. The rule rests on SUBSET-026, 3.4.4 and 7.4.2.
- D_LINK counts along the track, from the sending group or from the last group before this link that is in the table.
- A link without NID_C has the NID_C of the link before it, and the first link then has the NID_C of its telegram.
- The table might be a section of a longer line. So a link that leads beyond an end of the track by more than Q_LOCACC
  and `--tolerance` gets no remark. One note for each end counts such links.
- A link that might lead to a group of which no telegram could be read gets no remark either, and is counted.
- If the table has the NID_BG under another NID_C, the remark names that group.
- A link to NID_BG 16,383 (not known) names no group, so it is not reported.

Why it matters. At worst the train brakes or is tripped at each passage. It expects a group that does not come, and then
applies the linking reaction (Q_LINKREACTION). If a group with another identity and Q_LINK 1 is at that place, the train
ignores it and loses its information.

Example. Before (`examples/links/group-not-in-table.csv`): the reverse link of group B (km 11.000) names group 5, and
the table has no such group. At km 12.000, to which D_LINK leads, the table has C as group 3. After
(`examples/links/line.csv`): the link names group 3.

When it is a false alarm. The rule assumes that the table lacks only groups beyond its ends. A branch line that is
linked from the middle of the table breaks this assumption. The rule also relies on D_LINK to show where a link leads.
D_LINK cannot show this if the kilometres repeat, or if they jump and nobody stated the jump. The same holds if the
sending group, or the last linked group before the missing one, has no kilometre or no direction. The rule also takes a
place just beyond an end as part of the table, if the place is within Q_LOCACC and `--tolerance` of that end. A link
farther beyond the end is reported too, if a group of the table has its NID_BG. {one way}

Usual cause. The number of the group was typed wrongly. Or the group got a new number and the link kept the old one. Or
Q_NEWCOUNTRY and NID_C were forgotten at a border. If the table has another group at that place, the remark names that
group with its identity. If F14 is found for that identity, the group in the remark might have the wrong number.

How to correct it. Correct the link, or add the group to the table.

How to accept it. Give the branch line or the neighbouring project that has the group as the reason.
"""
from __future__ import annotations

from decimal import Decimal
from typing import Dict, Iterator, List, Mapping, Optional, Set, Tuple, Union

from balisekit.rules.chains import Chain
from balisekit.rules.line import Line
from balisekit.rules.link_steps import counted
from balisekit.rules.location import BaliseGroup, Identity
from balisekit.rules.rule import REFUSED, Options, Remark, Result, Rule, Urgency
from balisekit.rules.telegrams import Link
from balisekit.tables.names import describe_identity, listed, quoted

NAMED = 3
End = Tuple[str, bool]
"""A track, and whether it is the end where its kilometres are greatest."""
Alike = Mapping[int, BaliseGroup]
"""By NID_BG: the first group of the table that has it."""


def find(line: Line, options: Options) -> Result:
    """Looks for each identity that a link names."""
    alike: Dict[int, BaliseGroup] = {}
    for group in line.groups:
        if group.identity:
            alike.setdefault(group.identity[1], group)
    ends: Dict[End, List[Identity]] = {}
    leading: Set[Tuple[int, int]] = set()
    for chains in line.alike:
        for end, link in _beyond(line, chains[0], alike, options.tolerance):
            ends.setdefault(end, []).extend([link.identity] * len(chains))
            leading.add((id(chains[0]), link.number))
    result = Result.of_chains(line, lambda chain: _look_at(line, chain, alike, leading, options.tolerance))
    return Result(result.found, result.looked_at, result.not_looked_at, list(_notes(line, ends)))


def _look_at(
    line: Line, chain: Chain, alike: Alike, leading: Set[Tuple[int, int]], tolerance: Decimal
) -> Iterator[Union[Remark, str, None]]:
    """Each link to a group that is not in the table, and to no end of a track."""
    for link, (base, at, lengths) in counted(chain):
        if link.target is not None or not link.known or (id(chain), link.number) in leading:
            yield None if link.known else ""
            continue
        if line.nameless and _may_be_refused(line, base, at, line.allowed(link, lengths, tolerance)):
            yield REFUSED
            continue
        other = alike.get(link.identity[1])
        which = "telegram that was read" if line.nameless else "group of the table"
        sentence = f"{describe_identity(link.identity)} is linked, and no {which} has that identity"
        if other and other.identity:
            sentence += f"; {other} has that NID_BG in country or region {other.identity[0]}"
        if base is not None and at is not None:
            sentence += _there(line, base, at, link.accuracy + tolerance, other)
        yield Remark("L1", chain.at(link), sentence, named=[other] if other else [])


def _may_be_refused(line: Line, base: Optional[BaliseGroup], at: Optional[int], allowed: Decimal) -> bool:
    """Whether a group without identity may be at that place, on any track, or anywhere if this one has none there."""
    if base is None or at is None or line.may_be_refused(base.track, at - allowed, at + allowed, True):
        return True
    others = [track for track in line.nameless if track != base.track]
    near = line.decoded.nearest(base.track, at)
    is_far = near is None or abs((near.place or 0) - at) > allowed
    return any(is_far or line.may_be_refused(track, at - allowed, at + allowed, True) for track in others)


def _there(line: Line, base: BaliseGroup, place: int, within: Decimal, other: Optional[BaliseGroup]) -> str:
    """The group of the table that is at the place to which D_LINK leads, or within `within` metres of it."""
    near = line.decoded.nearest(base.track, place)
    group = near.group if near else None
    if group is None or group is other or group.identity is None or abs((group.place or 0) - place) > within * 10:
        return ""
    twice = ", which F14 finds used twice" if line.has(14, group) else ""
    km, own = line.decoded.chainages[base.track].words(place), describe_identity(group.identity)
    track = f"track {quoted(base.track)}" if base.track else "the track"
    return f"; along {track} D_LINK leads from {base} to km {km}, where the table has {group} as {own}{twice}"


def _beyond(line: Line, chain: Chain, alike: Alike, tolerance: Decimal) -> Iterator[Tuple[End, Link]]:
    """The links of a chain to groups that are not in the table, and by D_LINK are beyond the end of their track."""
    for link, (base, at, _) in counted(chain):
        if base is None or at is None or link.target is not None or not link.known or link.identity[1] in alike:
            continue
        places = line.decoded.places[base.track]
        least, greatest = places[0], places[-1]
        allowed = (link.accuracy + tolerance) * 10
        if not least - allowed <= at <= greatest + allowed:
            yield (base.track, at > greatest), link


def _notes(line: Line, ends: Mapping[End, List[Identity]]) -> Iterator[str]:
    """A note for each end of a track over which links lead."""
    for (track, is_high), links in ends.items():
        last = line.decoded.along[track][-1 if is_high else 0].group
        where = f" of track {quoted(track)}" if track else ""
        numbers = listed([str(number) for _, number in dict.fromkeys(links)], NAMED)
        words = "1 link leads" if len(links) == 1 else f"{len(links)} links lead"
        yield (
            f"along the track {words} beyond {last}, the {'last' if is_high else 'first'} group{where} by the "
            f"kilometres, to NID_BG {numbers}: L1 does not name them, since the table may be a section of a longer line"
        )


RULE = Rule("L1", "links", __doc__ or "", find, Urgency.BRAKING, needs_kilometres=True)

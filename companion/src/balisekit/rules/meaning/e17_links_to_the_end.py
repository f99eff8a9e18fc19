"""E17: links that end before the authority.

What it says. A packet 12 with V_MAIN above 0 ends more than 50 m beyond the last group that packets 5 name, although
another linked group follows. The rule rests on SUBSET-026, 3.4.4.
- The packets 5 of all aspects of the group that sends the packet 12 count, and those of the groups before it on that
  track and way. If the direction of a group is not known, its first link shows it. Packets 5 after a packet 136 do not
  count.
- D_LINK shows the place of a linked group that has no kilometre.
- A linked group follows if it has Q_LINK 1, and packets for that direction other than 0, 145, 254 and 255. It can be up
  to 50 m beyond the end of the authority.
- A remark names the first five groups without a link, and counts the others.
- A group whose authorities lead past a linked group, and that has no packet 5 for their direction in any aspect, is
  reported too. This is so even if groups before it name all groups, if it is the only one, and at least four others
  have a packet 5.
- Nothing is reported if the authority ends beyond the last such group of its track and way. It is counted as not
  compared, unless packets 5 lead to its end.
- Nothing is reported if the last link of a packet 5 of its message is NID_BG 16,383. Then a group with repositioning
  information names the next groups.
- Nothing is reported if the group with the packet 12, or a group before it, has a refused telegram. Only groups at most
  10 km in rear of the end of the authority count here.
- A table with such an authority but without any packet 5 gets one remark, if nothing in it was refused.

Why it matters. At worst the train has a wrong position. Nothing shows that it missed such a group, and it does not
correct its position there.

Example. Before (`examples/meaning/mistakes/E17.csv`): the authority of Signal 3 at "green" ends at km 16.000, and the
packets 5 lead to km 14.500 only. After: the packet 5 of Signal 3 also names the group at km 16.000.

When it is a false alarm. The rule assumes that the line uses linking. A line might use none, or none on this part, such
as in rear of a level 2 area. It assumes that packets 5 lead to the end of the authority. They might lead only to the
next signal, which has its own packet 5. One signal might need no packet 5, because the one before it names all groups.
Or groups that the table lacks, or of another track, might have the other links. It assumes that the groups ahead are
for these trains. Groups for level 2 or a national system (packet 44) are not. {leaving} {points} {kilometres} A missing
kilometre matters only if no packet 5 leads to its group. {one way}

Usual cause. A link was forgotten. Or the packet 5 was made for another aspect.

How to correct it. Name all groups up to the end of the authority in the packet 5.

How to accept it. State which group has the other links, or that this part of the line uses no linking.

How sure. 86 %, by practice and memory of the standard.
"""
from __future__ import annotations

from decimal import Decimal
from typing import Iterator, Sequence

from balisekit.etcs.variables import metres
from balisekit.rules.decoded import Decoded
from balisekit.rules.facts import group_words, sender
from balisekit.rules.line import Line
from balisekit.rules.location import NOT_KNOWN, BaliseGroup
from balisekit.rules.meaning.along import (
    FAR,
    End,
    beyond,
    counted_beyond,
    ends_of,
    is_authority,
    lane_of,
    leaves,
    passed_over,
    rear,
    unread_of,
)
from balisekit.rules.meaning.reach import LESS, Reach, lanes_of_links
from balisekit.rules.meaning.signals_without_links import signal_without_links
from balisekit.rules.meaning.words import merged
from balisekit.rules.passages import GroupData, Passage
from balisekit.rules.rule import Options, Remark, Result, Rule, Urgency
from balisekit.rules.telegrams import LINKING
from balisekit.tables.names import counted, listed

NAMED = 5
"""How many groups without a link are named. The others are counted."""
LAST = "linked group of the track"


def find(line: Line, options: Options) -> Result:
    """Compares each end of authority with the links."""
    decoded = line.decoded
    ends = [end for end in ends_of(decoded) if end.packet.number == 12]
    lacks = passed_over(decoded, lambda packet: packet.number == 12 and is_authority(packet))
    if ends and _is_without_links(decoded):
        if line.lost_messages or any(unread_of(decoded)):
            return Result([], 0, lacks)
        before = " before a packet 136" if any(decoded.sent(LINKING)) else ""
        count, have = counted(len(ends), "authority", "authorities"), "has" if len(ends) == 1 else "have"
        groups = counted(len({id(end.passage.group) for end in ends}), "group")
        words = f"no group or message has a packet 5 (linking){before}"
        sentence = f"{words}, and {count} of {groups} {have} a V_MAIN above 0"
        facts = [sender(end.passage, end.packet) for end in ends]
        return Result([Remark("E17", ends[0].passage.at(), sentence, facts=facts)], len(ends), lacks)
    lanes, known = lanes_of_links(decoded), [end for end in ends if not _may_be_linked(line, end)]
    found = [remark for end in known for remark in _look_at(decoded, options, lanes[lane_of(end.passage)], end)]
    named = {remark.location.group for remark in found}
    named_groups = {id(end.passage.group) for end in known if end.passage.group and end.passage.group.group in named}
    found += signal_without_links(line, lanes, known, named_groups)
    beyond_it = {end.key: _beyond(lanes[lane_of(end.passage)], end) for end in known}
    apart = [each for each in beyond_it.values() if each > 0]
    longest = max((end.distance for end in known if beyond_it[end.key] <= 0), default=0)
    left = counted_beyond(LAST, apart, longest)
    result = Result(merged(found), len(known) - len(apart), {**lacks, **left}, is_optional=not any(lacks.values()))
    return result._replace(usual=frozenset({beyond(LAST)}))


def _beyond(lane: Reach, end: End) -> int:
    """How far an authority ends beyond the last linked group and beyond the links, of which nothing is known there."""
    way = end.passage.way or 0
    reach = lane.at((end.passage.place(0) or 0) * way)
    is_known = reach >= end.place * way - LESS or not lane.groups
    return 0 if is_known else end.place * way - lane.groups[-1]


def _may_be_linked(line: Line, end: End) -> bool:
    """Whether a refused telegram of the group, or of one before it, may have links to the end."""
    begin, length = end.passage.place(0) or 0, FAR - end.distance
    return length >= 0 and line.may_be_refused(end.passage.track, *rear(begin, end.passage.way or 0, length))


def _is_without_links(decoded: Decoded) -> bool:
    """Whether no packet 5 is there that counts from its group."""
    return not any(passage.of(LINKING) for passage in decoded.passages)


def _is_repositioned(passage: Passage) -> bool:
    """Whether its last link leads to a group that is not known yet."""
    return any(packet.form["links"][-1]["nid_bg"] == NOT_KNOWN for packet in passage.of(LINKING))


def _look_at(decoded: Decoded, options: Options, lane: Reach, end: End) -> Iterator[Remark]:
    passage, way = end.passage, end.passage.way or 0
    data: GroupData = passage.group or decoded.groups[0]
    begin, place = (data.place or 0) * way, end.place * way
    reach = lane.at(begin)
    if reach >= place - LESS or not lane.groups or place > lane.groups[-1] or _is_repositioned(passage):
        return
    places = lane.groups_between(reach, place + LESS)
    if places and not leaves(options, decoded, passage, end.place):
        missed = _missed(decoded, passage, places)
        linked = f"lead to {decoded.km(passage.track, reach * way)} only" if reach > begin else "lead no farther"
        sentence = (
            f"the authority ends at {decoded.km(passage.track, end.place)}, and the packets 5 of this group and of "
            f"those before it {linked}: the last {metres(place - reach)} are without links, although "
            f"{listed(list(map(str, missed)), NAMED)} follow{'s' if len(places) == 1 else ''}"
        )
        values = {"end_m": Decimal(end.place) / 10, "links_to_m": Decimal(reach * way) / 10}
        facts = [group_words(group) for group in missed]
        yield Remark("E17", passage.at(end.packet), sentence, None, values, facts=facts)


def _missed(decoded: Decoded, passage: Passage, places: Sequence[int]) -> Sequence[BaliseGroup]:
    """The linked groups at these places, which count along the way, in the order in which trains meet them."""
    at = sorted({place * (passage.way or 0) for place in places})
    own = [data.group for place in at for data in decoded.between(passage.track, place, place) if data.group.linked]
    return own if passage.way == 1 else own[::-1]


RULE = Rule("E17", "authorities", __doc__ or "", find, Urgency.WRONG_PLACE, needs_kilometres=True)

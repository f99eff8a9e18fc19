"""E30: repositioning information.

What it says. A packet 5 announces a group with repositioning information that is not there, or L_SECTION of a packet 16
(repositioning information) does not lead to a linked group. The rule rests on SUBSET-026, 3.4.4, 3.8.5 and 7.4.2.
- Announced group: a link with NID_BG 16,383 (not known) announces a group with a packet 16. The identity of this group
  depends on the route. The rule reports the link if no group of the table has a packet 16 for trains that run the same
  way. Groups of other tracks count too.
- Section: L_SECTION of a packet 16 is compared with the packets 5 of the same message. The rule reports a section that
  ends more than 50 m from each group that these packets name. `--tolerance` (default 1 m) and rounding are added to the
  50 m.
- A link is reported only if D_LINK leads to a place between the first and the last group of its track.
- No link is compared if the table has a group with a refused telegram, because this telegram might have the packet 16.
  The same holds if a group with a packet 16 has an unknown direction.
- A packet 16 is not compared if no packet 5 of its message names a group.

Why it matters. At worst the train gets wrong information: the section of its authority does not end at the signal.
Without the packet 16 the train keeps the section length that it has got before, which might be for another route.

Example. Before (`examples/meaning/mistakes/E30.csv`): Signal 3 (km 13.000) announces a group 1,000 m farther with
NID_BG 16,383, and no group of the table has a packet 16. After: the packet 5 names Signal 4 with its NID_BG.

When it is a false alarm. The rule assumes that the table has all groups of its tracks. A group with a packet 16 might
be in another table, such as the table of the next interlocking. It assumes that a section ends at a group that packets
5 name. The section might also end at a buffer stop or a board. {kilometres} {one way}

Usual cause. The packet 16 was forgotten, NID_BG was left at the value of a template, or a signal was moved.

How to correct it. Add the packet 16, name the group in the packet 5, or correct L_SECTION.

How to accept it. Name the group that has the packet 16, or state what is at the end of the section.

How sure. 87 %, by practice and memory of the standard.
"""
from __future__ import annotations

from collections import Counter
from typing import Any, Iterator, List, Optional, Sequence, Set, Tuple

from balisekit.etcs.variables import metres
from balisekit.rules.decoded import Decoded
from balisekit.rules.line import Line
from balisekit.rules.location import NOT_KNOWN
from balisekit.rules.meaning.along import NEAR, unread_of
from balisekit.rules.meaning.sent import Fault, distance, remark, tolerance
from balisekit.rules.meaning.words import merged
from balisekit.rules.passages import Passage
from balisekit.rules.rule import Options, Remark, Result, Rule, Urgency
from balisekit.rules.telegrams import LINKING, Link, Packet

REPOSITIONING = 16
NOT_KNOWN_WHERE = "a group that may have the packet 16 is refused, or its direction is not known"
WITHOUT_LINKS = "no packet 5 of the message names a group"
"""Why a link or a packet 16 is not compared."""


def find(line: Line, options: Options) -> Result:
    """Looks at each link to a group that is not known yet, and at each packet 16."""
    decoded = line.decoded
    ways = {passage.way for passage in decoded.passages if passage.of(REPOSITIONING)}
    found: List[Remark] = []
    looked_at = 0
    lacks: Counter[str] = Counter()
    others: Counter[str] = Counter()
    is_known = None not in ways and not any(unread_of(decoded))
    for passage in decoded.passages:
        for packet in passage.said:
            unknown = [link for link in packet.links if not link.known] if packet.number == LINKING else []
            looked_at += bool(unknown) and not passage.lacks or packet.number == REPOSITIONING
            lacks[passage.lacks] += bool(unknown and passage.lacks)
            others[NOT_KNOWN_WHERE] += bool(unknown) and not passage.lacks and not is_known
            for link in unknown if is_known else ():
                found += _announced(decoded, ways, passage, packet, link)
            if packet.number == REPOSITIONING:
                others[WITHOUT_LINKS] += not _ends(passage)
                found += _section(options, passage, packet)
    return Result.of_places(merged(found), looked_at - sum(others.values()), +lacks, +others)


def _announced(
    decoded: Decoded, ways: Set[Optional[int]], passage: Passage, packet: Packet, link: Link
) -> Iterator[Remark]:
    """A link to a group with a packet 16, if no group of the table has one."""
    place = passage.place(link.total)
    if place is None or passage.way in ways:
        return
    if decoded.is_inside(passage.track, place):
        words = (
            f"NID_BG {NOT_KNOWN} announces a group with a packet 16 (repositioning) at "
            f"{decoded.km(passage.track, place)}, {metres(link.total)} from the group, and no group of the table has "
            "one for these trains"
        )
        values = {"d_link_m": distance(link.total)}
        yield remark("E30", passage.at(packet, link.number), [Fault(words, values)])


def _ends(passage: Passage) -> Sequence[Tuple[int, int]]:
    """How far the groups are that packets 5 of a message name, and the units of the distances."""
    return [(link.total, link.unit) for link in passage.links if link.known]


def _section(options: Options, passage: Passage, packet: Packet) -> Iterator[Remark]:
    """A packet 16 whose section ends at none of the groups that the same message names."""
    form: Any = packet.form
    ends = _ends(passage)
    if "l_section" not in form or not ends:
        return
    section = int(form["l_section"]) * packet.unit
    (nearest, unit) = min(ends, key=lambda each: abs(each[0] - section))
    allowed = NEAR + tolerance(options, (packet, 1)) + unit
    if abs(nearest - section) > allowed:
        words = (
            f"L_SECTION is {metres(section)}, and the nearest group that packets 5 of this message name is "
            f"{metres(nearest)} from the group"
        )
        values = {"l_section_m": distance(section), "d_link_m": distance(nearest)}
        made = remark("E30", passage.at(packet), [Fault(words, values, [("l_section", None)])])
        linking = (each for each in passage.of(LINKING) if each.row is not packet.row)
        yield made._replace(compared=list(map(passage.at, linking)))


RULE = Rule("E30", "packets and links of repositioning", __doc__ or "", find, Urgency.WRONG_INFORMATION)

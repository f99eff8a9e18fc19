"""E28: packet for a direction of its own.

What it says. A packet is for a direction of its own: at most one other group of the track has packets for this
direction. The rule rests on SUBSET-026, 3.6.3 and 7.3.
- The rule compares how many groups of a track have packets for each direction. The direction with fewer groups is the
  rare direction, and the other one is the usual direction.
- One group with packets for the rare direction only is reported if at least eight other groups have packets for the
  usual direction. It is not reported if it has a packet 41 or 131. Each other reported group must also have packets for
  the usual direction.
- One group with packets for the rare direction is reported if at least four other groups have packets for the usual
  direction only. Two groups with packets for the rare direction are reported if at least eight other groups have
  packets for the usual direction only.
- Packets with Q_DIR 2 (both directions) and the packets 0, 44, 145, 254 and 255 do not count. Packets of radio messages
  do not count either.
- Nothing is reported if a packet 5, 12, 15, 21, 27, 80, 132 or 137 is for the rare direction. Other rules and the
  program compare most of these packets.
- Two groups are not reported if one of them has a packet 41 or 131 for the rare direction, because trains might leave
  the area there. The packets of both groups are counted as not compared.
- If the numbers of groups do not allow a remark, the packets for the rare direction are counted as not compared.
- They are not counted if three or more groups have packets for the rare direction, and one of them has no others. Then
  trains run in both directions.

Why it matters. At worst the train gets wrong information, or lacks it. The trains of this track do not get the packet,
such as an order to open a session or to revoke a restriction.

Example. Before (`examples/meaning/mistakes/E28.csv`): the packet 42 of Signal 3 (km 13.000) has Q_DIR 0 (reverse), and
all other packets of the line are for trains towards greater kilometres. After: the packet 42 has Q_DIR 1.

When it is a false alarm. The rule assumes that no train runs in the rare direction on the track. A border might have
one packet for trains that leave the area in this direction. The table might end there, so that it lacks the other
groups for these trains. One or two groups might also have a packet for trains that run against the usual direction,
such as during a disturbance. The rule relies on the kilometres of the balises for the direction of each group.

Usual cause. Q_DIR is wrong, because the packet was copied from a group whose nominal direction is the other one.

How to correct it. Correct Q_DIR of the packet.

How to accept it. State which trains of the other direction need this packet.

How sure. 88 %, by practice and memory of the standard.
"""
from __future__ import annotations

from decimal import Decimal
from typing import Dict, Iterator, List, NamedTuple, Optional, Sequence, Tuple

from balisekit.rules.facts import counted, group_words, sender
from balisekit.rules.line import Line
from balisekit.rules.meaning.along import lane_of, passed_over
from balisekit.rules.meaning.sent import Fault, remark
from balisekit.rules.meaning.words import merged
from balisekit.rules.passages import GroupData, Passage
from balisekit.rules.rule import Options, Remark, Result, Rule, Urgency
from balisekit.rules.telegrams import (
    AUTHORITIES,
    GRADIENTS,
    LEVELS,
    LINKING,
    SAYS_NOTHING,
    SPEEDS,
    WITHOUT_DIRECTION,
    Packet,
)

LEAST, TWICE, MOST, BOTH = 4, 2, 2, 2
"""For each group that is reported, the fewest others that show the direction of a track, and how many times as many if
it has no packets for that direction; the most groups that are reported; and the Q_DIR for both directions."""
OTHERS = frozenset({LINKING, *AUTHORITIES, GRADIENTS, SPEEDS, 80, 132, 137})
"""The packets whose direction other rules look at."""
BORDERS = frozenset({LEVELS, 131})
"""The packets of a border, which several groups of a line may have for trains that leave it."""
WORDS = {1: "greater", -1: "lower"}
MANY = "for trains that other packets of more than two groups, or of one in five, are for"
BORDER = "for the other direction of a border"
ONLY = "of groups that have no packets for the usual direction of the track"
"""Why packets are not compared."""


class Said(NamedTuple):
    """A packet for one direction, and where it is said."""

    data: GroupData
    passage: Passage
    packet: Packet


def find(line: Line, options: Options) -> Result:
    """Looks at each track for a direction that only few groups speak to."""
    lanes: Dict[Tuple[str, int], List[Said]] = {}
    for passage in line.decoded.passages:
        if passage.group is not None and passage.message is None and passage.way is not None:
            own = [Said(passage.group, passage, each) for each in passage.said if _is_of_one_direction(each)]
            lanes.setdefault(lane_of(passage), []).extend(own)
    found: List[Remark] = []
    looked_at, left = 0, passed_over(line.decoded, _is_of_one_direction)
    for (track, way), said in lanes.items():
        others = lanes.get((track, -way), ())
        why = _why_not(said, others)
        left[why or ""] += len(_packets_of(said)) if why else 0
        looked_at += 0 if why else len(said)
        found += _lone(said, others) if why == "" else []
    return Result(merged(found), looked_at, +left, is_optional=True)


def _is_of_one_direction(packet: Packet) -> bool:
    """Whether a packet shows for which direction its group is."""
    is_said = packet.number not in SAYS_NOTHING and packet.number not in WITHOUT_DIRECTION
    return is_said and packet.form.get("q_dir", BOTH) != BOTH


def _groups_of(said: Sequence[Said]) -> Dict[int, GroupData]:
    """The groups that say these, each once."""
    return {id(each.data): each.data for each in said}


def _packets_of(said: Sequence[Said]) -> Sequence[Said]:
    """These, each packet once: aspects share those of fixed balises."""
    return list({id(each.packet): each for each in said}.values())


def _why_not(own: Sequence[Said], others: Sequence[Said]) -> Optional[str]:
    """Why the packets of one way are not reported, or an empty text if they are. None if trains run this way.

    What other rules look at shows that they do.
    """
    groups, many = _groups_of(own), _groups_of(others)
    is_part = groups.keys() <= many.keys()
    if not 0 < len(groups) < len(many) or not is_part and len(groups) > MOST:
        return None
    if any(each.packet.number in OTHERS for each in own):
        return None
    is_of_border = any(each.packet.number in BORDERS for each in own)
    if not is_part:
        return "" if len(groups) == 1 and len(many) >= TWICE * LEAST and not is_of_border else ONLY
    if len(groups) > MOST or len(many) - len(groups) < LEAST * len(groups):
        return MANY
    return BORDER if len(groups) > 1 and is_of_border else ""


def _lone(own: Sequence[Said], others: Sequence[Said]) -> Iterator[Remark]:
    """The packets of one way."""
    many, packets = _groups_of(others), _packets_of(own)
    facts = [counted(group_words(each.group) for each in many.values())]
    facts += [counted(sender(each.passage, each.packet) for each in packets)] if len(packets) > 1 else []
    for each in packets:
        values = {"q_dir": Decimal(each.packet.form["q_dir"]), "groups": Decimal(len(many))}
        fault = Fault(_words(each.passage.way or 1, len(packets) - 1, len(many)), values, [("q_dir", None)])
        yield remark("E28", each.passage.at(each.packet), [fault])._replace(facts=facts)


def _words(way: int, more: int, groups: int) -> str:
    """What is said of a packet for trains of one way, as some more are, beside those of many groups."""
    as_others = f", as {more} other packet{'s are' if more > 1 else ' is'}" if more else ""
    return (
        f"it is for trains towards {WORDS[way]} kilometres{as_others}, and all other packets for one direction, in "
        f"{groups} groups of the track, are for trains towards {WORDS[-way]} kilometres"
    )


RULE = Rule("E28", "directions", __doc__ or "", find, Urgency.WRONG_INFORMATION, needs_kilometres=True)

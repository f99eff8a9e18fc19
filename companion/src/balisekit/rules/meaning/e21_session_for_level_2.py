"""E21: level 2 needs a session.

What it says. A packet 41 or 46 names level 2 or 3, but the train has got no packet 42 with Q_RBC 1 up to there. The
rule is off unless you ask for it with `--rules E21`. The proved program does not decode packets 42 and 46: balisekit
decodes them by layouts of its own. The rule rests on SUBSET-026, 3.5.3, 5.10 and 7.4.2.
- The rule looks for the packet 42 in the group with the packet 41 or 46, and in the groups before it on the track. A
  packet 42 in a group without a kilometre counts as well.
- A packet 42 that is only for trains of the other direction does not count.
- One remark names all packets 41 and 46 with level 2 or 3 that a train of this track and direction passes before the
  first packet 42.
- Nothing is reported if a group up to there has a refused telegram, because that telegram might have the packet 42.

Why it matters. At worst the train brakes without need. The train reaches the border without a movement authority by
radio, and might be stopped there.

Example. Before (`examples/meaning/mistakes/E21.csv` with `--rules E21`): Signal 4 (km 14.500) announces level 2, and no
group up to there has a packet 42 with Q_RBC 1. After: the packet 42 of Signal 1 has Q_RBC 1.

When it is a false alarm. The rule assumes that the table has the packet 42 of each train. A train might arrive with a
session, or open one at the start of mission. It might also get the packet 42 between the announcement and the border.
It assumes that trains stay on the track. A train that comes from another track might have got the packet 42 there. It
assumes that the kilometres show the order of the groups. They do not show it if they are missing or repeat, or if they
jump and nobody stated the jump. {one way}

Usual cause. The packet 42 was forgotten, has Q_RBC 0, or is for the other direction.

How to correct it. Put a packet 42 with Q_RBC 1 far enough before the border.

How to accept it. State how trains get their session before this border.

How sure. 80 %, by practice and memory of the standard.
"""
from __future__ import annotations

from decimal import Decimal
from typing import Dict, List, Optional, Sequence, Tuple

from balisekit.etcs.variables import Around, value_words
from balisekit.rules.decoded import Decoded
from balisekit.rules.line import NOWHERE, Line
from balisekit.rules.meaning.along import Lane, lane_of, passed_over, unread_of
from balisekit.rules.passages import Passage
from balisekit.rules.rule import Options, Remark, Result, Rule, Urgency
from balisekit.rules.telegrams import LEVELS, Packet

SESSION, CONDITIONAL, BY_RADIO = 42, 46, (3, 4)


def find(line: Line, options: Options) -> Result:
    """Looks at each order that names level 2 or 3. Those of one track and way are one remark."""
    decoded = line.decoded
    sessions = _sessions(decoded)
    lacking: Dict[Lane, List[Tuple[int, Passage, Packet]]] = {}
    lacks = passed_over(decoded, lambda packet: packet.number in (LEVELS, CONDITIONAL) and _is_by_radio(packet))
    looked_at = 0
    for passage in decoded.passages:
        place, way = passage.group.place if passage.group else None, passage.way
        if place is None or way is None:
            continue
        for packet in passage.of(LEVELS, CONDITIONAL):
            if _is_by_radio(packet):
                looked_at += 1
                if sessions.get(lane_of(passage), place * way + 1) > place * way:
                    lacking.setdefault(lane_of(passage), []).append((place * way, passage, packet))
    return Result([_remark(line, lane[1], some) for lane, some in lacking.items()], looked_at, lacks)


def _is_by_radio(packet: Packet) -> bool:
    """Whether it names level 2 or 3."""
    return any(each["m_leveltr"] in BY_RADIO for each in packet.form.get("transitions", ()))


def _sessions(decoded: Decoded) -> Dict[Lane, int]:
    """Of each track and way: where the first group has a packet 42 with Q_RBC 1. Places count along the way.

    Without a direction it may be for either way, and without a place it may be before all others. A refused telegram
    may have one.
    """
    found: Dict[Lane, int] = {}
    for track, at in unread_of(decoded):
        for way in (1, -1):
            _add(found, (track, way), at)
    for passage in decoded.passages:
        if passage.group and any(packet.form.get("q_rbc") == 1 for packet in passage.of(SESSION)):
            for way in (passage.way,) if passage.way else (1, -1):
                _add(found, (passage.track, way), passage.group.place)
    return found


def _add(found: Dict[Lane, int], lane: Lane, place: Optional[int]) -> None:
    at = NOWHERE if place is None else place * lane[1]
    found[lane] = min(found.get(lane, at), at)


def _remark(line: Line, way: int, some: Sequence[Tuple[int, Passage, Packet]]) -> Remark:
    """The remark on the first order of a track and way, with the rows of the others."""
    place, passage, packet = min(some, key=lambda each: each[0])
    level = next(each["m_leveltr"] for each in packet.form["transitions"] if each["m_leveltr"] in BY_RADIO)
    words = value_words("m_leveltr", level, Around(packet.form))
    sentence = (
        f"it names {words}, and no group of this track and direction up to "
        f"{line.decoded.km(passage.track, place * way)} has a packet 42 with Q_RBC 1"
    )
    where, values = passage.at(packet), {"m_leveltr": Decimal(level)}
    also = [place for place in dict.fromkeys(each.at(order) for _, each, order in some) if place != where]
    return Remark("E21", where, sentence, None, values, also=also)


RULE = Rule("E21", "level orders", __doc__ or "", find, Urgency.BRAKING, needs_kilometres=True, is_default=False)

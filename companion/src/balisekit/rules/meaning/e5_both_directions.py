"""E5: both directions with a distance.

What it says. A packet with distances holds in both directions (Q_DIR 2), so its distances count on both sides of the
group. One remark names all such packets of a balise or message. The rule rests on SUBSET-026, 3.6.3 and 7.4.
- The rule looks at 21 packets: 5, 12, 15, 16, 21, 27, 39, 40, 41, 51, 52, 65, 67 to 71, 80, 88, 131 and 138.
- A packet 41 is not reported if its D_LEVELTR is 0 or 32,767 (now), because it takes effect at the group.
- A packet 39, 40, 51, 52, 68 to 70 or 131 is not reported if the only distance of the packet gives the place of its
  group. That is so if D_TRACTION, D_CURRENT, D_TRACKINIT or D_SUITABILITY is 0, or if D_RBCTR is 0 or 32,767 (now).
- An authority without any length and without a V_MAIN above 0 stops the trains of both directions. Such an authority is
  reported only if the balise or message has no other packet to report.

Why it matters. At worst the trains of one direction get wrong information. Trains count distances in their own
direction. So the packet puts an end of authority, a level border or a restriction on both sides of the group.

Example. Before (`examples/meaning/mistakes/E5.csv`): the packet 41 of Signal 4 (km 14.500) has D_LEVELTR 2200 m and
Q_DIR 2. After: Q_DIR is 1, so only trains in nominal direction count the distance.

When it is a false alarm. The rule assumes that trains of both directions get the packet. That is not so on a track for
one direction, or for a radio message. It assumes that the track is different on the two sides of the group. Level
track, one speed, big metal masses or a restriction around the group can be the same on both sides. It also assumes that
an authority without length is for one direction. A group for the signals of both directions might stop the trains of
both directions on purpose.

Usual cause. The template had Q_DIR 2. Or the packet was meant for one direction, but got Q_DIR 2 because a single
balise with Q_LINK 0 has no direction.

How to correct it. Set Q_DIR to 1 or 0. A group of one balise gets a direction if it is linked, or if a second balise is
added.

How to accept it. State why the packet is true on both sides of the group, or that the track has one direction.

How sure. 93 %, by practice and memory of the standard. It is only 80 % sure that 3.6.3 is the right section.
"""
from __future__ import annotations

from decimal import Decimal
from typing import Any, Dict, List, Mapping, Tuple

from balisekit.etcs.packets import packet_name
from balisekit.etcs.raw_packets import content_of
from balisekit.etcs.variables import metres
from balisekit.rules.decoded import Owner
from balisekit.rules.line import Line
from balisekit.rules.location import Location
from balisekit.rules.meaning.sent import distance, located, sent
from balisekit.rules.rule import Options, Remark, Result, Rule, Urgency
from balisekit.rules.telegrams import AUTHORITIES, LEVELS, Packet

WITH_DISTANCES = (5, 12, 15, 16, 21, 27, 39, 40, 51, 52, 65, 67, 68, 69, 70, 71, 80, 88, 131, 138)
HERE = (0, 32_767)
"""The D_LEVELTR and D_RBCTR that mean the place of the group."""
ONLY = ("d_current", "d_rbctr", "d_suitability", "d_trackinit", "d_traction")
"""Distances that are the only one of what has them."""
BOTH = 2


def find(line: Line, options: Options) -> Result:
    """Looks at each packet with distances."""
    together: Dict[Tuple[int, int], Tuple[Owner, List[Packet]]] = {}
    count = 0
    for owner, packet in sent(line.decoded, *WITH_DISTANCES, LEVELS):
        count += 1
        if packet.form.get("q_dir") == BOTH and not _is_here(packet):
            key = id(owner), packet.row.number if packet.row else 0
            together.setdefault(key, (owner, []))[1].append(packet)
    return Result([_remark(owner, packets) for owner, packets in together.values()], count)


def _is_here(packet: Packet) -> bool:
    """Whether its only distance gives the place of the group. Layouts that are not certain may show that too."""
    if packet.number == LEVELS:
        return packet.form["d_leveltr"] in HERE
    content = content_of(packet.form)
    values: Mapping[str, Any] = content.values if content and content.is_complete else {}
    distances = [(key, own[key]) for own in (values, *values.get("elements", ())) for key in ONLY if key in own]
    return bool(distances) and all(value in (HERE if key == "d_rbctr" else (0,)) for key, value in distances)


def _only_stops(packet: Packet) -> bool:
    """Whether it is an authority without any length, which has V_MAIN 0."""
    return packet.number in AUTHORITIES and not packet.form.get("v_main") and packet.authority.supervised == 0


def _remark(owner: Owner, packets: List[Packet]) -> Remark:
    packets = [each for each in packets if not _only_stops(each)] or packets[:1]
    first = min(packets, key=lambda packet: packet.place)
    where = located(owner, first)
    values = {"packets": Decimal(len(packets))}
    if _only_stops(first):
        words = "it has no length, and Q_DIR 2, both directions: it stops the trains of both"
        return Remark("E5", where, words, values=values)
    if len(packets) == 1:
        at = ""
        if first.number == LEVELS:
            place = first.form["d_leveltr"] * first.unit
            values["d_leveltr_m"], at = distance(place), f", D_LEVELTR {metres(place)}"
        words = f"it has a distance{at}, and Q_DIR 2, both directions: it would count on both sides of the group"
        return Remark("E5", where, words, values=values)
    names = [f"{each.number} ({packet_name(each.number)})" for each in sorted(packets, key=lambda each: each.place)]
    words = f"the packets {', '.join(names)} have distances, and Q_DIR 2, both directions"
    whole = Location(where.group, where.row, where.message, n_pig=where.n_pig)
    return Remark("E5", whole, f"{words}: they would count on both sides of the group", values=values)


RULE = Rule("E5", "packets with distances", __doc__ or "", find, Urgency.WRONG_INFORMATION)

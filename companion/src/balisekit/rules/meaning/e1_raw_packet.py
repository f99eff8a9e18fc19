"""E1: raw packet that does not fit its layout.

What it says. A raw packet to trains does not fit balisekit's layout of this packet, contains a spare value, or has a
number that no packet has. The remark names the first position in the packet that does not fit. The rule rests on
SUBSET-026, 7.4 and 7.5.1.
- A packet does not fit if it has fewer or more bits than its layout. A packet with two possible forms, such as packet 3
  or 6, fits if it fits one of them.
- Spare values are an M_LEVELTR from 5 to 7, a Q_SCALE 3, an M_MAMODE 3, and a speed number above 120 (600 km/h) that
  has no special meaning.
- Spare values are reported only if the layout of the packet is at least 97 % certain.
- A number is reported if no issue of the standard for system versions 1 and 2 has a packet with this number.
- The packets 13, 52 and 180 are not compared, because their lengths are not sure.
- The layouts are balisekit's own, and nobody has compared them with a printed standard. A project can state with
  `layouts` in `[check]` which packets it has compared with its print. Then these packets are compared completely, even
  if their layout is not certain.

Why it matters. At worst the train gets wrong information: it takes the bits of one variable for another. Or it rejects
the message, or ignores the packet.

Example. Before (`examples/meaning/mistakes/E1.csv`): the packet 65 of Signal 3 (km 13.003) has 8 bits more than its
layout, and its L_PACKET is 79 bits. After: the packet ends with its layout, and L_PACKET is 71.

When it is a false alarm. Never, if the layout and its spare numbers are those of the standard. If your print shows
another layout, the remark is wrong. The remark is also wrong if a later system version has a packet with this number.

Usual cause. The body of the packet was made by hand or with another tool, or has the form of system version 1. Or
L_PACKET was not adapted. Or a condition, such as Q_NEWCOUNTRY or N_ITER, does not fit the fields that follow.

How to correct it. Generate the packet again, with the bits of the layout that `balisekit show` writes.

How to accept it. Quote the section of the printed standard that has another layout.

How sure. 97 %, by practice and memory of the standard. If a layout is less certain, the remark says how certain it is.
A remark about a number that no packet has is 90 % sure.
"""
from __future__ import annotations

from typing import Iterator, Optional

from balisekit.etcs.raw_layouts import Layout, layouts
from balisekit.etcs.raw_packets import RawFault, content_of
from balisekit.rules.line import Line
from balisekit.rules.meaning.sent import Fault, located, remark, sent
from balisekit.rules.rule import Options, Remark, Result, Rule, Urgency
from balisekit.rules.telegrams import Packet
from balisekit.tables.decimals import whole

DOUBTFUL = 85
"""A layout that is less sure, in per cent, may have another length."""
MAY_FOLLOW = {3: 8, 6: 8}
"""The bits of M_NVKTINT and T_VBC, of which it is not sure that a condition leaves them out."""
READ = frozenset({0, 5, 12, 15, 21, 27, 41, 255})
"""The packets that the program reads, and the end of a telegram."""


def find(line: Line, options: Options) -> Result:
    """Looks at each packet that is kept as bits."""
    known = {layout.number: layout for layout in layouts().values() if layout.from_track}
    found, count = [], 0
    for number, layout in sorted(known.items()):
        is_full = layout.is_certain or number in options.layouts
        if is_full or layout.sure >= DOUBTFUL:
            for owner, packet in sent(line.decoded, number):
                if "body" not in packet.form:
                    continue
                count += 1
                fault = _fault(packet, layout, is_full)
                if fault is not None:
                    is_sure = layout.is_certain or number in options.layouts
                    made = remark("E1", located(owner, packet), [_words(packet, fault, layout, is_sure)])
                    found.append(made if is_sure else made._replace(urgency=Urgency.NOT_JUDGED))
    unknown = list(_unknown(line, known.keys() | READ))
    return Result([*found, *unknown], count + len(unknown))


def _fault(packet: Packet, layout: Layout, is_full: bool) -> Optional[RawFault]:
    """What does not fit: in full, or only a body that is too short or too long for each form of the packet."""
    content = content_of(packet.form)
    if content is None or is_full:
        return content.fault if content else None
    fits = content.left and content.left == MAY_FOLLOW.get(layout.number)
    return None if fits else content.misfit


def _words(packet: Packet, fault: RawFault, layout: Layout, is_sure: bool) -> Fault:
    """The fault with the length of the packet, and how sure the layout is."""
    values = {"bits": whole(packet.form["l_packet"]), "first_bit": whole(fault.at)}
    doubt = "" if is_sure else f"; balisekit is {layout.sure} % sure of this layout"
    return Fault(f"{fault.reason}; its L_PACKET is {packet.form['l_packet']} bits{doubt}", values)


def _unknown(line: Line, known: "set[int]") -> Iterator[Remark]:
    """Packets with a number that no packet has."""
    for number in sorted(line.decoded.senders.keys() - known):
        for owner, packet in sent(line.decoded, number):
            words = f"no packet to trains has NID_PACKET {number} in system versions 1 and 2"
            yield remark("E1", located(owner, packet), [Fault(words, {"nid_packet": whole(number)})])


RULE = Rule("E1", "raw packets", __doc__ or "", find, Urgency.WRONG_INFORMATION)

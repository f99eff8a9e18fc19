"""L5: direction of a single balise not known.

What it says. A group of one balise has Q_LINK 0, and a packet that holds in one direction only (Q_DIR 0 or 1). The
packets 44, 145 and 254 do not count. The remark names the first packet that counts. A single balise has no direction of
its own, and with Q_LINK 0 it gets none by linking. The rule rests on SUBSET-026, 3.4.2.

Why it matters. At worst the train gets wrong information, or lacks the information of this packet. The train does not
know in which direction it passes the balise, so it cannot use a packet that holds in one direction only.

Example. Before (`examples/links/direction-not-known.csv`): D (km 12.500) is a single balise with Q_LINK 0, and its
packet 41 holds only in nominal direction. After (`examples/links/line.csv`): the packet 41 has Q_DIR 2, because it
orders the level at the balise itself.

When it is a false alarm. Never, as far as this project knows: nothing else tells the train its direction.

Usual cause. A group of two was reduced to one balise. Or Q_LINK was left at 0. Or the packet was meant for both
directions.

How to correct it. Link the balise and set Q_LINK to 1, or add a second balise. If the distances of the packet are right
in both directions, you can set its Q_DIR to 2 instead.

How to accept it. There is no usual reason to accept it. Give the balise a direction.
"""
from __future__ import annotations

from typing import Optional

from balisekit.etcs.geometry import DIRECTIONS
from balisekit.etcs.packets import packet_name
from balisekit.rules.line import Line
from balisekit.rules.passages import GroupData
from balisekit.rules.rule import REFUSED, Options, Remark, Result, Rule, Urgency


def find(line: Line, options: Options) -> Result:
    """Looks at each group of one balise that has Q_LINK 0."""
    single = [data for data in line.decoded.groups if data.group.balises == 1 and not data.group.linked]
    unread = sum(data.group.identity is None for data in single)
    found = [remark for remark in map(_look_at, single) if remark]
    return Result(found, len(single) - unread, {REFUSED: unread})


def _look_at(data: GroupData) -> Optional[Remark]:
    packet = data.of_one_direction
    if packet is None:
        return None
    sentence = (
        f"the group has one balise and Q_LINK 0, and packet {packet.number} ({packet_name(packet.number, True)}) holds "
        f"only in {DIRECTIONS[1 - packet.form['q_dir']]} direction: a train cannot tell its direction by it"
    )
    return Remark("L5", data.location(packet.row), sentence, data.group)


RULE = Rule("L5", "single balises", __doc__ or "", find, Urgency.WRONG_INFORMATION, needs_kilometres=True)

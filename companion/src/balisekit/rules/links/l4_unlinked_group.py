"""L4: linked group has Q_LINK 0.

What it says. A group of the table has Q_LINK 0, so it is not linked, although a packet 5 names it. The remark is about
the named group. It lists up to three groups or messages whose packets 5 name this group. The rule does not look at
packets 5 after a packet 136. It rests on SUBSET-026, 3.4.4 and 7.5.1.

Why it matters. To be looked at: linking does not supervise this group. A train accepts a group with Q_LINK 0 at any
place, even outside the expectation window of the link. So the train does not notice that the group is at a wrong place,
and does not correct its position by this group.

Example. Before (`examples/links/linked-but-not-linked.csv`): both balises of B (km 11.000) have Q_LINK 0, and the
packet 5 of A names B. After (`examples/links/line.csv`): both balises have Q_LINK 1.

When it is a false alarm. Never, as far as this project knows: the packet 5 and the header contradict each other.

Usual cause. The telegrams of a group that was linked later were not generated again. Or a group that is unlinked on
purpose got into a packet 5.

How to correct it. Set Q_LINK to 1 in all telegrams of the group, or take the group out of the packets 5.

How to accept it. There is no usual reason to accept it. Correct either Q_LINK or the packets 5.
"""
from __future__ import annotations

from typing import Dict, Mapping

from balisekit.rules.chains import Chain
from balisekit.rules.line import AFTER_INFILL, Line
from balisekit.rules.location import BaliseGroup, Location
from balisekit.rules.rule import Options, Remark, Result, Rule, Urgency
from balisekit.tables.names import clean, describe_message, listed

NAMED = 3


def find(line: Line, options: Options) -> Result:
    """Looks at each group that a link names."""
    senders: Dict[int, Dict[str, Chain]] = {}
    for chain in line.chains:
        for link in chain.links:
            if link.target is not None:
                names = senders.setdefault(link.target.number, {})
                if not link.target.linked:
                    names[_sender(chain)] = chain
    infill = {link.target.number for chain in line.decoded.chains.infill for link in chain.links if link.target}
    found = [_remark(line.groups[number], names) for number, names in senders.items() if names]
    return Result(found, len(senders), {AFTER_INFILL: len(infill - set(senders))})


def _remark(group: BaliseGroup, senders: Mapping[str, Chain]) -> Remark:
    sentence = f"its Q_LINK is 0, and it is linked by {listed(list(senders), NAMED)}"
    named = [chain.sender for chain in senders.values() if chain.sender]
    messages = [chain.location for chain in senders.values() if chain.location.message]
    return Remark("L4", Location(group), sentence, group, named=named, compared=messages)


def _sender(chain: Chain) -> str:
    message, sender = chain.location.message, chain.sender
    if message is not None:
        return f"the message of {describe_message(message)}"
    return clean(sender.group.name) if sender else ""


RULE = Rule("L4", "groups", __doc__ or "", find, Urgency.RULE_ONLY, needs_kilometres=True)

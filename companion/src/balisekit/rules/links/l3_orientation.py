"""L3: orientation differs.

What it says. Q_LINKORIENTATION of a linked group does not fit the order of its balises along the track. The variable
states whether a train that runs towards the group passes its balises in rising order (nominal, 1) or in falling order
(reverse, 0). The rule compares only groups of two or more balises. A single balise has no order, and gets its direction
from this variable. If all balises of a group have the same kilometre, the groups to which its own links lead show the
direction instead. The rule rests on SUBSET-026, 3.4.2 and 3.4.4.

Why it matters. At worst the train brakes or is tripped at each passage. The order of the balises shows the train
another direction than the link announced. The train then applies the linking reaction, or rejects the message of the
group.

Example. Before (`examples/links/orientation-differs.csv`): the link of A says that B (km 11.000) is passed in nominal
direction, but its balises show the reverse direction. After (`examples/links/line.csv`): Q_LINKORIENTATION of this link
is 0, reverse.

When it is a false alarm. Never, if each track has a name, its kilometres rise steadily from one end to the other, and
trains use packets with Q_DIR 2 in both directions. Kilometres do not rise steadily on a balloon loop, or if they turn
back, jump or are rounded within a group.

Usual cause. The group was turned, or a link was copied from a group that faces the other way. If the table has the
balises in another order than the track, F1 is found as well, and the remark names it. Sometimes the order of the
sending group is the wrong one, and the remark then blames the next group.

How to correct it. Correct Q_LINKORIENTATION. If the order of the balises in the table is wrong, correct the table.

How to accept it. State why the kilometres of the track do not rise steadily, for example because it is a balloon loop.
No other reason is usual.
"""
from __future__ import annotations

from typing import Iterator, Union

from balisekit.etcs.geometry import NOMINAL, REVERSE
from balisekit.rules.chains import Chain
from balisekit.rules.facts import group_words
from balisekit.rules.line import Line
from balisekit.rules.location import NO_DIRECTION, NOT_IN_TABLE
from balisekit.rules.rule import Options, Remark, Result, Rule, Urgency
from balisekit.tables.chainage import apart


def find(line: Line, options: Options) -> Result:
    """Compares each link to a group of two or more balises."""
    return Result.of_chains(line, lambda chain: _look_at(line, chain))


def _look_at(line: Line, chain: Chain) -> Iterator[Union[Remark, str, None]]:
    sender = chain.sender
    along = sender.along(chain.direction) if sender else None
    for link in chain.links:
        here = link.target
        if sender is None or here is None:
            yield NOT_IN_TABLE
        elif here.balises == 1 or here.by_links and not here.by_own_links:
            yield ""
        elif here.rising is None or along is None:
            yield NO_DIRECTION
        elif here.track != sender.track:
            yield apart(here.track, sender.track)
        elif (here.rising == along) == link.nominal:
            yield None
        else:
            announced, wanted = (NOMINAL, REVERSE) if link.nominal else (REVERSE, NOMINAL)
            by = "links of its own" if here.by_own_links else "order of its balises along the track"
            sentence = (
                f"Q_LINKORIENTATION says that {here} is passed in {announced} direction, "
                f"and by the {by} it is passed in {wanted} direction"
            )
            facts = (f"link {link.number} to {group_words(here)} {announced}",)
            yield Remark("L3", chain.at(link), sentence + line.wrong_order(here, sender), here, facts=facts)


RULE = Rule("L3", "links", __doc__ or "", find, Urgency.BRAKING, needs_kilometres=True)

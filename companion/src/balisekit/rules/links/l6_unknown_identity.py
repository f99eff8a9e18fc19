"""L6: identity not known.

What it says. The header of a balise has NID_BG 16,383, which means that the identity is not known. No group has this
number. The rule rests on SUBSET-026, 7.5.1.

Why it matters. At worst the train has a wrong position. No link can name the group, and no train can report its
position relative to it. Two such groups even have the same identity, which the program finds as F14.

Example. Before (`examples/links/identity-not-known.csv`): the balise of D (km 12.500) has NID_BG 16,383. After
(`examples/links/line.csv`): it has the number of the group.

When it is a false alarm. Never, as far as this project knows: a group that is programmed has a number.

Usual cause. A template was not filled in completely. Or 16,383 was copied into a header from a link to a group that is
not known yet.

How to correct it. Give the group a number of its own, from 0 to 16,382, in all its telegrams.

How to accept it. There is no usual reason to accept it. Give the group its number.
"""
from __future__ import annotations

from balisekit.rules.line import Line
from balisekit.rules.location import NOT_KNOWN
from balisekit.rules.rule import REFUSED, Options, Remark, Result, Rule, Urgency


def find(line: Line, options: Options) -> Result:
    """Looks at the header of each telegram."""
    sentence = "the header has NID_BG 16383, which says that the identity is not known"
    groups = line.decoded.groups
    found = [
        Remark("L6", data.location(telegram.row), sentence, data.group)
        for data in groups
        for telegram in data.telegrams.values()
        if telegram.header.nid_bg == NOT_KNOWN
    ]
    unread = sum(len(data.group.unread) for data in groups)
    return Result(found, sum(len(data.telegrams) for data in groups), {REFUSED: unread})


RULE = Rule("L6", "headers", __doc__ or "", find, Urgency.WRONG_PLACE, needs_kilometres=True)

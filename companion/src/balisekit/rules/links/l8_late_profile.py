"""L8: profile begins late.

What it says. A group or message 3 gives an authority, and a gradient or speed profile that begins beyond 0 m. No other
profile of this kind in the message begins at 0 m, so the message describes no track before that place. The proved
program does not check where a profile begins. The rule rests on SUBSET-026, 3.7, 3.8 and 3.11.
- The rule reports late profiles of all groups, but only of the first radio message 3 in the file.
- For later messages 3, a note only counts the late profiles. Such a message might rely on the message before it.

Why it matters. At worst the train uses an old profile, or no profile, on the track before the first element. Usually
the train refuses the authority.

Example. Before (`examples/links/profile-begins-late.csv`): packet 27 of balise A2 (km 10.003) begins at 50 m from the
group. After (`examples/links/line.csv`): D_STATIC of its first element is 0 m.

When it is a false alarm. The rule assumes that the profiles of a message begin at its group. That is not so if an
earlier group gave the profile of the track before the first element. An earlier message 3 might also have given this
profile, if that message was refused or is missing in the file of messages.

Usual cause. The distance was counted from another balise or from a signal. Or an earlier message was meant to give the
profile of the track before this place.

How to correct it. Set the first distance to 0, and add the values of the track from the group on.

How to accept it. Name the earlier message or group that gives the profile of the track before the first element.
"""
from __future__ import annotations

from typing import Iterator, Sequence

from balisekit.etcs.variables import metres
from balisekit.rules.chains import PROFILES, GivenProfile
from balisekit.rules.line import Line
from balisekit.rules.rule import Options, Remark, Result, Rule, Urgency
from balisekit.tables.names import listed

NAMED = 5


def find(line: Line, options: Options) -> Result:
    """Looks at each profile that is given with an authority, those after a packet 136 too."""
    sentence = "the {} under an authority begins at {}: the track before it has none"
    first = next((message for message, form in line.messages if form["nid_message"] == 3), None)
    late = [each for each in line.decoded.chains.profiles if each.is_late]
    later = [each for each in late if each.location.message not in (None, first)]
    found = [
        Remark("L8", each.location, sentence.format(PROFILES[each.packet.number], metres(each.packet.begin)))
        for each in late
        if each.location.message in (None, first)
    ]
    return Result(found, len(line.decoded.chains.profiles), notes=list(_note(later)))


def _note(later: Sequence[GivenProfile]) -> Iterator[str]:
    """How many profiles begin late whose track may have a profile of the message before."""
    if later:
        numbers = list(dict.fromkeys(each.location.message.number for each in later if each.location.message))
        profiles = "1 profile begins" if len(later) == 1 else f"{len(later)} profiles begin"
        lines = f"line{'' if len(numbers) == 1 else 's'} {listed(list(map(str, numbers)), NAMED)}"
        yield f"L8: {profiles} late in messages 3 that have another message 3 before them ({lines})"


RULE = Rule("L8", "profiles", __doc__ or "", find, Urgency.WRONG_INFORMATION, needs_kilometres=True)

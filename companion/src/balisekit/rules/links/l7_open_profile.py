"""L7: open profile under an authority.

What it says. A group or message 3 gives an authority, and for the same direction a gradient or speed profile without an
end mark. Such a profile is open: the program assumes that it reaches any place. Then the yes of the program rests on a
rule of this project, which the standard might not share.

Why it matters. To be looked at: a yes then covers less than it seems to cover. The last gradient or speed holds without
end, also on track that has another gradient or speed. A train might refuse an authority whose profiles do not end.

Example. Before (`examples/links/open-profile.csv`): packet 21 of balise A2 (km 10.003) has no end mark, and the
authority of its group rests on it. After (`examples/links/line.csv`): an element with G_A 255 ends the profile 1,000 m
from the group.

When it is a false alarm. Never, if each profile needs an end mark. This project has not looked up in a printed standard
whether each profile needs an end mark. If a profile needs none, the remark is a false alarm in a project that omits end
marks on purpose.

Usual cause. The end mark (G_A 255, V_STATIC 127) was forgotten. Or the tool that made the data omits it at the end of a
line.

How to correct it. End the profile with an end mark at the supervised location or beyond.

How to accept it. Give the reason why the profile is open, and where the train gets the next profile.
"""
from __future__ import annotations

from balisekit.rules.chains import PROFILES
from balisekit.rules.line import Line
from balisekit.rules.rule import Options, Remark, Result, Rule, Urgency


def find(line: Line, options: Options) -> Result:
    """Looks at each profile that is given with an authority, those after a packet 136 too."""
    sentence = "the {} is open, and an authority rests on it: it has no end mark"
    profiles = line.decoded.chains.profiles
    found = [
        Remark("L7", each.location, sentence.format(PROFILES[each.packet.number]))
        for each in profiles
        if each.packet.is_open
    ]
    return Result(found, len(profiles))


RULE = Rule("L7", "profiles", __doc__ or "", find, Urgency.RULE_ONLY, needs_kilometres=True)

"""Sentences that the pages of several rules share. A page has the name of such sentences in braces: `{kilometres}`."""
from __future__ import annotations

import re
from typing import Mapping

SENTENCES: Mapping[str, str] = {
    "kilometres": (
        "The rule relies on the kilometres of the table as positions on the track. A remark can be wrong if a "
        "kilometre occurs twice, is rounded coarsely, follows another axis than the track, or belongs to a signal "
        "instead of the balise. A remark can also be wrong if the kilometres jump and neither `--jumps` nor the track "
        "plan states the jump. The same holds if the table has several tracks without names."
    ),
    "missing": "A missing kilometre can also lead to a wrong remark.",
    "leaving": (
        "The rule also assumes that trains stay on the track. A train that runs through a loop, or takes a route to "
        "another track, breaks this assumption."
    ),
    "points": "To prevent such remarks, state with a `point` of the track plan where trains can leave the track.",
    "beyond a point": (
        "Beyond a `point` of the plan, the rule compares only if the train certainly stays on the track. That is so if "
        "a packet 5 of the same message names a group of this track at or beyond the point. No group of another track "
        "may come before it in this packet."
    ),
    "one way": (
        "On a track for one direction, a packet with Q_DIR 2 is also compared for the other direction, in which no "
        "train runs."
    ),
    "exact": (
        "The rule assumes that profiles state the values and places of the track. A correct profile can differ if its "
        "elements were merged or rounded, or if it is more restrictive on purpose, such as for an overlap."
    ),
    "track speed": (
        "The rule assumes that V_STATIC is the speed of the track. That is not so if V_STATIC includes the speed of "
        "the route, of the aspect or of a temporary restriction, or if it is for limited supervision. The same holds "
        "if no train uses V_STATIC, for example if it is 0 because each train category has its own V_DIFF."
    ),
}


def filled_in(page: str) -> str:
    """A page with the shared sentences in their places."""
    return re.sub(r"\{([a-z ]+)\}", lambda name: SENTENCES[" ".join(name[1].split())], page)

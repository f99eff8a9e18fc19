"""The signal that infill is about, by its packet 136: for E15."""
from __future__ import annotations

from typing import Optional

from balisekit.etcs.geometry import DIRECTIONS, NOMINAL, REVERSE
from balisekit.rules.decoded import Decoded
from balisekit.rules.location import Identity
from balisekit.rules.passages import GroupData, Passage
from balisekit.rules.telegrams import GRADIENTS, SPEEDS

AUTHORITY = 12
COMPARED = (AUTHORITY, 21, 27, 80)
"""The packets after a packet 136 that are compared with those of the signal."""


def identity_of(passage: Passage) -> Optional[Identity]:
    """NID_C and NID_BG of the group that a packet 136 names, if it names one."""
    reference, here = passage.reference, passage.group
    if reference is None or here is None or "nid_bg" not in reference.form:
        return None
    country = here.group.identity[0] if here.group.identity else 0
    return reference.form.get("nid_c", country), reference.form["nid_bg"]


def signal_of(decoded: Decoded, passage: Passage, target: GroupData) -> Optional[Passage]:
    """What the train gets from the named group, in the aspect with the same name.

    A passage whose way is not known goes towards the named group.
    """
    way, here = passage.way, passage.group
    on_track = here is not None and here.group.track == target.group.track
    if way is None and here and on_track and None not in (here.place, target.place):
        way = 1 if (target.place or 0) > (here.place or 0) else -1
    shown = next((each for each in DIRECTIONS if way and target.group.along(each) == way), passage.direction)
    if not on_track or way is None or target.group.rising is None:
        links = (link for link in passage.links if link.target is target.group)
        shown = next((NOMINAL if link.nominal else REVERSE for link in links), shown)
    same = (each for each in target.passages if each.aspect == passage.aspect and each.direction == shown)
    return next(same, None)


def are_others(passage: Passage, signal: Passage) -> bool:
    """Whether only one of the two has a packet that is compared, or has more of them."""
    counts = ([packet.number for packet in packets].count for packets in (passage.infill, signal.said))
    own, its = counts
    return any(own(number) != its(number) for number in COMPARED)


def lacks_profiles(passage: Passage, signal: Passage) -> bool:
    """Whether the signal has more packets 21 or 27 than its infill, so that an authority of the infill lacks one."""
    own, its = ([packet.number for packet in packets].count for packets in (passage.infill, signal.said))
    return any(own(number) < its(number) for number in (GRADIENTS, SPEEDS))

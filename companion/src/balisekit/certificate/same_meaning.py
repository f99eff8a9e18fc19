"""Whether a line means the same after a change, so that nothing has to be found.

Only what is the same for every train counts. Whoever is in doubt leaves a change among those that should be found.
Such a change counts all the same if `check` reports it (judging.py).
"""
from __future__ import annotations

from copy import deepcopy
from typing import Any, Dict, Iterator, List, Mapping, Tuple

from balisekit.engine.records import Form
from balisekit.mistakes.mistake import Change
from balisekit.mistakes.original import Original, Value, is_understood, values_of, with_number
from balisekit.tables.model import Group

ROUNDING_DM = 10
"""Kilometres and distances are rounded: a place that moves by one metre is as right as before."""
ROUNDED = "one distance moves by at most one metre, by which kilometres and distances are rounded"
NO_MEANING = "the variable has no meaning there: the end of a profile, a gradient of 0 ‰, or no distance in the packet"
SAME_COUNTERS = "the same telegrams have equal counters, and the others have different ones"
SAME_TIME = "T_TRAIN is set when the message is sent"
END_OF_GRADIENTS, END_OF_SPEEDS = 255, 127
UNKNOWN_TIME = 2**32 - 1
LAST_COUNTER = 253
"""The greatest number by which M_MCOUNT only tells messages apart. 254 fits no message, 255 fits all."""


def same_meaning(original: Original, change: Change) -> str:
    """Why the line means the same after the change. Empty if it does not, or if that is not certain."""
    if change.cells or change.lost or change.texts:
        return ""
    pairs = [(original.forms[place], form) for place, form in change.forms.items()]
    differ = [(one, other) for one, other in (map(_without_idle, pair) for pair in pairs) if one != other]
    if len(differ) > 1 or not all(_is_rounding(*pair) for pair in differ):
        return ""
    groups = {group.name: group for group in map(original.group_of.get, change.forms) if group}
    if not all(_same_counters(original, group, change.forms) for group in groups.values()):
        return ""
    if any(before.get("m_mcount") != after.get("m_mcount") for before, after in pairs):
        return SAME_COUNTERS
    if any(before.get("t_train") != after.get("t_train") for before, after in pairs):
        return SAME_TIME
    return ROUNDED if differ else NO_MEANING


def _without_idle(form: Form) -> Form:
    """A telegram or message without its counter, its time, and the variables of its packets that mean nothing.

    Q_GDIR has no meaning at the end of a gradient profile or beside a gradient of 0 ‰, and Q_FRONT has none at the
    end of a speed profile (7.4.2.3, 7.4.2.7). Q_SCALE has none if no distance of the packet is counted in its unit.
    """
    made: Any = {**form, "packets": deepcopy(form["packets"]), "m_mcount": 0}
    made["t_train"] = made.get("t_train") == UNKNOWN_TIME
    for packet in made["packets"]:
        for element in packet.get("elements", ()):
            if element.get("g_a") in (0, END_OF_GRADIENTS):
                element["q_gdir"] = 0
            if element.get("v_static") == END_OF_SPEEDS:
                element["q_front"] = 0
    for scale in _idle_scales(made):
        made = with_number(made, scale, 0)
    return made  # type: ignore[no-any-return]


def _idle_scales(form: Form) -> Iterator[Value]:
    """Q_SCALE of each packet whose distances are all 0, or have a meaning without a unit such as `now`."""
    of_packets: Dict[int, List[Value]] = {}
    for value in values_of(0, form):
        of_packets.setdefault(-1 if value.packet is None else value.packet, []).append(value)
    for place, values in of_packets.items():
        counted = any(value.number and value.is_distance(value.number) for value in values)
        if place >= 0 and not counted and is_understood(form, place):
            yield from (value for value in values if value.variable == "Q_SCALE")


def _is_rounding(before: Form, after: Form) -> bool:
    """Whether one distance moves by at most one metre, and all else is the same."""
    pairs = zip(values_of(0, before), values_of(0, after))
    differ = [(one, other.number) for one, other in pairs if one.number != other.number]
    if len(differ) != 1:
        return False
    value, number = differ[0]
    are_distances = value.is_distance(value.number) and value.is_distance(number)
    if not are_distances or abs(number - value.number) * value.unit_dm > ROUNDING_DM:
        return False
    return is_understood(before, value.packet or 0) and with_number(before, value, number) == after


def _same_counters(original: Original, group: Group, forms: Mapping[int, Form]) -> bool:
    """Whether the counters of a group tell its telegrams apart as they did (3.16.2.4)."""
    pairs = {_counters(original.forms[row.number], forms.get(row.number)) for row in group.each_row}
    moved = [pair for pair in pairs if pair[0] != pair[1]]
    one_to_one = len({before for before, _ in pairs}) == len({after for _, after in pairs}) == len(pairs)
    return one_to_one and all(max(pair) <= LAST_COUNTER for pair in moved)


def _counters(before: Form, after: Form | None) -> Tuple[int, int]:
    """M_MCOUNT of a telegram before and after the change."""
    old = before["m_mcount"]
    return old, (old if after is None else after["m_mcount"])

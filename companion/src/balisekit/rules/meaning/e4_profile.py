"""E4: profile that contradicts itself.

What it says. A gradient or speed profile has elements that contradict or repeat each other, such as two elements at one
place. The rule rests on SUBSET-026, 3.11 and 7.4.2, and reports these cases:
- Two elements are at one place, because the second element has D_GRADIENT or D_STATIC 0.
- The end mark is the first element, or other elements follow the end mark.
- An element of a speed profile has V_STATIC 0.
- An element repeats the element before it. In a gradient profile both have the same gradient. In a speed profile both
  have the same speed, Q_FRONT and train categories.
- An element has the same train category twice.
- A V_DIFF by cant deficiency is below V_STATIC, or falls while NC_CDDIFF rises.
- The end mark of one signal is farther beyond the authority of its message, or less far, than that of all others. At
  least five others must agree, with the end of authority or with the supervised location. Only authorities are compared
  that all have an overlap, a danger point and a packet 80, or have none. Authorities with V_LOA above 0 do not count.
  If both profiles of a message differ, another group must have an authority with the same end. F11 and F13 report a
  profile that is too short for its authority.
- A repeated element is not reported if a single distance of at most 32,767 units cannot cover both elements.

Why it matters. At worst the train gets wrong information. Only one of two elements at one place can hold. The train
does not use the elements that follow an end mark. A repeated element often hides a change of speed or gradient that was
meant.

Example. Before (`examples/meaning/mistakes/E4.csv`): in the gradient profile of Signal 3 at "green" the second element
(km 13.100) repeats the -18 ‰ of the first element. After: the second element is gone, and the distance of the next one
is 100 m greater.

When it is a false alarm. The rule assumes that trains run over the complete profile. Beyond a buffer stop or an end of
authority, and at a stop aspect, a profile may have 0 km/h or no length. The rule assumes that trains use V_STATIC. If
each train category has its own V_DIFF, V_STATIC may be 0, or may be for a greater cant deficiency. It assumes that more
cant deficiency never means less speed. That is not so if tilting trains have a restriction of their own. It assumes
that a project ends all profiles alike. One profile might be longer, for example up to a buffer stop. Finally, it
assumes that each element and category is needed. A tool might begin an element at each boundary of its data, or fill
the rest of a packet with end marks.

Usual cause. The elements were sorted wrongly, or an element was entered twice. Or a distance was forgotten. Or an end
mark is left from a shorter profile, or a value of the categories was typed wrongly.

How to correct it. Correct or remove the wrong element according to the profile of the track.

How to accept it. Name the habit of the tool that made the data, or the place beyond which no train runs.

How sure. 90 %, by practice and memory of the standard.
"""
from __future__ import annotations

from decimal import Decimal
from typing import Iterator, List, Optional, Sequence, Tuple

from balisekit.etcs.geometry import ELEMENT_KEYS
from balisekit.etcs.variables import CANT, Form, Values
from balisekit.rules.line import Line
from balisekit.rules.meaning.profile_ends import profile_ends
from balisekit.rules.meaning.sent import Fault, kmh, of_packets, speed
from balisekit.rules.meaning.words import merged
from balisekit.rules.rule import Options, Result, Rule, Urgency
from balisekit.rules.telegrams import GRADIENTS, SPEEDS, Packet
from balisekit.tables.names import ordinal

CANT_DEFICIENCY = 0
"""The Q_DIFF of a difference by cant deficiency."""
LONGEST = 32_767
"""The greatest distance that fits into 15 bits, in units of Q_SCALE."""


def find(line: Line, options: Options) -> Result:
    """Looks at each packet 21 and 27, and then at where it ends."""
    result = of_packets("E4", line, (GRADIENTS, SPEEDS), _faults)
    named = {(each.location.row, each.location.packet) for each in result.found}
    ends = (each for each in profile_ends(line.decoded, options) if each.location.row)
    unlike = [each for each in merged(ends) if (each.location.row, each.location.packet) not in named]
    return result._replace(found=[*result.found, *unlike])


def _faults(packet: Packet) -> List[Fault]:
    if _is_usual(packet):
        return []
    _, value, mark = ELEMENT_KEYS[packet.number]
    elements = packet.form["elements"]
    ended = next((place for place, each in enumerate(elements) if each[value] == mark), None)
    own = elements if ended is None else elements[:ended]
    return [*_end(elements, ended), *_steps(packet, own), *_speeds(packet, own)]


def _is_usual(packet: Packet) -> bool:
    """Whether nothing can be wrong. Most profiles are so, and this takes little time."""
    is_speed, before = packet.number == SPEEDS, None
    for begin, end, value, element in packet.stretches:
        if begin == end or value == before or is_speed and (value == 0 or element["differences"]):
            return False
        before = value
    return 0 < len(packet.stretches) >= len(packet.form["elements"]) - 1


def _end(elements: Sequence[Form], ended: Optional[int]) -> Iterator[Fault]:
    """Where the end mark is."""
    if ended == 0:
        yield Fault("the end mark is the first element", {})
    elif ended is not None and ended < len(elements) - 1:
        behind = len(elements) - 1 - ended
        words = (
            f"{behind} element{' follows' if behind == 1 else 's follow'} the end mark, the {ordinal(ended)} element"
        )
        yield Fault(words, {"elements": Decimal(behind)})


def _steps(packet: Packet, own: Sequence[Form]) -> Iterator[Fault]:
    """Each element beside the one before it."""
    key = ELEMENT_KEYS[packet.number][0]
    all_of_them = packet.form["elements"][: len(own) + 1]
    for place, (before, each) in enumerate(zip(all_of_them, all_of_them[1:]), 1):
        name = f"the {ordinal(place)} element"
        if each[key] == 0:
            words = f"{key.upper()} of {name} is 0 m: it begins where the one before it does"
            yield Fault(words, {"distance_m": Decimal()}, [(key, place)])
        elif place < len(own) and _said(packet, before) == _said(packet, each) and _fits(all_of_them, place, key):
            value, words = _value(packet, each)
            yield Fault(f"{name} repeats the one before it, {words}", {"value": Decimal(value)}, [(key, place)])


def _fits(elements: Sequence[Values], place: int, key: str) -> bool:
    """Whether one distance could lead from the element before this one to the next one."""
    distances: Sequence[int] = [each[key] for each in elements[place : place + 2]]
    return sum(distances) <= LONGEST


def _said(packet: Packet, element: Form) -> object:
    """What an element says, apart from its distance."""
    if packet.number == GRADIENTS:
        return element["g_a"] * (1 if element["q_gdir"] else -1)
    return element["v_static"], element["q_front"], element["differences"]


def _value(packet: Packet, element: Form) -> Tuple[int, str]:
    if packet.number == SPEEDS:
        return element["v_static"] * 5, f"V_STATIC {speed(element['v_static'])}"
    value = element["g_a"] * (1 if element["q_gdir"] else -1)
    return value, f"{value:+} ‰" if value else "0 ‰"


def _speeds(packet: Packet, own: Sequence[Form]) -> Iterator[Fault]:
    """The speeds of each element, and those of train categories."""
    for place, element in enumerate(own if packet.number == SPEEDS else ()):
        name = f"the {ordinal(place)} element"
        if element["v_static"] == 0:
            yield Fault(f"V_STATIC of {name} is 0 km/h", {"v_static_kmh": kmh(0)}, [("v_static", place)])
        if element["differences"]:
            yield from _categories(element, name)


def _categories(element: Form, name: str) -> Iterator[Fault]:
    differences = element["differences"]
    kinds = [(each["q_diff"] != CANT_DEFICIENCY, each["nc"]) for each in differences]
    if len(set(kinds)) < len(kinds):
        yield Fault(f"{name} has a train category twice", {"categories": Decimal(len(kinds))})
    by_cant = sorted((each["nc"], each["v_diff"]) for each in differences if each["q_diff"] == CANT_DEFICIENCY)
    for (low, faster), (high, slower) in zip(by_cant, by_cant[1:]):
        if slower < faster:
            words = f"V_DIFF of {name} is {speed(faster)} for {_cant(low)}, and {speed(slower)} for {_cant(high)}"
            yield Fault(words, {"v_diff_kmh": kmh(faster), "v_diff_of_more_cant_kmh": kmh(slower)})
    for cant, value in by_cant:
        if value < element["v_static"]:
            words = f"V_DIFF of {name} is {speed(value)} for {_cant(cant)}, and V_STATIC {speed(element['v_static'])}"
            yield Fault(words, {"v_diff_kmh": kmh(value), "v_static_kmh": kmh(element["v_static"])})


def _cant(number: int) -> str:
    return f"cant deficiency {CANT[number]} mm" if number in CANT else f"NC_CDDIFF {number}"


RULE = Rule("E4", "profiles", __doc__ or "", find, Urgency.WRONG_INFORMATION)

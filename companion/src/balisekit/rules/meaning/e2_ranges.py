"""E2: speed or gradient out of range.

What it says. V_MAIN, V_LOA, V_STATIC, V_DIFF, V_TSR or V_MAMODE is above `--line-speed` (default 350 km/h), a release
speed is above `--release-speed` (default 40 km/h), or G_A is above 40 ‰. The rule rests on SUBSET-026, 3.8, 3.11 and
7.5.1.
- Special values, such as the end mark, do not count as speeds or gradients.
- V_TSR is in packet 65, and V_MAMODE in packet 80. The rule reads both by balisekit's own layouts.
- With `--rules E2` the rule also reports a V_MAIN that is above the greatest speed of the speed profiles in the same
  message.

Why it matters. At worst the train gets wrong information. A speed that is too great does not restrict the train. With a
wrong gradient the train brakes too early or too late.

Example. Before (`examples/meaning/mistakes/E2.csv`): at "green" of Signal 3 (km 13.003) V_MAIN is sent as 120, which is
600 km/h and above 350 km/h. After: V_MAIN is sent as 24, which is 120 km/h.

When it is a false alarm. The rule assumes that its limits hold for all trains. That is not so if the line is faster or
steeper, or if it has greater release speeds. V_DIFF for tilting trains can be above the limit too. The rule also
assumes that each speed is meant to restrict the train. Some projects send a great speed on purpose, so that it
restricts no train. The rule also assumes, with `--rules E2`, that the speed profile in the message contains the fastest
stretch of the route. Another group might send the profile of that stretch.

Usual cause. A speed was entered in km/h instead of steps of 5 km/h, so the value 100 means 500 km/h. Or a gradient was
entered in tenths of a per mille.

How to correct it. Correct the value. If the line is faster, state its greatest speed with `--line-speed`.

How to accept it. As the reason, give the greatest speed or gradient that the track plan states for this place.

How sure. 92 %, by practice and memory of the standard. The part about V_MAIN and the profile is less than 85 % sure, so
it is off without `--rules E2`.
"""
from __future__ import annotations

from decimal import Decimal
from typing import Any, Dict, Iterator, List, Mapping, Optional, Sequence, Set, Tuple

from balisekit.etcs.variables import Form
from balisekit.rules.line import Line
from balisekit.rules.meaning.sent import Fault, kmh, of_packets, remark, speed
from balisekit.rules.passages import Passage
from balisekit.rules.rule import Options, Remark, Result, Rule, Urgency
from balisekit.rules.telegrams import GRADIENTS, SPEEDS, Packet
from balisekit.tables.names import ordinal

GREATEST_SPEED, STEEPEST = 120, 40
"""The greatest number that is a speed, and the steepest gradient in per mille: any other number is special."""
END = 255
"""The G_A that is the end mark."""
RELEASE = ("v_releasedp", "v_releaseol")
NUMBERS = (12, 15, GRADIENTS, SPEEDS, 65, 80)

Value = Tuple[str, Optional[int], int]
"""A number of a packet: its key, which element it is of, counted from 0, and how it is sent."""


def find(line: Line, options: Options) -> Result:
    """Looks at each packet that has a speed or a gradient."""
    greatest, release = options.greatest_speed // 5, options.release_speed // 5
    result = of_packets("E2", line, NUMBERS, lambda packet: _faults(packet, options, greatest, release))
    if not options.asks_for("E2"):
        return result
    return Result([*result.found, *_above_profiles(line, greatest)], result.looked_at)


def _faults(packet: Packet, options: Options, greatest: int, release: int) -> List[Fault]:
    """The first value of each name that is out of range, and how many more."""
    found: Dict[str, List[Value]] = {}
    for value in () if _is_usual(packet, greatest) else _values(packet):
        key, _, raw = value
        most = STEEPEST if key == "g_a" else release if key in RELEASE else greatest
        if most < raw < (END if key == "g_a" else GREATEST_SPEED + 1):
            found.setdefault(key, []).append(value)
    return [_fault(values, options) for values in found.values()]


def _is_usual(packet: Packet, greatest: int) -> bool:
    """Whether nothing of a profile is out of range. Most profiles are so, and this takes little time."""
    form = packet.form  # (lists take less time than `any` here)
    if packet.number == GRADIENTS:
        return not [0 for each in form["elements"] if STEEPEST < each["g_a"] < END]
    if packet.number == SPEEDS:
        elements = form["elements"]
        return not [0 for each in elements if greatest < each["v_static"] <= GREATEST_SPEED or each["differences"]]
    return False


def _values(packet: Packet) -> Iterator[Value]:
    form = packet.form
    if packet.number == GRADIENTS:
        yield from (("g_a", place, each["g_a"]) for place, each in enumerate(form["elements"]))
    elif packet.number == SPEEDS:
        for place, each in enumerate(form["elements"]):
            yield "v_static", place, each["v_static"]
            yield from (("v_diff", place, one["v_diff"]) for one in each["differences"])
    elif packet.number in (12, 15):
        yield from _of_authority(form)
    else:
        yield from _of_body(dict(form))


def _of_authority(form: Form) -> Iterator[Value]:
    if "v_main" in form:
        yield "v_main", None, form["v_main"]
    yield "v_loa", None, form["end_speed"]
    if "danger_point" in form:
        yield "v_releasedp", None, form["danger_point"]["v_releasedp"]
    if "overlap" in form:
        yield "v_releaseol", None, form["overlap"]["v_releaseol"]


def _of_body(form: Mapping[str, Any]) -> Iterator[Value]:
    """The speeds of a packet 65 or 80, if its layout fits."""
    if "v_tsr" in form:
        yield "v_tsr", None, form["v_tsr"]
    yield from (("v_mamode", place, each["v_mamode"]) for place, each in enumerate(form.get("elements", ())))


def _fault(values: Sequence[Value], options: Options) -> Fault:
    (key, place, raw), fields = values[0], [value[:2] for value in values]
    where = "" if place is None else f" of the {ordinal(place)} element"
    more = f", and {len(values) - 1} more of the packet {'are' if len(values) > 2 else 'is'} too" if values[1:] else ""
    if key == "g_a":
        words = f"G_A{where} is {raw} ‰, above {STEEPEST} ‰"
        return Fault(f"{words}{more}", {"g_a_per_mille": Decimal(raw)}, fields)
    by_line = options.greatest_speed, "--line-speed"
    limit, name = (options.release_speed, "--release-speed") if key in RELEASE else by_line
    meant = f"; {raw} km/h are sent as {raw // 5}" if raw % 5 == 0 and raw <= limit else ""
    words = f"{key.upper()}{where} is {speed(raw)}, above {limit} km/h ({name}){meant}"
    return Fault(f"{words}{more}", {f"{key}_kmh": kmh(raw), "limit_kmh": Decimal(limit)}, fields)


def _above_profiles(line: Line, most: int) -> Iterator[Remark]:
    """V_MAIN above all speeds that are said with it. One that is out of range is remarked in any case."""
    seen: Set[int] = set()
    for passage in line.decoded.passages:
        moving = [packet for packet in passage.of(12) if packet.form["v_main"]]
        greatest = _greatest(passage) if moving else None
        for packet in moving:
            main = packet.form["v_main"]
            if greatest is None or not greatest < main <= most or id(packet) in seen:
                continue
            seen.add(id(packet))
            words = f"V_MAIN is {speed(main)}, above the greatest speed of the profile with it, {speed(greatest)}"
            values = {"v_main_kmh": kmh(main), "profile_kmh": kmh(greatest)}
            yield remark("E2", passage.at(packet), [Fault(words, values)])


def _greatest(passage: Passage) -> Optional[int]:
    """The greatest speed of the speed profiles, those of train categories too."""
    elements = [each.element for packet in passage.of(SPEEDS) for each in packet.stretches]
    speeds = [each["v_static"] for each in elements]
    return max([*speeds, *(one["v_diff"] for each in elements for one in each["differences"])], default=None)


ABOVE = "a V_MAIN above the speed profiles in its message"
RULE = Rule(
    "E2", "packets with speeds or gradients", __doc__ or "", find, Urgency.WRONG_INFORMATION, optional_part=ABOVE
)

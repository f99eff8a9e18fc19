"""E26: mode profile against its authority.

What it says. A packet 80 (mode profile) asks for a mode that its own message does not allow. The proved program does
not decode packet 80: balisekit decodes it by a layout of its own. The rule rests on SUBSET-026, 3.12.4 and 7.4.2. The
first five items are the faults that it reports.
- The message has no packet 12 or 15 for the direction of the packet 80.
- The first mode begins at or beyond the end of each authority of this direction, by its D_MAMODE. At the end means
  within `--tolerance` (default 1 m) and rounding. Later modes are not compared with the end.
- A V_MAMODE for on sight or shunting is above 100 km/h, and is not the national value.
- The L_MAMODE of a mode is 0.
- At one signal the first mode has another D_MAMODE than at all others. There must be at least three others, and all of
  them must have the same D_MAMODE. Only modes of one M_MAMODE are compared.
- A first mode that begins at the end is not reported if it is shunting, or if V_LOA is above 0. The same holds if the
  authority has no length, as at a stop aspect.
- A packet 80 after a packet 136 is compared only with the authorities after this packet 136.

Why it matters. At worst the train gets wrong information: it enters an occupied track in full supervision, or faster
than a driver can stop on sight.

Example. Before (`examples/meaning/mistakes/E26.csv`): at "yellow" of Signal 3 (km 13.003) on sight begins 1,600 m from
the group, and the authority ends 1,500 m from it. After: on sight begins at the group, with D_MAMODE 0.

When it is a false alarm. The rule assumes that a mode profile belongs to an authority of the same message. A project
might send it in a message of its own, such as by radio. It assumes that a mode begins at the same distance from each
signal, if it does so at three other ones. One signal might be far in rear of its station. The rule also assumes that
V_MAMODE is the speed at which trains run in this mode. A project might send a great V_MAMODE if another limit restricts
these trains anyway. The rule also assumes that a packet 80 with Q_DIR 2 is for both directions. A project might send it
at a signal for one direction, where its message has no authority for the other one. It also assumes that each mode has
a length. A project might send L_MAMODE 0 for shunting, because a train in shunting does not supervise the end of the
area.

Usual cause. D_MAMODE was counted from another signal, or has a wrong Q_SCALE. Or V_MAMODE was given in km/h instead of
steps of 5 km/h.

How to correct it. Correct D_MAMODE, L_MAMODE, V_MAMODE or Q_DIR, or add the authority.

How to accept it. Name the message that has the authority, the limit that restricts V_MAMODE, or the direction in which
no train runs.

How sure. 90 %, by practice and memory of the standard.
"""
from __future__ import annotations

from itertools import chain
from typing import Any, Iterator, List, Sequence, Tuple

from balisekit.etcs.variables import metres
from balisekit.rules.line import Line
from balisekit.rules.meaning.mode_begins import MODES, unlike_begins
from balisekit.rules.meaning.sent import Fault, distance, kmh, remark, speed, tolerance
from balisekit.rules.meaning.words import merged
from balisekit.rules.passages import Passage
from balisekit.rules.rule import Options, Remark, Result, Rule, Urgency
from balisekit.rules.telegrams import AUTHORITIES, Packet
from balisekit.tables.names import ordinal

FASTEST, NATIONAL = 20, 127
"""As they are sent: 100 km/h, and the V_MAMODE of the national values."""
SHUNTING = 1
SLOW = {0: "on sight", SHUNTING: "shunting"}
"""The modes in which the driver looks out, by M_MAMODE."""

NOT_DECODED = "not decoded"
"""Why a packet 80 is not looked at: it does not fit its layout."""


def find(line: Line, options: Options) -> Result:
    """Looks at each mode profile in each message."""
    found: List[Remark] = []
    count, left = 0, 0
    for passage in line.decoded.passages:
        for packets in (passage.said, passage.infill):
            for packet in (each for each in packets if each.number == MODES):
                if "elements" in packet.form:
                    count += 1
                    found += _look_at(options, passage, packet, packets)
                else:
                    left += 1
    named = {(each.location.row, each.location.packet) for each in found if "d_mamode_m" in each.values}
    others = unlike_begins(line.decoded)
    found += (each for each in others if (each.location.row, each.location.packet) not in named)
    return Result(merged(found), count, {NOT_DECODED: left} if left else {})


def _look_at(options: Options, passage: Passage, packet: Packet, packets: Sequence[Packet]) -> Iterator[Remark]:
    """What is wrong with a mode profile among the packets that count from one group."""
    authorities = [each for each in packets if each.number in AUTHORITIES]
    form: Any = packet.form
    faults = [
        *_start(options, packet, authorities),
        *chain(*map(_mode, range(len(form["elements"])), form["elements"])),
    ]
    if faults:
        elsewhere = [passage.at(each) for each in authorities if each.row is not packet.row]
        yield remark("E26", passage.at(packet), faults)._replace(compared=elsewhere)


def _start(options: Options, packet: Packet, authorities: Sequence[Packet]) -> Iterator[Fault]:
    """Where the first mode begins, beside the ends of the authorities."""
    form: Any = packet.form
    if not authorities:
        yield Fault("its message has no packet 12 or 15", {"packets": distance(0)})
        return
    begin, last = form["elements"][0]["d_mamode"] * packet.unit, max(authorities, key=lambda each: each.end)
    parts: Tuple[Tuple[Packet, int], ...] = ((packet, 1), (last, last.lengths))
    beyond, allowed = begin - last.end, tolerance(options, *parts)
    if beyond > allowed or beyond >= -allowed and _must_begin_before(packet, last):
        side = "beyond" if beyond > allowed else "at"
        words = f"D_MAMODE {metres(begin)} is {side} the end of authority, {metres(last.end)} from the group"
        yield Fault(words, {"d_mamode_m": distance(begin), "end_m": distance(last.end)}, [("d_mamode", 0)])


def _must_begin_before(packet: Packet, last: Packet) -> bool:
    """Whether no train is in the first mode if it begins at the end of an authority.

    A train may shunt from the end on, or pass a limit of authority. An authority without a length ends at its group.
    """
    form: Any = packet.form
    authority: Any = last.form
    return form["elements"][0]["m_mamode"] != SHUNTING and not authority["end_speed"] and last.end > 0


def _mode(place: int, element: Any) -> Iterator[Fault]:
    """The speed and the length of a mode."""
    name = f"the {ordinal(place)} mode"
    mode, fast = SLOW.get(element["m_mamode"]), element["v_mamode"]
    if mode and FASTEST < fast != NATIONAL:
        yield Fault(f"V_MAMODE of {name} is {speed(fast)} {mode}", {"v_mamode_kmh": kmh(fast)}, [("v_mamode", place)])
    if element["l_mamode"] == 0:
        yield Fault(f"L_MAMODE of {name} is 0 m", {"l_mamode_m": distance(0)}, [("l_mamode", place)])


RULE = Rule("E26", "mode profiles", __doc__ or "", find, Urgency.WRONG_INFORMATION)

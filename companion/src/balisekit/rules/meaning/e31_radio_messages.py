"""E31: radio message that does not fit the line.

What it says. A radio message names a group that the table does not have, or a place at which the train cannot be. The
rule rests on SUBSET-026, 3.4.3, 3.6.2 and 8.7.
- Unknown group: a message 3 (movement authority) or a position report has an NID_LRBG that no group of the table has. A
  position report is packet 0 or 1 of a message 136.
- Passed group: D_LRBG of a position report leads beyond the next group of the track that has Q_LINK 1, by more than the
  tolerance of D_LRBG. The train should then have reported its position relative to that group.
- Two positions: two position reports of one NID_ENGINE have the same T_TRAIN, but different groups, distances or sides
  of the group.
- The tolerance of D_LRBG is the sum of L_DOUBTOVER, one unit of Q_SCALE, `--tolerance` (default 1 m) and the rounding
  of the kilometres. This rounding is one unit of their last digit, but at most 1 m. L_DOUBTOVER is how far the train
  might be in rear of the place that it reports.
- Distances of two reports with different Q_SCALE may differ by the greater unit, because of the rounding. Distances
  with the same Q_SCALE must be equal.
- NID_BG 16,383 means that the group is not known, and it is not reported. No unknown group is reported if the table has
  a group with a refused telegram. A T_TRAIN or L_DOUBTOVER whose value means "not known" is not compared.

Why it matters. At worst the train gets wrong information: an authority counts from a group that the train has not
passed.

Example. Before (`examples/meaning/mistakes/E31.csv` with `examples/meaning/mistakes/E31-messages.txt`): the second
message has the NID_LRBG of group 77, and the table has no such group. After: the message has the NID_LRBG of Signal 3,
which is group 3.

When it is a false alarm. The rule assumes that the table has all groups of the messages. A table for a part of the line
lacks some of them. The rule assumes that a train reports its position relative to the last group with Q_LINK 1. The
train might have missed this group, or ignored it because no packet 5 announced it. D_LRBG leads to the front of the
train, which might be some metres beyond a group that its antenna has not read yet. The rule also assumes that the
T_TRAIN of a train does not occur at two different times. The clock of a train might begin anew after a stop without
power. {kilometres}

Usual cause. The messages were made for another release of the table, or NID_LRBG or D_LRBG was typed wrongly.

How to correct it. Correct NID_LRBG or D_LRBG, or add the group to the table.

How to accept it. Name the table that has the group, or the group that the train missed.

How sure. 88 %, by practice and memory of the standard.
"""
from __future__ import annotations

from collections import Counter
from decimal import Decimal
from typing import Any, Dict, Iterator, List, Tuple

from balisekit.etcs.geometry import DIRECTIONS
from balisekit.etcs.variables import UNITS, metres
from balisekit.rules.decoded import Decoded, tolerance_of_lengths
from balisekit.rules.line import Line
from balisekit.rules.location import NOT_KNOWN, Location
from balisekit.rules.meaning.along import unread_of
from balisekit.rules.meaning.reported_places import Place, lacks
from balisekit.rules.rule import Options, Remark, Result, Rule, Urgency
from balisekit.tables.model import Message
from balisekit.tables.names import describe_identity, describe_message

MOVEMENT_AUTHORITY, REPORT, POSITIONS = 3, 136, (0, 1)
"""NID_MESSAGE of both messages, and NID_PACKET of position reports."""
NOT_KNOWN_TIME = 4_294_967_295
NOT_WHOLE = "a group of the table is refused"
"""Why nobody knows whether the table has a group."""


def find(line: Line, options: Options) -> Result:
    """Looks at each message."""
    decoded, found = line.decoded, []
    left: Counter[str] = Counter()
    reported: Dict[Tuple[int, int], Tuple[Message, Place]] = {}
    is_whole = not any(unread_of(decoded))
    for message, form in line.messages:
        whys = []
        for own in _groups(form):
            identity = own["nid_c"], own["nid_bg"]
            if is_whole and identity[1] != NOT_KNOWN and identity not in decoded.by_identity:
                words = f"NID_LRBG is that of {describe_identity(identity)}, and the table has no such group"
                found.append(_remark(message, words, {"nid_bg": Decimal(identity[1])}))
            whys += [] if is_whole else [NOT_WHOLE]
        for report in _positions(form):
            found += _at_once(reported, message, dict(form), report)
            whys.append(lacks(decoded, report))
            found += [] if whys[-1] else _beyond(decoded, options, message, report)
        left.update([next(filter(None, whys))] if any(whys) else [])
    return Result(found, len(line.messages) - sum(left.values()), left, is_optional=True)


def _groups(form: Any) -> Iterator[Any]:
    """What has the identity of a reference group in a message."""
    if form["nid_message"] == MOVEMENT_AUTHORITY:
        yield form
    yield from _positions(form)


def _positions(form: Any) -> Iterator[Any]:
    """The position reports of a message."""
    if form["nid_message"] == REPORT:
        yield from (packet for packet in form["packets"] if packet["nid_packet"] in POSITIONS)


def _remark(message: Message, words: str, values: Dict[str, Decimal]) -> Remark:
    return Remark("E31", Location(message=message), words, None, values)


def _beyond(decoded: Decoded, options: Options, message: Message, report: Any) -> Iterator[Remark]:
    """A train that is beyond the next linked group."""
    data = decoded.by_identity.get((report["nid_c"], report["nid_bg"]))
    if data is None or data.place is None:
        return
    way, unit = data.group.along(DIRECTIONS[1 - report["q_dlrbg"]]) or 0, UNITS[report["q_scale"]]
    distance, doubt = (report[key] * unit for key in ("d_lrbg", "l_doubtover"))
    ahead: List[Tuple[int, Any]] = [
        ((each.place - data.place) * way, each.group)
        for each in decoded.along.get(data.group.track, ())
        if each.place is not None and each.group.linked
    ]
    following = min((each for each in ahead if each[0] > 0), key=lambda each: each[0], default=None)
    allowed = tolerance_of_lengths(options.tolerance_of_places, unit, doubt) + decoded.resolution
    if following is not None and distance - following[0] > allowed:
        words = (
            f"the train is {metres(distance)} from {data.group}, and has passed {following[1]}, {metres(following[0])} "
            "from it, which has Q_LINK 1: its NID_LRBG would be that group"
        )
        values = {"d_lrbg_m": Decimal(distance) / 10, "next_m": Decimal(following[0]) / 10}
        yield _remark(message, words, values)._replace(named=[data.group, following[1]])


def _at_once(
    reported: Dict[Tuple[int, int], Tuple[Message, Place]], message: Message, form: Any, report: Any
) -> Iterator[Remark]:
    """A train that was at another place at the same time."""
    place = Place.of(report)
    first, other = reported.setdefault((form["nid_engine"], form["t_train"]), (message, place))
    if form["t_train"] != NOT_KNOWN_TIME and place.differs(other):
        words = (
            f"at T_TRAIN {form['t_train']} the train {form['nid_engine']} is {place}, and {other} by the message of "
            f"{describe_message(first)}"
        )
        made = _remark(message, words, {"t_train": Decimal(form["t_train"])})
        yield made._replace(compared=[Location(message=first)])


RULE = Rule("E31", "radio messages", __doc__ or "", find, Urgency.WRONG_INFORMATION)

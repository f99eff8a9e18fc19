"""Words and merging that several rules E share."""
from __future__ import annotations

from typing import Dict, Iterable, List, Optional, Sequence, Tuple

from balisekit.etcs.variables import metres
from balisekit.rules.decoded import Decoded
from balisekit.rules.location import BaliseGroup
from balisekit.rules.passages import Passage
from balisekit.rules.rule import Remark
from balisekit.rules.telegrams import SPEEDS, Packet
from balisekit.tables.model import Row
from balisekit.tables.names import describe_message, quoted, rows_words


def balises_of(group: BaliseGroup) -> Sequence[Optional[Row]]:
    """The first row of each balise that has a kilometre, in nominal order, or None for a balise without one."""
    found: List[Optional[Row]] = [None] * group.balises
    for aspect in group.group.aspects:
        for position, row in enumerate(aspect.rows):
            if row.km is not None and found[position] is None:
                found[position] = row
    return found


def source(passage: Passage, packet: Packet) -> str:
    """Who says a packet: `Signal 3 (km 13.000), aspect "green", row 10`, or the message."""
    if passage.message is not None or packet.row is None or passage.group is None:
        return f"the message in {describe_message(passage.message)}" if passage.message else "a message"
    aspect = f", aspect {quoted(packet.row.aspect)}" if packet.row.aspect not in ("", "*") else ""
    return f"{passage.group.group}{aspect}, {rows_words([packet.row.number])}"


def at_place(decoded: Decoded, passage: Passage, place: int) -> str:
    """A place by its kilometre, and by its distance from the group of a passage."""
    apart = (place - (passage.place(0) or 0)) * (passage.way or 1)
    side = "in rear of" if apart < 0 else "from"
    return f"{decoded.km(passage.track, place)} ({metres(abs(apart))} {side} the group)"


def between(decoded: Decoded, passage: Passage, begin: int, end: int) -> str:
    """The kilometres of these distances from the group, if they are known."""
    low, high = passage.place(begin), passage.place(end)
    if low is None or high is None:
        return ""
    return f" ({decoded.km(passage.track, low)} to {decoded.km(passage.track, high)})"


def more_stretches(count: int) -> str:
    """That profiles differ on this many stretches beside the one that is named."""
    return f"; they differ on {count} other stretch{'es' if count > 1 else ''} too" if count else ""


def profile_value(packet: Packet, value: int) -> str:
    """A value of a packet 27 or 21 with what it is."""
    if packet.number == SPEEDS:
        return f"V_STATIC {value * 5} km/h [{value}]"
    return f"a gradient of {value:+} ‰" if value else "0 ‰"


def merged(remarks: Iterable[Remark]) -> Sequence[Remark]:
    """The remarks, and as one those of a group and direction that say the same of several rows."""
    found: Dict[Tuple[object, ...], List[Remark]] = {}
    for remark in remarks:
        where = remark.location
        key = where.group or where.message, where.direction, where.number, where.link, remark.sentence
        found.setdefault(key, []).append(remark)
    return [_one_of(same) for same in found.values()]


def _one_of(remarks: Sequence[Remark]) -> Remark:
    first = remarks[0]
    rows = {each.location.row.number: each.location.row for each in remarks if each.location.row}
    if len(remarks) < 2:
        return first
    aspects = tuple(dict.fromkeys(row.aspect for row in rows.values() if row.aspect not in ("", "*")))
    compared = tuple(dict.fromkeys(where for each in remarks for where in each.compared))
    facts = [fact for each in remarks for fact in each.facts]
    return first._replace(rows=tuple(sorted(rows)), aspects=aspects, compared=compared, facts=facts)

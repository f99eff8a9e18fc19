"""Signals none of whose aspects stops trains: one beside others that have a stop aspect, or all of a table. For E8."""
from __future__ import annotations

from decimal import Decimal
from typing import Dict, Iterator, List, NamedTuple, Sequence, Tuple

from balisekit.rules.decoded import Decoded
from balisekit.rules.facts import counted, sender
from balisekit.rules.meaning.along import extents_of, lane_of
from balisekit.rules.meaning.siblings import AUTHORITY
from balisekit.rules.passages import GroupData, Passage
from balisekit.rules.rule import Remark
from balisekit.rules.telegrams import LEVELS, Packet
from balisekit.tables.grouping import EVERY

OTHERS, FEWEST = 5, 3
"""How many other signals must have a stop aspect, and of how many signals without any a note speaks."""


class Signal(NamedTuple):
    """A group that lets trains of a direction proceed."""

    data: GroupData
    passages: Sequence[Passage]
    """Its aspects in this direction."""

    @property
    def proceeding(self) -> Sequence[Passage]:
        """The aspects that let trains proceed."""
        return [each for each in self.passages if any(packet.form["v_main"] for packet in _authorities(each))]

    @property
    def is_named(self) -> bool:
        """Whether its aspects have names: then E9 compares the V_MAIN of their namesakes."""
        return any(each.name not in ("", EVERY) for each in self.data.group.group.aspects)

    @property
    def stops(self) -> bool:
        """Whether an aspect does not let trains proceed."""
        return len(self.proceeding) < len(self.data.group.group.aspects)


def signals_without_stop(decoded: Decoded) -> Tuple[Sequence[Remark], Sequence[str]]:
    """Looks at the groups that let trains proceed before a packet 136.

    A note says if no signal of the table has a stop aspect.
    """
    signals = [signal for data in decoded.speaking if not data.group.unread for signal in _of_group(data)]
    without = [each for each in signals if not each.stops and not each.is_named]
    several = [each for each in signals if len(each.data.group.group.aspects) > 1]
    notes = []
    if several and len(several) >= FEWEST and not any(each.stops for each in several):
        notes.append(
            f"E8: no aspect of {len(several)} signals has V_MAIN 0: each of their aspects lets trains proceed, "
            "also the one that should stop them"
        )
    stopping = sum(each.stops for each in signals)
    found = list(_found(decoded, without[0], signals)) if len(without) == 1 and stopping >= OTHERS else []
    return found, notes


def _of_group(data: GroupData) -> Iterator[Signal]:
    """The group for each direction in which it lets trains proceed."""
    by_direction: Dict[str, List[Passage]] = {}
    for passage in data.passages:
        by_direction.setdefault(passage.direction, []).append(passage)
    signals = (Signal(data, own) for own in by_direction.values())
    return (signal for signal in signals if signal.proceeding)


def _authorities(passage: Passage) -> Sequence[Packet]:
    """Its packets 12."""
    return passage.of(AUTHORITY)


def _found(decoded: Decoded, signal: Signal, signals: Sequence[Signal]) -> Iterator[Remark]:
    """A remark on the signal, unless it is at the begin of a line or area."""
    first = signal.proceeding[0]
    if first.of(LEVELS) or not _has_others_in_rear(decoded, first):
        return
    count = sum(each.stops for each in signals)
    words = (
        f"this group always lets trains proceed in {first.direction} direction, and {count} of {len(signals) - 1} "
        "other signals have an aspect that does not: nothing stops a train here"
    )
    facts = [counted(sender(each) for other in signals if other.stops for each in other.proceeding)]
    rows = tuple(sorted({row.number for row in signal.data.group.group.rows()}))
    values = {"signals": Decimal(len(signals) - 1), "with_stop_aspect": Decimal(count)}
    yield Remark("E8", signal.data.location(), words, values=values, rows=rows, facts=facts)


def _has_others_in_rear(decoded: Decoded, passage: Passage) -> bool:
    """Whether a group in rear gives authorities for this track and way."""
    place, way = passage.place(0), passage.way
    low, high = extents_of(decoded).get(lane_of(passage), (0, 0))
    return place is not None and way is not None and (low if way == 1 else high) * way < place * way

"""The stop aspects of a table, and which of them lack the order to stop in staff responsible mode: for E8 and E24."""
from __future__ import annotations

from typing import Collection, Dict, List, NamedTuple, Sequence, Tuple

from balisekit.rules.decoded import Decoded, once
from balisekit.rules.meaning.siblings import AUTHORITY
from balisekit.rules.passages import Passage
from balisekit.rules.telegrams import Packet

STOP_IN_SR, STOPS = 137, 5
"""NID_PACKET of the order, and the fewest stop aspects of a table that are compared."""


class Stops(NamedTuple):
    """The stop aspects of a table by their packets 137."""

    stops: int
    having: Sequence[Passage]
    """Those with "stop"."""
    lacking: Sequence[Passage]
    """Those without a packet 137. None if fewer than four of five stop aspects have it."""

    @property
    def aspects(self) -> Collection[Tuple[int, str]]:
        """The groups and aspects that lack it."""
        return {(id(each.group), each.aspect) for each in self.lacking}


@once
def stopping(decoded: Decoded) -> Sequence[Passage]:
    """The passages of groups with a stop aspect."""
    return [passage for data in decoded.speaking for passage in data.passages if stops_of(passage)]


def stops_of(passage: Passage) -> List[Packet]:
    """The packets 12 with V_MAIN 0."""
    return [packet for packet in passage.said if packet.number == AUTHORITY and packet.form["v_main"] == 0]


def packet_of_stop(passage: Passage) -> Tuple[int, str, int]:
    """A stop aspect by its group and packet 12: with Q_DIR 2 that stops the trains of both directions."""
    return id(passage.group), passage.aspect, id(stops_of(passage)[0])


@once
def stops_without_order(decoded: Decoded) -> Stops:
    """The stop aspects, and those without a packet 137, if at least four of five have it with "stop"."""
    stops: Dict[Tuple[int, str, int], List[Passage]] = {}
    for each in stopping(decoded):
        stops.setdefault(packet_of_stop(each), []).append(each)
    said = [(own[0], [packet for each in own for packet in each.of(STOP_IN_SR)]) for own in stops.values()]
    having = [first for first, packets in said if any(packet.form.get("q_srstop") == 0 for packet in packets)]
    are_many = len(stops) >= STOPS and len(having) * 5 >= len(stops) * 4
    return Stops(len(stops), having, [first for first, packets in said if are_many and not packets])

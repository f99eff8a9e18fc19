"""Where mode profiles begin, at one signal otherwise than at all others. For E26."""
from __future__ import annotations

from collections import Counter
from typing import Any, Dict, Iterator, List, NamedTuple, Tuple

from balisekit.etcs.variables import metres
from balisekit.rules.decoded import Decoded
from balisekit.rules.facts import counted, sender
from balisekit.rules.meaning.sent import Fault, distance, remark
from balisekit.rules.meaning.words import source
from balisekit.rules.passages import Passage
from balisekit.rules.rule import Remark
from balisekit.rules.telegrams import Packet

MODES, LEAST = 80, 3
"""NID_PACKET of a mode profile, and how many other signals must agree."""


class Begin(NamedTuple):
    """The first mode of a packet 80."""

    passage: Passage
    packet: Packet

    @property
    def distance(self) -> int:
        """D_MAMODE in decimetres."""
        form: Any = self.packet.form
        return int(form["elements"][0]["d_mamode"]) * self.packet.unit

    @property
    def mode(self) -> int:
        """M_MAMODE."""
        form: Any = self.packet.form
        return int(form["elements"][0]["m_mamode"])

    @property
    def signal(self) -> Tuple[int, str]:
        """The group, and the direction of its trains."""
        return id(self.passage.group), self.passage.direction


def unlike_begins(decoded: Decoded) -> Iterator[Remark]:
    """The first modes of one signal that begin elsewhere than those of all others."""
    by_mode: Dict[int, List[Begin]] = {}
    for passage in decoded.passages:
        for packet in passage.of(MODES) if passage.message is None else ():
            if "elements" in packet.form:
                begin = Begin(passage, packet)
                by_mode.setdefault(begin.mode, []).append(begin)
    for some in by_mode.values():
        usual = Counter(each.distance for each in some).most_common(1)[0][0]
        odd = [each for each in some if each.distance != usual]
        signals = {each.signal for each in odd}
        others = [each for each in some if each.signal not in signals]
        if len(signals) == 1 and len({each.signal for each in others}) >= LEAST:
            yield from (_remark(each, others) for each in odd)


def _remark(begin: Begin, others: List[Begin]) -> Remark:
    """A remark on a mode that begins elsewhere."""
    usual, count = others[0], len({each.signal for each in others})
    words = (
        f"D_MAMODE is {metres(begin.distance)}, and {metres(usual.distance)} at all {count} other signals with this "
        f"mode, such as {source(usual.passage, usual.packet)}"
    )
    values = {"d_mamode_m": distance(begin.distance), "other_d_mamode_m": distance(usual.distance)}
    made = remark("E26", begin.passage.at(begin.packet), [Fault(words, values, [("d_mamode", 0)])])
    facts = [counted(sender(each.passage, each.packet) for each in others)]
    return made._replace(compared=[usual.passage.at(usual.packet)], facts=facts)

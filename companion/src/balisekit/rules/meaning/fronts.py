"""Where a lower speed ends, and for which end of the train: steps up of speed profiles at their places, for E13."""
from __future__ import annotations

from collections import Counter
from decimal import Decimal
from typing import Dict, Iterator, List, NamedTuple, Sequence, Tuple

from balisekit.etcs.variables import Around, value_words
from balisekit.rules.decoded import Decoded
from balisekit.rules.facts import counted, sender
from balisekit.rules.meaning.along import Lane, lane_of, leaves, parts
from balisekit.rules.meaning.sent import kmh
from balisekit.rules.meaning.words import merged, source
from balisekit.rules.passages import Passage
from balisekit.rules.rule import Options, Remark
from balisekit.rules.telegrams import SPEEDS, Packet, allowance

BEHIND_POINT = "beyond a point of the plan"
"""Why a place is not compared."""
Speeds = Tuple[int, int]
"""The lower and the higher V_STATIC, as they are sent."""


class Step(NamedTuple):
    """Where a packet 27 goes from one V_STATIC to a higher one."""

    place: int
    speeds: Speeds
    front: int
    """Q_FRONT of the lower speed."""
    element: int
    passage: Passage
    packet: Packet

    @property
    def words(self) -> str:
        """Q_FRONT with its meaning."""
        return value_words("q_front", self.front, Around(self.packet.form))


def fronts(decoded: Decoded, options: Options, left: Counter[str]) -> Sequence[Remark]:
    """The steps whose Q_FRONT is not the usual one of their place, each once for all aspects that send it.

    It counts what is left out.
    """
    steps = _steps_of(decoded, options, left)
    table = Counter(step.front for own in steps.values() for step in own)
    found: List[Remark] = []
    for own in steps.values():
        if len({step.front for step in own}) > 1:
            for part in parts(sorted(own, key=lambda each: each.place), _tolerance(decoded, options, own)):
                found += _differing(decoded, part, table)
    return merged(found)


def _steps_of(decoded: Decoded, options: Options, left: Counter[str]) -> Dict[Tuple[Lane, Speeds], List[Step]]:
    """The steps of each track and way, by their speeds. Those beyond a point of the track plan are left out."""
    found: Dict[Tuple[Lane, Speeds], Dict[Tuple[int, str, int], Step]] = {}
    for passage in decoded.passages:
        for packet in passage.of(SPEEDS) if not passage.lacks else ():
            for number, (low, high) in enumerate(zip(packet.stretches, packet.stretches[1:])):
                place = passage.place(high.begin)
                if low.value >= high.value or place is None:
                    continue
                is_behind = leaves(options, decoded, passage, place)
                left[BEHIND_POINT] += is_behind
                if not is_behind:
                    speeds = low.value, high.value
                    step = Step(place, speeds, low.element["q_front"], number, passage, packet)
                    found.setdefault((lane_of(passage), speeds), {})[id(packet), passage.direction, number] = step
    return {key: list(own.values()) for key, own in found.items()}


def _tolerance(decoded: Decoded, options: Options, steps: Sequence[Step]) -> int:
    """By how much the places of one step may differ."""
    rounding = max(allowance(step.packet, len(step.packet.stretches)) for step in steps)
    return decoded.tolerance(options.tolerance_of_places, rounding)


def _differing(decoded: Decoded, part: Sequence[Step], table: Counter[int]) -> Iterator[Remark]:
    """The steps at one place whose Q_FRONT is not the usual one there."""
    counts = Counter(step.front for step in part)
    usual = max(part, key=lambda each: (counts[each.front], table[each.front]))
    for step in (each for each in part if each.front != usual.front):
        low, high = (f"{value * 5} km/h" for value in step.speeds)
        sentence = (
            f"at {decoded.km(step.passage.track, step.place)}, where V_STATIC rises from {low} to {high}, Q_FRONT is "
            f"{step.front} ({step.words}), and {usual.front} by {source(usual.passage, usual.packet)}"
        )
        row, where = step.packet.row, step.passage.at(step.packet)
        values = {
            "q_front": Decimal(step.front),
            "other_q_front": Decimal(usual.front),
            "v_static_kmh": kmh(step.speeds[0]),
        }
        facts = [counted(sender(each.passage, each.packet) for each in part if each.front == usual.front)]
        made = Remark("E13", where, sentence, values=values, facts=facts)
        blamed = [(row.number, step.packet.place, "q_front", step.element)] if row else []
        yield made._replace(blamed=blamed, compared=[usual.passage.at(usual.packet)])

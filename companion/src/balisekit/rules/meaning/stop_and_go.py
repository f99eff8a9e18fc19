"""Orders to stop or go in staff responsible mode and shunting that contradict V_MAIN. For E24."""
from __future__ import annotations

from typing import Iterator, List, NamedTuple, Sequence

from balisekit.rules.meaning.namesakes import AUTHORITY, Case, Cases, Odd, Value, agreeing, at_signals
from balisekit.rules.meaning.sent import speed

GO = 1
"""The Q_SRSTOP and Q_ASPECT that let a train run."""
FOR_EACH = 4
"""How many signals must have the other value for each of several signals with "stop" beside a V_MAIN above 0."""


class Contrary(NamedTuple):
    """The orders that contradict V_MAIN."""

    odd: Sequence[Odd]
    """Those that other signals contradict."""
    left: Sequence[Case]
    """The aspects of the others: several signals have such an order there, or none has the other value."""


def contrary_orders(cases: Cases) -> Contrary:
    """Looks at the packets 137 and 132 of the aspects of each name."""
    odd: List[Odd] = []
    left: List[Case] = []
    for own in cases.values():
        for number, key in ((137, "q_srstop"), (132, "q_aspect")):
            packets = [(case, case.first(number)) for case in own]
            values = [
                Value(case, packet, packet.form, key) for case, packet in packets if packet and key in packet.form
            ]
            for sent in sorted({each.sent for each in values}):
                wrong = [each for each in values if each.sent == sent and _contradicts(each)]
                found = list(_outliers(values, wrong))
                odd += found
                left += [] if found else [each.case for each in wrong]
    return Contrary(odd, left)


def _outliers(values: Sequence[Value], wrong: Sequence[Value]) -> Iterator[Odd]:
    """Those that contradict V_MAIN, if they are of one signal, or say "stop" and four times as many say "go".

    Several signals may let trains pass at danger.
    """
    signals = {each.case.signal for each in wrong}
    others = [each for each in values if wrong and each.sent != wrong[0].sent and each.case.signal not in signals]
    right = {each.case.signal for each in others}
    is_lone = len(signals) == 1 or wrong and wrong[0].sent != GO and len(right) >= FOR_EACH * len(signals)
    if not right or not is_lone:
        return
    for each in wrong:
        words = f"{each.name} is {each.words}, although V_MAIN is {speed(each.case.speed)}"
        rest = f"{others[0].words} {at_signals(*agreeing(values, each.case.signal, others[0]))} with it"
        yield Odd(each.case, each.packet, each.key, f"{words}, and {rest}", each.sent, others[0].sent)


def _contradicts(value: Value) -> bool:
    """Whether it says go beside V_MAIN 0, or packet 137 says stop beside a V_MAIN above 0."""
    if value.case.first(AUTHORITY) is None:
        return False
    return value.sent == GO if not value.case.speed else value.sent != GO and value.key == "q_srstop"

"""E27: radio block centres.

What it says. Packets 42 (session management) or 131 (RBC transition order) contradict each other about a radio block
centre (RBC), or NID_RADIO is no telephone number. The proved program does not decode these packets: balisekit decodes
them by layouts of its own. The rule rests on SUBSET-026, 3.5, 3.15.1 and 7.5.1.
- No telephone number: NID_RADIO has a digit from A to E, or an F before another digit. The short number is 16 times F,
  and it is allowed.
- Two numbers: packets for the same NID_C and NID_RBC have different NID_RADIO.
- Two centres: packets with the same NID_RADIO have different NID_C or NID_RBC.
- Borders: packets 131 give different RBC, although their places are at most 500 m apart. Or they give different places
  for one RBC, however far these are apart. Only packets for trains that run the same way on the same track are
  compared. Places may differ by `--tolerance` (default 1 m) and rounding.
- Places more than 500 m apart are not compared in two cases. A packet 42 or 131 between them names another RBC, so that
  trains leave the first RBC and come back. Or packets 5 lead to another track before the place, which is counted.
- A packet 131 with D_RBCTR 0 or 32,767 (now) is for the place of its group. It is not reported if two other packets, or
  another "now", give the border for its RBC in rear of it. Then it repeats the order.
- The most frequent number, RBC or place counts as right, and the other packets are reported. Of equally frequent
  numbers or RBC, the first one counts as right: packets 42 in the order of the table come first, then packets 131. Of
  equally frequent borders, that of a packet with "now" counts as right, and then the border at the lowest kilometre.
- A number is not compared with other packets if it is the short number or no telephone number. It is not compared
  either if its packet has Q_RBC 0, or NID_RBC 16,383 (the RBC that was known last).

Why it matters. At worst the train brakes without need. The train calls a wrong number or a wrong RBC, and has no
movement authority at the border.

Example. Before (`examples/meaning/mistakes/E27.csv`): the packet of Signal 3 (km 13.000) gives RBC 1 of country 352 the
number 0123465789, and 2 other packets give it 0123456789. After: all packets have the same number.

When it is a false alarm. The rule assumes that each RBC has one telephone number. An RBC might have several numbers,
such as one for each of two radio networks. Two RBC might share a number during a change of systems. The rule assumes
that packets 131 within 500 m are for one border. There might be two borders, one of them on another route. It assumes
that trains change to an RBC at one place of a track. They might come back to it after a part without packets 42 and
131. {kilometres}

Usual cause. A digit of the number was typed wrongly, or NID_RADIO, NID_RBC or D_RBCTR was changed in one group only.

How to correct it. Correct NID_RADIO, NID_C, NID_RBC or D_RBCTR according to the list of radio block centres.

How to accept it. Name the list that gives this RBC two numbers, or the routes of both borders.

How sure. 90 %, by practice and memory of the standard.
"""
from __future__ import annotations

from collections import Counter
from decimal import Decimal
from typing import Any, Callable, Dict, Iterator, List, NamedTuple, Sequence

from balisekit.expressions import expression
from balisekit.rules.decoded import Owner
from balisekit.rules.facts import counted, origin
from balisekit.rules.line import Line
from balisekit.rules.meaning.along import passed_over
from balisekit.rules.meaning.radio_borders import SESSION, TRANSITION, Centre, borders, centre_words
from balisekit.rules.meaning.sent import Fault, located, remark, sent
from balisekit.rules.meaning.words import merged
from balisekit.rules.rule import Options, Remark, Result, Rule, Urgency
from balisekit.rules.telegrams import Packet
from balisekit.tables.names import rows_words

LAST_KNOWN = 16_383
"""NID_RBC of the RBC that was known last."""
NOT_DECODED = "not decoded"
SHORT, NUMBER = "f" * 16, expression("[0-9]+f*")


class Call(NamedTuple):
    """A packet that gives an RBC with its number."""

    owner: Owner
    packet: Packet

    @property
    def form(self) -> Any:
        """Its fields."""
        return self.packet.form

    @property
    def centre(self) -> Centre:
        """The RBC."""
        return self.form["nid_c"], self.form["nid_rbc"]

    @property
    def digits(self) -> str:
        """NID_RADIO as 16 digits."""
        return f"{self.form['nid_radio']:016x}"

    @property
    def left(self) -> str:
        """Why it is not compared with other packets. Empty if a train calls this number of this RBC."""
        if self.form.get("q_rbc", 1) != 1:
            return "Q_RBC 0"
        if self.centre[1] == LAST_KNOWN:
            return "the RBC that was known last"
        other = "the short number" if self.digits == SHORT else "no telephone number"
        return "" if NUMBER.fullmatch(self.digits) else other


def find(line: Line, options: Options) -> Result:
    """Compares the numbers of the whole table, and the borders of each track."""
    calls = [Call(*each) for each in sent(line.decoded, SESSION, TRANSITION) if "nid_radio" in each[1].form]
    of_borders, apart = borders(line.decoded, options)
    found = [
        *_wrong_digits(calls),
        *_unlike(calls, lambda each: each.centre, lambda each: each.digits, _number_words),
        *_unlike(calls, lambda each: each.digits, lambda each: each.centre, _centre_words),
        *of_borders,
    ]
    lacks = passed_over(line.decoded, lambda each: each.number == TRANSITION)
    left = Counter(call.left for call in calls if call.left) + Counter(apart) + lacks
    left[NOT_DECODED] = sum("nid_radio" not in packet.form for _, packet in sent(line.decoded, SESSION, TRANSITION))
    return Result(merged(found), len(calls) - sum(bool(call.left) for call in calls), +left, is_optional=True)


def _wrong_digits(calls: Sequence[Call]) -> Iterator[Remark]:
    """Numbers that nobody can dial."""
    for call in calls:
        if call.digits != SHORT and not NUMBER.fullmatch(call.digits):
            words = f"NID_RADIO is {call.digits.upper()}, which is no telephone number filled up with F"
            yield _remark(call, Fault(words, {"nid_radio": Decimal(call.form["nid_radio"])}, [("nid_radio", None)]))


def _unlike(
    calls: Sequence[Call],
    key: Callable[[Call], Any],
    value: Callable[[Call], Any],
    words: Callable[[Call, Call, int], Fault],
) -> Iterator[Remark]:
    """The packets whose value is not the usual one of their key."""
    by_key: Dict[Any, List[Call]] = {}
    for call in calls:
        if not call.left:
            by_key.setdefault(key(call), []).append(call)
    for own in by_key.values():
        counts = Counter(map(value, own))
        usual = max(own, key=lambda each: counts[value(each)])
        facts = [counted(f"{origin(located(each.owner, each.packet))} {value(each)}" for each in own)]
        for call in own:
            if value(call) != value(usual):
                made = _remark(call, words(call, usual, counts[value(usual)]))
                yield made._replace(compared=[located(usual.owner, usual.packet)], facts=facts)


def _number_words(call: Call, usual: Call, count: int) -> Fault:
    """One RBC with two numbers."""
    own, other = (each.digits.rstrip("f") for each in (call, usual))
    words = f"{centre_words(call.centre)} has the number {own}, and {other} by {_others(usual, count)}"
    values = {"nid_radio": Decimal(call.form["nid_radio"]), "other_nid_radio": Decimal(usual.form["nid_radio"])}
    return Fault(words, values, [("nid_radio", None)])


def _centre_words(call: Call, usual: Call, count: int) -> Fault:
    """One number of two RBC."""
    own, other = (centre_words(each.centre) for each in (call, usual))
    words = f"the number {call.digits.rstrip('f')} is that of {own}, and that of {other} by {_others(usual, count)}"
    keys = [("nid_c", None) if call.centre[0] != usual.centre[0] else ("nid_rbc", None)]
    return Fault(words, {"nid_rbc": Decimal(call.centre[1]), "other_nid_rbc": Decimal(usual.centre[1])}, keys)


def _others(usual: Call, count: int) -> str:
    """Who agrees about what is usual."""
    name = f"packet {usual.packet.number} in "
    where = rows_words([usual.packet.row.number]) if usual.packet.row else "a message"
    return f"{count} other packet{'s' if count > 1 else ''}, such as {name}{where}"


def _remark(call: Call, fault: Fault) -> Remark:
    return remark("E27", located(call.owner, call.packet), [fault])


RULE = Rule("E27", "radio block centres", __doc__ or "", find, Urgency.BRAKING)

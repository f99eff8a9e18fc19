"""What packets 41 and 46 for one border say beside its place: levels, and where drivers acknowledge. For E18."""
from __future__ import annotations

from collections import Counter
from decimal import Decimal
from typing import Iterator, Sequence

from balisekit.etcs.variables import metres
from balisekit.rules.decoded import Decoded
from balisekit.rules.meaning.orders import Order
from balisekit.rules.meaning.words import source
from balisekit.rules.rule import Remark


def unlike_levels(
    decoded: Decoded, orders: Sequence[Order], usual: Order, conditional: Sequence[Order]
) -> Iterator[Remark]:
    """The packets 46 beyond a border whose levels no packet 41 for it has."""
    known = [order.levels for order in orders]
    for order in (each for each in conditional if each.levels not in known):
        by = f"{source(usual.passage, usual.packet)}, {'has' if usual.is_now else 'announces'}"
        place = decoded.km(usual.passage.track, usual.place)
        sentence = f"the levels are {order.words}, and packet 41 of {by} {usual.words} at {place}"
        where, compared = order.passage.at(order.packet), [usual.passage.at(usual.packet)]
        values = {**order.values(), **usual.values("other_")}
        yield Remark("E18", where, sentence, None, values, compared=compared)


def unlike_lengths(orders: Sequence[Order]) -> Iterator[Remark]:
    """The announcements of one place whose L_ACKLEVELTR is not the most frequent one."""
    announced = [order for order in orders if not order.is_now]
    counts = Counter((order.place, *_acknowledged(order)) for order in announced)
    for order in announced:
        others = [each for each in announced if (each.place, each.levels) == (order.place, order.levels)]
        usual = max(others, key=lambda each: counts[(each.place, *_acknowledged(each))])
        for place, (own, other) in enumerate(zip(_acknowledged(order), _acknowledged(usual))):
            if own != other:
                words = f"L_ACKLEVELTR is {metres(own)}, and {metres(other)} by {source(usual.passage, usual.packet)}"
                values = {"l_ackleveltr_m": Decimal(own) / 10, "other_l_ackleveltr_m": Decimal(other) / 10}
                where, compared = order.passage.at(order.packet), [usual.passage.at(usual.packet)]
                made = Remark("E18", where, words, None, values, compared=compared)
                row = order.packet.row
                fields = [(row.number, order.packet.place, "l_ackleveltr", place)] if row else []
                yield made._replace(blamed=fields)


def _acknowledged(order: Order) -> Sequence[int]:
    """Each L_ACKLEVELTR in decimetres."""
    return [each["l_ackleveltr"] * order.packet.unit for each in order.packet.form["transitions"]]

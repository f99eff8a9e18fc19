"""E18: level transition.

What it says. The packets 41 for one level transition contradict each other, or no group orders the transition at the
announced place. The rule rests on SUBSET-026, 5.10 and 7.4.2.
- A packet 41 with D_LEVELTR 0 or 32,767 (now) is an order at its group. Any other packet 41 is an announcement, and
  D_LEVELTR leads to its place.
- Places: all announcements and orders of one transition must have one place. Places may differ by `--tolerance`
  (default 1 m) and rounding.
- Levels: all announcements and orders of one transition must have the same M_LEVELTR and NID_NTC in the same order.
- L_ACKLEVELTR: announcements of one place with the same levels must have the same L_ACKLEVELTR.
- Packet 46 (conditional level transition order): at the border, or up to 500 m beyond it, this packet must have the
  levels of a packet 41 for the border. They must be in the same order. The proved program does not decode it:
  balisekit decodes it by a layout of its own.
- Missing order: announcements between the first and the last group of the track need an order within 500 m of their
  place. One remark names all packets that announce this place.
- Packets for trains that run the same way on the same track belong to one transition if each place is at most 500 m
  from the next one.
- The place and levels of the order count as right. If there are several orders, the order with the most announcements
  of its place counts. Of orders with equally many announcements, the first order that a train passes counts. Without an
  order, the most frequent place counts.
- A later order with the same levels is not reported, because it repeats the first order.
- An announcement is counted as not compared if packets 5 sent with it lead to another track before the announced place.
- A missing order is not reported if a group near the place might have the order. Such a group has a refused telegram,
  or it orders a level and its direction is unknown. If the kilometre of such a group is unknown, the group counts as
  near. In the same way, an announcement that leads to such a group in front of the order is not reported.
- A missing order is not reported if packets 5 sent with the announcement lead to another track beyond the announced
  place. The order might be on that track.
- Rule E5 reports a packet 41 with a distance for both directions.

Why it matters. At worst the train gets wrong information. A driver acknowledges at one place, and the train changes its
level at another. Or the train goes on in a level that the track there does not support.

Example. Before (`examples/meaning/mistakes/E18.csv`): by D_LEVELTR 2,250 m Signal 4 announces the level transition at
km 16.750, and the group Border orders it at km 16.700. After: D_LEVELTR is 2,200 m.

When it is a false alarm. The rule assumes that all packets 41 within 500 m are for one border. There might be two
borders, one of them on another route, or orders for trains that start there. It assumes that all packets 41 for a
border lead to one place. A packet with D_LEVELTR 0 or 32,767 might be some metres from the border. It assumes that all
packets 41 for a border have the same levels, but the announcement and the border might differ on purpose. It assumes
that drivers acknowledge in one area, but L_ACKLEVELTR might depend on the speed at each signal. It assumes that a group
of the table orders the change, but the last announcement might be the only order. Trains might also leave the track:
they can run through a loop, or take a route to another track that no packet 5 shows. {kilometres} {missing}

Usual cause. D_LEVELTR was typed wrongly, D_LEVELTR was not corrected when the border moved, or the border has no packet
41.

How to correct it. Correct each D_LEVELTR according to the kilometre of the border, or put a packet 41 into the group at
the border.

How to accept it. Name the borders or routes of the packets that differ.

How sure. 88 %, by practice and memory of the standard.
"""
from __future__ import annotations

from collections import Counter
from typing import Iterator, Optional, Sequence, Tuple

from balisekit.etcs.variables import metres
from balisekit.rules.decoded import Decoded
from balisekit.rules.line import Line
from balisekit.rules.meaning.along import leads_elsewhere, parts, unread_of
from balisekit.rules.meaning.border_levels import unlike_lengths, unlike_levels
from balisekit.rules.meaning.orders import (
    NEAR,
    Order,
    conditional_orders,
    orders_of,
    unplaced_orders,
    without_direction,
)
from balisekit.rules.meaning.words import at_place, merged, source
from balisekit.rules.rule import Options, Remark, Result, Rule, Urgency

Unknown = Sequence[Tuple[str, Optional[int]]]
"""Tracks and places of groups that may order a level."""


def find(line: Line, options: Options) -> Result:
    """Compares the orders for one place."""
    decoded, found, looked_at = line.decoded, [], 0
    leaving: Counter[str] = Counter()
    unknown = [*without_direction(decoded), *unread_of(decoded)]
    conditional = conditional_orders(decoded)
    for lane, orders in orders_of(decoded).items():
        reasons = [_leaves(decoded, order) for order in orders]
        staying = [order for order, why in zip(orders, reasons) if not why]
        looked_at += len(staying)
        leaving.update(filter(None, reasons))
        for part in parts(staying, NEAR):
            usual = _usual(part)
            found += [*_compare(decoded, options, part, usual, unknown), *unlike_lengths(part)]
            beyond = [each for each in conditional.get(lane, ()) if 0 <= each.along - usual.along <= NEAR]
            looked_at += len(beyond)
            found += unlike_levels(decoded, part, usual, beyond)
            found += [] if usual.is_now else list(_unordered(decoded, part, usual, unknown))
    return Result.of_places(merged(found), looked_at, unplaced_orders(decoded), leaving)


def _leaves(decoded: Decoded, order: Order) -> str:
    """Why packets 5 of an aspect with an announcement leave its track before its place, or nothing."""
    return "" if order.is_now else leads_elsewhere(decoded, order.passage, order.packet, order.place)


def _usual(orders: Sequence[Order]) -> Order:
    """The first order at once along the way of those that are announced most often, or the most frequent one."""
    counts = Counter(each.place for each in orders if not each.is_now)
    return max(orders, key=lambda each: (each.is_now, counts[each.place], -each.along))


def _compare(
    decoded: Decoded, options: Options, orders: Sequence[Order], usual: Order, unknown: Unknown
) -> Iterator[Remark]:
    """The orders that differ from the usual one. One that announces a group which may order the level is right."""
    track = usual.passage.track
    hidden = [place for own, place in unknown if own == track and place is not None]
    for order in orders:
        tolerance = decoded.tolerance(options.tolerance_of_places, order.packet.unit, usual.packet.unit)
        if usual.is_now and order.along < usual.along and any(abs(each - order.place) <= tolerance for each in hidden):
            continue
        apart = abs(order.place - usual.place)
        if order.is_now and usual.is_now and order.along > usual.along and order.levels == usual.levels:
            continue  # repeated for trains that have missed the first one
        if apart > tolerance:
            places = [at_place(decoded, order.passage, each.place) for each in (order, usual)]
            sentence = (
                f"the level transition is at {places[0]} by D_LEVELTR, and at {places[1]} by "
                f"{source(usual.passage, usual.packet)}: they differ by {metres(apart)}"
            )
        elif order.levels != usual.levels:
            by = f"{source(usual.passage, usual.packet)}, {'has' if usual.is_now else 'announces'}"
            sentence = f"the levels are {order.words}, and {by} {usual.words} at {decoded.km(track, usual.place)}"
        else:
            continue
        where, compared = order.passage.at(order.packet), [usual.passage.at(usual.packet)]
        values = {**order.values(), **usual.values("other_")}
        marks = [(order.packet.row, where.direction, abs(order.place - (order.passage.place(0) or 0)))]
        yield Remark("E18", where, sentence, None, values, compared=compared, marks=marks)


def _unordered(decoded: Decoded, part: Sequence[Order], usual: Order, unknown: Unknown) -> Iterator[Remark]:
    """A place within the table at which no group orders the level. One without direction or telegram may do it.

    One remark names all that announce this place.
    """
    track = usual.passage.track
    places = [place for own, place in unknown if own == track]
    is_near = any(place is None or abs(place - usual.place) <= NEAR for place in places)
    may_leave = any(link.target and link.target.track != track for link in usual.passage.links)
    if decoded.is_inside(track, usual.place) and not is_near and not may_leave:
        sentence = (
            f"it announces {usual.words} at {decoded.km(track, usual.place)}, and no group within {NEAR // 10} m of "
            "that place has a packet 41 with D_LEVELTR 0 or 32,767 in this direction"
        )
        where, *also = dict.fromkeys(
            each.passage.at(each.packet) for each in [usual, *part] if each.place == usual.place
        )
        yield Remark("E18", where, sentence, None, usual.values(), also=also)


RULE = Rule("E18", "level orders", __doc__ or "", find, Urgency.WRONG_INFORMATION, needs_kilometres=True)

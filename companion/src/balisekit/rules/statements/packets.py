"""F8 and F9: packets of duplicates that differ, and packets that the rules do not know."""
from __future__ import annotations

from typing import List, Tuple

from balisekit.etcs.differences import CHANGED, REMOVED, Change, packet_differences, packet_pairs
from balisekit.etcs.geometry import holds
from balisekit.etcs.variables import Form
from balisekit.rules.statements.scene import Balise, Scene, Statement, packet_words
from balisekit.tables.names import ordinal

Held = List[Tuple[int, Form]]
"""Packets of a telegram, with their places in it."""


def duplicates_differ(scene: Scene) -> Statement:
    """F8: what differs first between the packets of two duplicates, as far as they hold in the direction."""
    own, other = scene.own, scene.aspect[scene.place + 1]
    these, those = (
        [(place, packet) for place, packet in enumerate(balise.form["packets"]) if holds(packet, direction)]
        for direction in [scene.finding.direction or ""]
        for balise in (own, other)
    )
    return packets_differ(own, other, str(other), these, those)


def packets_differ(own: Balise, other: Balise, where: str, these: Held, those: Held) -> Statement:
    """What differs first between packets of two telegrams, the second of which is in `where`."""
    mine, yours = ([packet for _, packet in held] for held in (these, those))
    is_order = sorted(map(str, mine)) == sorted(map(str, yours))
    for was, now in () if is_order else packet_pairs(mine, yours):
        if was is None and now is not None and yours[now] not in mine:
            words, number = packet_words(other.form, those[now][0]), yours[now]["nid_packet"]
            return Statement(f"{words} of {where}", other.rows, ", is missing here", packet=number)
        if now is None and was is not None and mine[was] not in yours:
            words, number = packet_words(own.form, these[was][0]), mine[was]["nid_packet"]
            return Statement(f"{words}, is missing in {where}", other.rows, packet=number)
        if was is not None and now is not None and mine[was] != yours[now]:
            words = packet_words(own.form, these[was][0])
            return _packet_differs(other, where, words, mine[was], yours[now])
    order = [", ".join(str(packet["nid_packet"]) for packet in packets) or "none" for packets in (mine, yours)]
    said = "stand in another order:" if is_order else "are"
    return Statement(f"the packets {said} {order[0]}, and {order[1]} in {where}", other.rows)


def _packet_differs(other: Balise, where: str, words: str, mine: Form, yours: Form) -> Statement:
    """The first difference between two packets of one number, and how many more there are."""
    first, *others = packet_differences(mine, yours)
    more = f"; {len(others)} more difference{'s' if len(others) > 1 else ''}" if others else ""
    part, number = _part(first), mine["nid_packet"]
    if first.kind == CHANGED:
        sentence = f"{first.name} of {part}{words}, is {first.old}, and {first.new} in {where}"
        return Statement(sentence, other.rows, more, {first.name: first.old, f"other_{first.name}": first.new}, number)
    if first.kind == REMOVED:
        return Statement(f"{part}{words}, is missing in {where}", other.rows, f": {first.old}{more}", packet=number)
    sentence = f"{part}packet {number} of {where}"
    return Statement(sentence, other.rows, f", is missing here: {first.new}{more}", packet=number)


def _part(change: Change) -> str:
    """Where in its packet a difference is: "the first difference of the second element of "."""
    steps = (step.name if step.item is None else f"{ordinal(step.item)} {step.name}" for step in change.where[::-1])
    return "".join(f"the {step} of " for step in steps)


def not_modelled(scene: Scene) -> Statement:
    """F9: the packet, by its number."""
    place = scene.finding.packet or 0
    number = scene.own.form["packets"][place]["nid_packet"]
    sentence = f"{packet_words(scene.own.form, place)}, reaches beyond its message: not judged"
    return Statement(sentence, values={"NID_PACKET": str(number)}, packet=number)

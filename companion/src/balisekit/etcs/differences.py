"""What differs between two telegrams or messages, field by field, with units.

Packets are paired by number, direction and order. Items of a list are paired so that the fewest fields differ: a list
that grew shows its new item, and not all that moved. Packets that the program keeps as bits are compared by variables
if their layout is known.
"""
from __future__ import annotations

from typing import Any, Callable, Dict, Iterator, List, NamedTuple, Optional, Sequence, Tuple

from balisekit.etcs.packets import packet_name
from balisekit.etcs.raw_packets import content_of, layout_words, with_content
from balisekit.etcs.variables import (
    DIRECTIONS,
    Around,
    Form,
    Values,
    in_order,
    label_of,
    value_texts,
    value_words,
    variable_name,
)
from balisekit.tables.names import ordinal

Pair = Tuple[Optional[int], Optional[int]]
"""Indices in the old list and in the new one. One of them can be None."""
CHANGED, ADDED, REMOVED, MOVED = "changed", "added", "removed", "moved"
PACKET_KEYS: Sequence[Callable[[Values], object]] = (
    lambda packet: (packet["nid_packet"], packet.get("q_dir")),
    lambda packet: packet["nid_packet"],
)
"""What packets are paired by, and then those that are left."""


class PathStep(NamedTuple):
    """A packet, or a part of it: what it is called, and which item of its list it is."""

    name: str
    item: Optional[int] = None
    is_old: bool = False
    """Whether only the old release has it."""

    def __str__(self) -> str:
        item = "" if self.item is None else f" {self.item}"
        return f"{self.name}{item}{' of the old release' if self.is_old else ''}"


Where = Tuple[PathStep, ...]
"""A packet, a part of it, a part of that; nothing in the header."""


class Change(NamedTuple):
    """A field that differs, or a part that only one of the two has."""

    kind: str
    where: Where
    name: str = ""
    """The standard's name of the field, if it is one field."""
    old: str = ""
    new: str = ""

    @property
    def where_words(self) -> str:
        """The packet and its part; empty in the header."""
        return "  ".join(map(str, self.where))

    def __str__(self) -> str:
        where = f"{self.where_words}  " if self.where else ""
        if self.kind == MOVED:
            return "the packets stand in another order"
        if self.kind == CHANGED:
            return f"{where}{self.name} {self.old} -> {self.new}".rstrip()
        return f"{where}{self.kind}: {self.old or self.new}"


def differences(old: Form, new: Form) -> List[Change]:
    """All that differs between two forms."""
    before, after = (Around(from_track=form.get("nid_message") != 136) for form in (old, new))
    whole = "message" if "nid_message" in new else "telegram"
    changes = list(_object((), old, new, before, after))
    pairs = packet_pairs(old["packets"], new["packets"])
    for was, now in pairs:
        if was is None and now is not None:
            changes.append(_packet_alone(ADDED, f"{ordinal(now)} in the {whole}", new["packets"][now], after))
        elif now is None and was is not None:
            where = f"{ordinal(was)} in the {whole}"
            changes.append(_packet_alone(REMOVED, where, old["packets"][was], before))
        elif was is not None and now is not None:
            packet = new["packets"][now]
            words = _packet_words(packet, after, DIRECTIONS.get(packet.get("q_dir", -1), ""))
            label = f"{words}, {ordinal(now)} in the {whole}"
            packets = _with_contents(old["packets"][was], packet, before, after)
            changes += _object((PathStep(label),), *packets, before, after)
    both = [now for _, now in sorted((was, now) for was, now in pairs if was is not None and now is not None)]
    return [*changes, Change(MOVED, ())] if both != sorted(both) else changes


def packet_differences(old: Values, new: Values) -> List[Change]:
    """All that differs between two packets from track to train."""
    return list(_object((), old, new, Around(), Around()))


def _packet_alone(kind: str, where: str, packet: Form, around: Around) -> Change:
    read = with_content(packet, around.from_track, keeps_body=False)
    label = PathStep(f"{_packet_words(packet, around)}, {where}", is_old=kind == REMOVED)
    return _part((label,), kind, read, around)


def _packet_words(packet: Form, around: Around, direction: str = "") -> str:
    """A packet by NID_PACKET, with its name, its direction, and its layout if that is balisekit's own."""
    number = packet["nid_packet"]
    names = packet_name(number, around.from_track), direction, layout_words(packet, around.from_track)
    return f"packet {number} ({', '.join(filter(None, names))})"


def _with_contents(old: Form, new: Form, before: Around, after: Around) -> Tuple[Values, Values]:
    """Two packets of one number with the variables of their bodies. Bodies are left out if both are read completely."""
    if old == new:
        return old, new
    contents = content_of(old, before.from_track), content_of(new, after.from_track)
    keeps = not all(content and content.is_complete for content in contents)
    return with_content(old, before.from_track, keeps), with_content(new, after.from_track, keeps)


def packet_pairs(old: Sequence[Values], new: Sequence[Values]) -> List[Pair]:
    """Packets paired in order by number and direction, and then those that are left only by number."""
    pairs: List[Pair] = []
    gone, come = list(range(len(old))), list(range(len(new)))
    for key in PACKET_KEYS:
        for value in dict.fromkeys([*(key(old[was]) for was in gone), *(key(new[now]) for now in come)]):
            was_items = [place for place in gone if key(old[place]) == value]
            now_items = [place for place in come if key(new[place]) == value]
            for was, now in align([old[place] for place in was_items], [new[place] for place in now_items]):
                if was is not None and now is not None:
                    pairs.append((was_items[was], now_items[now]))
        gone, come = sorted({*gone} - {was for was, _ in pairs}), sorted({*come} - {now for _, now in pairs})
    pairs += [*((was, None) for was in gone), *((None, now) for now in come)]
    return sorted(pairs, key=lambda pair: (pair[1] is None, pair[1] or 0, pair[0] or 0))


def _object(where: Where, old: Values, new: Values, before: Around, after: Around) -> Iterator[Change]:
    """The fields of an object that differ, and what differs in its parts."""
    before, after = before.inside(old), after.inside(new)
    units = [(around.packet.get("q_scale"), around.from_track) for around in (before, after)]
    if old == new and units[0] == units[1]:
        return
    for key in in_order({*old, *new} - {"packets"}):
        was, now = old.get(key), new.get(key)
        inside = *where, PathStep(label_of(key))
        if isinstance(was, list) or isinstance(now, list):
            yield from _list(where, key, was or [], now or [], before, after)
        elif isinstance(was, dict) and isinstance(now, dict):
            yield from _object(inside, was, now, before, after)
        elif isinstance(was, dict) or isinstance(now, dict):
            yield _part(inside, ADDED, now, after) if was is None else _part(inside, REMOVED, was, before)
        else:
            values = _value(key, was, before), _value(key, now, after)
            if values[0] != values[1]:
                yield Change(CHANGED, where, variable_name(key, new if key in new else old), *values)


def _value(key: str, value: Any, around: Around) -> str:
    words = "" if value is None else value_words(key, value, around)
    return "none" if value is None else f"{words} [{value}]" if words else str(value)


def _list(
    where: Where, key: str, old: Sequence[Any], new: Sequence[Any], before: Around, after: Around
) -> Iterator[Change]:
    """What differs in a list. An item that is no object counts as one with the key of the list."""
    name = label_of(key)
    was_items, now_items = ([item if isinstance(item, dict) else {key: item} for item in items] for items in (old, new))
    for was, now in align(was_items, now_items):
        if was is not None and now is not None:
            yield from _object((*where, PathStep(name, now)), was_items[was], now_items[now], before, after)
        elif now is not None:
            yield _part((*where, PathStep(name, now)), ADDED, now_items[now], after)
        elif was is not None:
            yield _part((*where, PathStep(name, was, is_old=True)), REMOVED, was_items[was], before)


def _part(where: Where, kind: str, form: Any, around: Around) -> Change:
    """All values of a part that only one of the two has."""
    text = "  ".join(_texts(form, around))
    return Change(kind, where, "", *((text, "") if kind == REMOVED else ("", text)))


def _texts(form: Values, around: Around) -> Iterator[str]:
    inner = around.inside(form)
    for key in in_order(form):
        for item in form[key] if isinstance(form[key], list) else [form[key]]:
            yield from _texts(item, inner) if isinstance(item, dict) else value_texts(
                (key,), {**form, key: item}, inner
            )


def align(old: Sequence[Values], new: Sequence[Values]) -> List[Pair]:
    """Pairs the items of two lists in their order, so that the fewest fields differ."""
    first = next((place for place, (was, now) in enumerate(zip(old, new)) if was != now), min(len(old), len(new)))
    was_items, now_items = [_leaves(item) for item in old[first:]], [_leaves(item) for item in new[first:]]
    costs: Dict[Tuple[int, int], int] = {}
    steps: Dict[Tuple[int, int], Tuple[int, int]] = {}
    for was in range(len(was_items), -1, -1):
        for now in range(len(now_items), -1, -1):
            ways = []
            if was < len(was_items) and now < len(now_items):
                ways.append((costs[was + 1, now + 1] + _apart(was_items[was], now_items[now]), 0, (1, 1)))
            if now < len(now_items):
                ways.append((costs[was, now + 1] + len(now_items[now]) + 1, 1, (0, 1)))
            if was < len(was_items):
                ways.append((costs[was + 1, now] + len(was_items[was]) + 1, 2, (1, 0)))
            costs[was, now], _, steps[was, now] = min(ways, default=(0, 0, (0, 0)))
    pairs: List[Pair] = [(place, place) for place in range(first)]
    was, now = 0, 0
    while (was, now) != (len(was_items), len(now_items)):
        old_step, new_step = steps[was, now]
        pairs.append((first + was if old_step else None, first + now if new_step else None))
        was, now = was + old_step, now + new_step
    return pairs


def _apart(was: Dict[str, Any], now: Dict[str, Any]) -> int:
    """Twice the number of the fields that differ."""
    return 2 * len([key for key in {*was, *now} if was.get(key) != now.get(key)])


def _leaves(form: Any, path: str = "") -> Dict[str, Any]:
    """All values of an object by their paths."""
    items = form.items() if isinstance(form, dict) else enumerate(form) if isinstance(form, list) else ()
    leaves = {key: value for name, item in items for key, value in _leaves(item, f"{path}/{name}").items()}
    return leaves if isinstance(form, (dict, list)) else {path: form}

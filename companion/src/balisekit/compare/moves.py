"""What moved from one release to the other and is otherwise equal: renumbered groups, and exchanged telegrams."""
from __future__ import annotations

from collections import Counter
from collections.abc import Hashable, Iterable, Iterator, Mapping, Sequence
from dataclasses import dataclass
from typing import Dict, List, NamedTuple, Optional, Set, Tuple

from balisekit.compare.sides import Pairs, Side, paired
from balisekit.engine.program import Record
from balisekit.tables.grouping import EVERY
from balisekit.tables.model import Group, Row
from balisekit.tables.names import NAMED, describe_balise, describe_rows, listed, quoted

Identity = Tuple[int, ...]
WithoutIdentity = Tuple[Hashable, ...]


@dataclass(frozen=True)
class Renumbered:
    """A group with another identity in the new release, whose telegrams are otherwise equal."""

    before: Group
    after: Group
    words: str


@dataclass(frozen=True)
class Exchanged:
    """Telegrams that changed places with each other."""

    words: str
    rows: Sequence[Tuple[int, int]]
    """Where each of them was in the old release, and is in the new one."""


class Left(NamedTuple):
    """A group that only one release has by its identity: what it sends apart from NID_BG and NID_C."""

    group: Group
    identity: Identity
    content: Optional[WithoutIdentity]
    """Nothing if a telegram is refused or has another identity."""


def renumbered(
    old: Side, new: Side, removed: Sequence[Group], added: Sequence[Group], named: bool
) -> Tuple[List[Renumbered], List[Group], List[Group]]:
    """Groups that were renumbered, and the groups of either release that are left.

    They have one name, or one kilometre and track. In documents, no other group has the same telegrams.
    """
    sides = [list(_left(side, groups)) if removed and added else [] for side, groups in ((old, removed), (new, added))]
    counts = [Counter(left.content for left in side) for side in sides]

    def by_name(left: Left) -> Hashable:
        return (left.content, left.group.name) if left.content else object()

    def by_place(left: Left) -> Hashable:
        row = left.group.aspects[0].rows[0]
        return (left.content, row.km, row.track) if left.content and row.km is not None else object()

    def by_content(left: Left) -> Hashable:
        return left.content if left.content and all(count[left.content] == 1 for count in counts) else object()

    pairs, _, _ = paired(sides[0], sides[1], *([by_name, by_place] if named else [by_content]))
    found = [Renumbered(was.group, now.group, _renumbered(new, was, now)) for was, now in pairs]
    was_names, now_names = {each.before.name for each in found}, {each.after.name for each in found}
    return (
        found,
        [group for group in removed if group.name not in was_names],
        [group for group in added if group.name not in now_names],
    )


def _left(side: Side, groups: Sequence[Group]) -> Iterator[Left]:
    side.decode(row for group in groups for row in group.rows())
    for group in groups:
        rows = {row.number: row for row in group.rows()}
        heads = {side.head(row)[1:] for row in rows.values() if row.number in side.records}
        is_whole = len(heads) == 1 and all(number in side.records for number in rows)
        yield Left(group, next(iter(heads)), _content(side, group) if is_whole else None)


def _content(side: Side, group: Group) -> WithoutIdentity:
    return tuple(
        (aspect.name, *((_without_identity(side.records[row.number]), row.aspect == EVERY) for row in aspect.rows))
        for aspect in group.aspects
    )


def _without_identity(record: Record) -> Hashable:
    """What a telegram says apart from NID_BG and NID_C."""
    header, packets = record.parts
    return header._replace(nid_bg=0, nid_c=0), packets


def _renumbered(new: Side, was: Left, now: Left) -> str:
    values = zip(("NID_BG", "NID_C"), was.identity, now.identity)
    changes = ", ".join(f"{name} {before} -> {after}" for name, before, after in values if before != after)
    rows = f"old {describe_rows(was.group)}, new {describe_rows(now.group)}"
    return f"{new.describe(now.group)}  {changes}, all telegrams otherwise equal  {rows}"


class Slot(NamedTuple):
    """A place of a telegram: the pair of groups, the aspect and the balise in nominal order."""

    pair: int
    aspect: str
    balise: int


class Moved(NamedTuple):
    """A telegram at whose place the other release has another one."""

    text: str
    slot: Slot
    row: Row


Cycle = List[Tuple[Moved, Moved]]
"""Telegrams of which each is where the next one was: as they were, and as they are."""


def exchanged(old: Side, new: Side, pairs: Pairs[Group]) -> List[Exchanged]:
    """Telegrams of these pairs of groups that changed places: of balises, of aspects, or of any two places."""
    alike: Dict[Hashable, List[Cycle]] = {}
    for number, cycle in enumerate(_cycles(*_moved(old, new, pairs))):
        slots = [was.slot for was, _ in cycle]
        groups, aspects, balises = ({slot[part] for slot in slots} for part in range(3))
        if len(groups) == len(aspects) == 1:
            key: Hashable = (*groups, "balises", *(slot.balise for slot in slots))
        elif len(groups) == len(balises) == 1:
            key = (*groups, "aspects", *(slot.aspect for slot in slots))
        else:
            key = number
        alike.setdefault(key, []).append(cycle)
    return [_exchanged(new, pairs, cycles) for cycles in alike.values()]


def _moved(old: Side, new: Side, pairs: Pairs[Group]) -> Tuple[List[Moved], List[Moved]]:
    """The telegrams of places at which the releases differ."""
    before: List[Moved] = []
    after: List[Moved] = []
    for number, (was, now) in enumerate(pairs):
        old_rows, new_rows = _slots(old, number, was), _slots(new, number, now)
        for slot in old_rows.keys() & new_rows.keys():
            texts = [rows[slot].telegram.lower() for rows in (old_rows, new_rows)]
            if texts[0] != texts[1]:
                before.append(Moved(texts[0], slot, old_rows[slot]))
                after.append(Moved(texts[1], slot, new_rows[slot]))
    return sorted(before, key=lambda moved: moved.row.number), sorted(after, key=lambda moved: moved.row.number)


def _slots(side: Side, number: int, group: Group) -> Mapping[Slot, Row]:
    return {
        Slot(number, EVERY if row.aspect == EVERY else aspect.name, balise): row
        for aspect in group.aspects
        for balise, row in enumerate(aspect.rows)
        if row.number in side.checked.accepted
    }


def _cycles(before: Sequence[Moved], after: Sequence[Moved]) -> Iterator[Cycle]:
    """Telegrams that changed places in a circle: first within an aspect of a group, or a balise, then anywhere."""
    pairs, _, _ = paired(
        before,
        after,
        lambda moved: (moved.text, moved.slot.pair, moved.slot.aspect),
        lambda moved: (moved.text, moved.slot.pair, moved.slot.balise),
        lambda moved: moved.text,
    )
    steps = {was.slot: (was, now) for was, now in pairs}
    seen: Set[Slot] = set()
    for moved in before:
        cycle: Cycle = []
        slot = moved.slot
        while slot in steps and slot not in seen:
            seen.add(slot)
            cycle.append(steps[slot])
            slot = steps[slot][1].slot
        if cycle and slot == moved.slot:
            yield cycle


def _exchanged(new: Side, pairs: Pairs[Group], cycles: Sequence[Cycle]) -> Exchanged:
    """The entry for circles between the same balises, or the same aspects."""
    slots = [was.slot for was, _ in cycles[0]]
    rows = sorted((was.row.number, now.row.number) for cycle in cycles for was, now in cycle)
    group = pairs[slots[0].pair][1]
    if len({slot.pair for slot in slots}) > 1 or not (_one(slots, 1) or _one(slots, 2)):
        places = [describe_balise(pairs[now.slot.pair][1], now.row) for _, now in (cycles[0][-1], *cycles[0][:-1])]
        return Exchanged(" and ".join(places), rows)
    others = [cycle[0][0].slot for cycle in cycles]
    if _one(slots, 1):
        names = [slot.aspect for slot in others if slot.aspect]
        what = f"balises {_circle([str(slot.balise) for slot in slots])}"
        where = ["every aspect" if name == EVERY else quoted(name) for name in names]
        within = f" in aspect{'s' * (len(where) > 1)} {listed(where, NAMED)}" if where else ""
    else:
        what = f"aspects {_circle([quoted(slot.aspect) for slot in slots])}"
        balises = [str(slot.balise) for slot in others]
        within = f" of balise{'s' * (len(balises) > 1)} {listed(balises, NAMED)}"
    numbers = [f"{word} {_rows(each[which] for each in rows)}" for which, word in enumerate(("old", "new"))]
    return Exchanged(f"{new.describe(group)}  {what}{within}  {', '.join(numbers)}", rows)


def _one(slots: Sequence[Slot], part: int) -> bool:
    return len({slot[part] for slot in slots}) == 1


def _circle(names: Sequence[str]) -> str:
    return " and ".join(names) if len(names) == 2 else " -> ".join([*names, names[0]])


def _rows(numbers: Iterable[int]) -> str:
    known = sorted(set(numbers))
    if known[-1] - known[0] + 1 == len(known):
        return f"rows {known[0]} to {known[-1]}"
    return f"rows {listed(list(map(str, known)), NAMED)}"

"""The two releases that are compared, and how things of both are paired."""
from __future__ import annotations

from collections import deque
from collections.abc import Callable, Hashable, Iterable
from dataclasses import dataclass, field
from typing import Deque, Dict, List, Optional, Tuple, TypeVar

from balisekit.engine.program import Record
from balisekit.rules.checking import Checked
from balisekit.tables.grouping import EVERY
from balisekit.tables.model import Group, Row
from balisekit.tables.names import clean, describe_identity, quoted

Thing = TypeVar("Thing")
Pairs = List[Tuple[Thing, Thing]]
Known = Tuple[Hashable, Group]
Sent = Tuple[int, str, Record]
"""A telegram or message: its row or line, its digits, and what the program has decoded."""


@dataclass(frozen=True)
class Side:
    """One of the two releases. The program decodes only the telegrams that are needed, many at a time."""

    checked: Checked
    records: Dict[int, Record] = field(default_factory=dict)
    """The telegrams that have been needed, by their rows."""

    def decode(self, rows: Iterable[Row]) -> None:
        """Has the program decode those of these telegrams that can be read."""
        accepted = self.checked.accepted
        numbers = {row.number for row in rows if row.number in accepted and row.number not in self.records}
        self.records.update((row.number, record) for row, record in accepted.decoded(sorted(numbers)))

    def sent(self, row: Row) -> Sent:
        """A telegram that has been decoded."""
        return row.number, row.telegram, self.records[row.number]

    def head(self, row: Row) -> Tuple[int, ...]:
        """N_PIG, NID_BG and NID_C of a telegram."""
        header, _ = self.records[row.number].parts
        return header.n_pig, header.nid_bg, header.nid_c

    def first(self, group: Group) -> Optional[Row]:
        """The first telegram of a group that could be read. It has the identity of the group."""
        return next((row for row in group.rows() if row.number in self.checked.accepted), None)

    def known(self) -> List[Known]:
        """The groups whose identity is known, after NID_BG and NID_C."""
        groups = [(self.first(group), group) for group in self.checked.table.groups]
        self.decode(row for row, _ in groups if row)
        return [(self.head(row)[1:], group) for row, group in groups if row]

    def describe(self, group: Group, aspect: str = "", row: Optional[Row] = None) -> str:
        """A group, an aspect or a balise by its names."""
        first = self.first(group)
        named = f"  ({describe_identity((self.head(first)[2], self.head(first)[1]))})" if first else ""
        parts = [clean(group.name) + named]
        parts += ["every aspect"] if aspect == EVERY else [f"aspect {quoted(aspect)}"] if aspect else []
        parts += [f"position {self.head(row)[0]}" + (f" {quoted(row.name)}" if row.name else "")] if row else []
        return "  ".join(parts)


def paired(
    old: Iterable[Thing], new: Iterable[Thing], *keys: Callable[[Thing], Hashable]
) -> Tuple[Pairs[Thing], List[Thing], List[Thing]]:
    """Things of one key in their order, old ones that are left, and new ones. Each key pairs what is left before it."""
    pairs: List[Tuple[int, Thing, Thing]] = []
    gone, come = list(old), list(enumerate(new))
    for key in keys:
        waiting: Dict[Hashable, Deque[Thing]] = {}
        for thing in gone:
            waiting.setdefault(key(thing), deque()).append(thing)
        left = []
        for place, thing in come:
            others = waiting.get(key(thing))
            if others:
                pairs.append((place, others.popleft(), thing))
            else:
                left.append((place, thing))
        come, gone = left, [thing for things in waiting.values() for thing in things]
    pairs.sort(key=lambda pair: pair[0])
    return [(before, after) for _, before, after in pairs], gone, [thing for _, thing in come]

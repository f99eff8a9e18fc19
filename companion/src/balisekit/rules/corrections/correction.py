"""What a correction of a table is, and what suggestions of corrections are made of."""
from __future__ import annotations

from collections import Counter
from dataclasses import dataclass, field
from functools import cached_property
from typing import Any, Callable, Dict, Iterator, List, Mapping, NamedTuple, Sequence, Set, Tuple, cast

from balisekit.engine.records import Form
from balisekit.rules.checking import Checked
from balisekit.rules.entries import Entry
from balisekit.rules.line import Line
from balisekit.rules.location import Identity
from balisekit.rules.rule import Options
from balisekit.tables.changed import Cells
from balisekit.tables.model import Group, Row

OTHER_IDENTITY = frozenset({"other_NID_C", "other_NID_BG"})
"""The values of F3 that name another identity. What does not differ is not among them."""


class Correction(NamedTuple):
    """A change of a table that may remove several entries at once."""

    group: Group
    """The group to correct."""
    rows: Tuple[int, ...]
    """The rows to correct."""
    sentence: str
    """What is wrong, and what would be right."""
    cells: Cells = {}
    """The cells that would be right, by row and field. The digits of a telegram are none of them."""
    forms: Mapping[int, Form] = {}
    """The telegrams that would be right, by row."""
    orders: Mapping[str, Group] = {}
    """The groups whose balises would be in another order, by name."""
    values: Mapping[str, str] = {}
    """The values of the sentence, by their names."""
    lost: Tuple[int, ...] = ()
    """The rows that would not be there."""
    least: int = 2
    """How many entries it must explain: the entry itself says as much as a correction that explains one."""
    is_only_place: bool = False
    """Whether it shows only where the mistake is: nobody knows what would be right."""
    is_of_stranger: bool = False
    """Whether it leaves out the packets of a telegram of another group: its group then lacks what it should have."""
    rule: str = ""
    """The rule of the entry, if that is not the rule of the first entry that it explains."""
    both: str = ""
    """The sentence if the correction of the other side of a difference removes the same entries."""

    def is_like(self, other: Correction) -> bool:
        """Whether nobody knows which of two is right: both leave out an aspect of a group, or are of one difference."""
        if self.both:
            return self.both == other.both
        return bool(self.lost and other.lost) and self.group is other.group

    def either(self, other: Correction) -> Correction:
        """Both as one place."""
        rows, sentence = {*self.rows, *other.rows}, self.both or f"{self.sentence} or {other.sentence}"
        return self._replace(rows=tuple(sorted(rows)), sentence=sentence)


@dataclass
class Evidence:
    """A checked table, and the open entries that no correction has explained yet."""

    checked: Checked
    line: Line
    options: Options
    entries: Sequence[Entry]
    _forms: Dict[int, Form] = field(default_factory=dict)

    @cached_property
    def groups(self) -> Mapping[str, Group]:
        """The groups that were handed to the program, by name."""
        return {group.name: group for group in self.checked.kept}

    @cached_property
    def rows(self) -> Mapping[int, Row]:
        """Their rows, by number."""
        return {row.number: row for group in self.checked.kept for row in group.each_row}

    @cached_property
    def forms(self) -> Mapping[int, Form]:
        """The telegram of each row as an object. Nobody changes it."""
        records = self.checked.accepted.records
        return {number: records[row.telegram].shared for number, row in self.rows.items()}

    def identity(self, row: int) -> Mapping[str, int]:
        """NID_C and NID_BG of most telegrams of the group of a row."""
        group = self.groups[self.rows[row].group]
        own = (self.forms[each.number] for each in group.each_row)
        (most, _), *_ = Counter((form["nid_c"], form["nid_bg"]) for form in own).most_common()
        return {"nid_c": most[0], "nid_bg": most[1]}

    def identities(self, entry: Entry) -> Tuple[Identity, Identity]:
        """The identity of a telegram that F3 names, and that of the first telegram of its group."""
        form = self.forms[entry.rows[0]]
        own = {"NID_C": form["nid_c"], "NID_BG": form["nid_bg"]}
        other = {name: int(entry.values.get(f"other_{name}", value)) for name, value in own.items()}
        return (own["NID_C"], own["NID_BG"]), (other["NID_C"], other["NID_BG"])

    def named(self, entry: Entry) -> Set[int]:
        """The rows that an entry names."""
        return {*entry.rows, *entry.other_rows}

    def most_named(self, *rules: str) -> List[Group]:
        """The groups of which two or more entries name a row, those of most entries first."""
        counts: Dict[str, int] = {}
        for entry in self.entries:
            if rules and entry.rule not in rules:
                continue
            names = {self.rows[row].group for row in self.named(entry) if row in self.rows}
            for name in names | ({entry.group.name} if entry.group else set()):
                counts[name] = counts.get(name, 0) + 1
        several = sorted((name for name, count in counts.items() if count > 1), key=lambda name: -counts[name])
        return [self.groups[name] for name in several if name in self.groups]


def names_another_identity(entry: Entry) -> bool:
    """Whether F3 says that a telegram has another NID_C or NID_BG, or both, than the first one of its group."""
    return entry.rule == "F3" and not OTHER_IDENTITY.isdisjoint(entry.values) and len(entry.rows) == 1


def with_values(form: Form, **values: Any) -> Form:
    """A telegram with other values in its header, or with other packets."""
    return cast(Form, {**form, **values})


Suggest = Callable[[Evidence], Iterator[Correction]]
"""Corrections that may explain entries, the most likely first."""


class Stage(NamedTuple):
    """Suggestions that are tried together."""

    suggest: Sequence[Suggest]
    least: int = 2
    """The fewest open entries for which they are tried."""

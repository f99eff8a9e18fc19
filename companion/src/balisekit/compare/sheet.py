"""The variables of a table as rows of a sheet, and how they differ from a sheet that somebody expects."""
from __future__ import annotations

import re
from dataclasses import dataclass, field
from decimal import Decimal, InvalidOperation
from functools import lru_cache
from itertools import groupby
from typing import Callable, Dict, Iterator, List, Mapping, NamedTuple, Optional, Sequence, Set, Tuple

from balisekit.etcs.flat import Variable, variables
from balisekit.etcs.places import places_of_rows
from balisekit.etcs.variables import Form
from balisekit.rules.checking import Checked
from balisekit.rules.line import with_directions
from balisekit.tables.expected import Expected
from balisekit.tables.model import Group, Row
from balisekit.tables.names import NAMED, clean, kilometre, listed

TELEGRAM = ("group", "identity", "aspect", "balise")
"""The columns that identify the telegram of a row."""
VARIABLE = ("packet", "element", "variable")
"""The columns that identify the variable in the telegram."""
VALUES = ("raw", "value", "unit", "km")
COLUMNS = (*TELEGRAM, *VARIABLE, *VALUES)
Key = Tuple[str, ...]


class Found(NamedTuple):
    """A variable of a telegram, and the cells of its row."""

    row: Row
    group: Group
    variable: Variable
    cells: Tuple[str, ...]
    """By COLUMNS."""


class Sheet:
    """The variables of all telegrams of a table that the program has read."""

    def __init__(self, checked: Checked) -> None:
        kept = {group.name: group for group in checked.kept}
        self.checked = checked
        groups = [kept.get(group.name, group) for group in checked.table.groups]
        directed, self.notes = with_directions(groups, checked.accepted)
        self.groups = {group.name: group for group in directed}

    def all(self) -> Iterator[Found]:
        """The variables in the order of the table. The telegrams are decoded now, and not kept."""
        decoded = self.checked.accepted.decoded()
        for name, telegrams in groupby(decoded, key=lambda item: item[0].group):
            yield from self.of_group(name, {row.number: record.form for row, record in telegrams})

    def of_group(self, name: str, forms: Mapping[int, Form]) -> Iterator[Found]:
        """The variables of a group, whose telegrams are given by their rows."""
        group = self.groups[name]
        rows = {row.number: row for row in group.rows()}
        identity = identity_of(forms)
        for number, here in places_of_rows(group, forms).items():
            if number in forms:
                row, place = rows[number], str(group.places[number])
                km = "" if row.km is None else kilometre(row.km)
                for each in variables(forms[number], here):
                    about = (name, identity, row.aspect, place, each.packet, each.element, each.name)
                    where = each.km if each.packet else km
                    yield Found(row, group, each, (*about, str(each.raw), each.value, each.unit, where))


def identity_of(forms: Mapping[int, Form]) -> str:
    """The identity of a group: NID_C and NID_BG of its first telegram."""
    first = next(iter(forms.values()), None)
    return "" if first is None else f"{first['nid_c']}/{first['nid_bg']}"


class Difference(NamedTuple):
    """A cell of the sheet that differs, or a row that the table has nothing for."""

    row: int
    """The row of the sheet."""
    column: str = ""
    expected: str = ""
    found: str = ""
    what: str = ""
    """What the table does not have. Empty if a cell differs."""
    place: Optional[Found] = None


@dataclass
class Compared:
    """What differs between a table and a sheet, and how much was compared."""

    path: str
    differences: List[Difference] = field(default_factory=list)
    rows: int = 0
    """The rows of the sheet."""
    refused: int = 0
    """Those about telegrams that the program has refused."""
    variables: int = 0
    """The variables of the table."""
    seen: int = 0
    """Those of them that the sheet has."""
    notes: Tuple[str, ...] = ()


class _Telegrams:
    """The telegrams of a table, by the cells of those columns that a sheet has."""

    def __init__(self, sheet: Sheet, columns: Sequence[str]) -> None:
        self.sheet, self.checked = sheet, sheet.checked
        self.telegram = [name for name in TELEGRAM if name in columns]
        self.variable = [name for name in VARIABLE if name in columns]
        self.seen: Dict[int, Set[int]] = {}
        self.rows: Dict[Key, Dict[int, Row]] = {}
        self.unread: Set[str] = set()
        """The groups of which no telegram could be read. Their identities are not known."""
        for group in sheet.groups.values():
            self._add(group)
        self.found: Callable[[str], Dict[int, Dict[Key, List[Tuple[int, Found]]]]] = lru_cache(64)(self._found)

    def _add(self, group: Group) -> None:
        """The rows of a group, by names as they are and as outputs show them. Some have every aspect."""
        forms = self._forms(group) if "identity" in self.telegram else {}
        if "identity" in self.telegram and not forms:
            self.unread |= {_plain(group.name), _plain(clean(group.name))}
        for aspect in group.aspects:
            for row in aspect.rows:
                cells = {"group": group.name, "identity": identity_of(forms), "balise": str(group.places[row.number])}
                for name in {row.aspect, aspect.name}:
                    texts = [{**cells, "aspect": name}[column] for column in self.telegram]
                    for key in (tuple(map(_plain, texts)), tuple(map(_plain, map(clean, texts)))):
                        self.rows.setdefault(key, {})[row.number] = row

    def _forms(self, group: Group) -> Dict[int, Form]:
        numbers = sorted({row.number for row in group.rows()})
        return {number: self.checked.accepted[number] for number in numbers if number in self.checked.accepted}

    def _found(self, name: str) -> Dict[int, Dict[Key, List[Tuple[int, Found]]]]:
        """The variables of a group's telegrams, by the rows and by the cells of the sheet's columns."""
        known: Dict[int, Dict[Key, List[Tuple[int, Found]]]] = {}
        for place, found in enumerate(self.sheet.of_group(name, self._forms(self.sheet.groups[name]))):
            key = tuple(_plain(found.cells[COLUMNS.index(column)]) for column in self.variable)
            known.setdefault(found.row.number, {}).setdefault(key, []).append((place, found))
        return known


def compare(checked: Checked, expected: Expected) -> Compared:
    """Compares the rows of a sheet with the variables of a table."""
    sheet, compared = Sheet(checked), Compared(expected.path, notes=expected.notes)
    telegrams = _Telegrams(sheet, list(expected.places))
    for number, cells in expected.rows():
        compared.rows += 1
        compared.differences += _compare_row(telegrams, compared, number, cells)
    compared.seen = sum(map(len, telegrams.seen.values()))
    compared.variables = sum(1 for _ in sheet.all())
    return compared


def _compare_row(
    telegrams: _Telegrams, compared: Compared, number: int, cells: Mapping[str, str]
) -> Iterator[Difference]:
    """What differs between a row of the sheet and each telegram that it fits and that has the variable."""
    rows = telegrams.rows.get(tuple(_plain(cells[column]) for column in telegrams.telegram), {})
    read = [row for row in rows.values() if row.number in telegrams.checked.accepted]
    is_unread = not rows and _plain(cells.get("group", "")) in telegrams.unread
    compared.refused += is_unread or len(read) < len(rows)
    key = tuple(_plain(cells[column]) for column in telegrams.variable)
    known = [item for row in read for item in telegrams.found(row.group).get(row.number, {}).get(key, [])]
    for place, found in known:
        telegrams.seen.setdefault(found.row.number, set()).add(place)
        for column in VALUES:
            expected, own = cells.get(column, ""), found.cells[COLUMNS.index(column)]
            if expected and not same(expected, own, found.variable.unit if column == "value" else ""):
                yield Difference(number, column, expected, own, place=found)
    if not rows and not is_unread:
        yield Difference(number, what=f"the table has no telegram of {_named(telegrams.telegram, cells)}")
    elif read and not known:
        numbers = listed([str(row.number) for row in read], NAMED)
        many = "s" if len(read) > 1 else ""
        has = "have" if many else "has"
        what = f"row{many} {numbers} of the table {has} no {_named(telegrams.variable, cells)}"
        yield Difference(number, what=what)


def _named(columns: Sequence[str], cells: Mapping[str, str]) -> str:
    """The cells of these columns that are not empty."""
    return ", ".join(f"{column} {cells[column]}" for column in columns if cells[column])


def same(expected: str, found: str, unit: str = "") -> bool:
    """Whether two cells are the same number or the same text. The expected one may have the unit after it."""
    if expected == found or _plain(expected) in (_plain(found), _plain(clean(found))):
        return True
    numbers = [_number(text) for text in (expected.removesuffix(unit) if unit else expected, found)]
    return None not in numbers and numbers[0] == numbers[1]


def _number(text: str) -> Optional[Decimal]:
    """The number in a cell, or a kilometre such as 13+850."""
    plain = re.sub(r"(?<=[0-9])\+(?=[0-9]{3})|,", ".", text.strip().replace("\u2212", "-"))
    try:
        return None if "_" in plain else Decimal(plain)  # (which passes over underscores)
    except InvalidOperation:
        return None


def _plain(text: str) -> str:
    """A cell as it is compared: case and blanks do not matter."""
    return " ".join(text.split()).lower()

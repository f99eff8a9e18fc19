"""The headings of a sheet: which of its first rows has them, and which column each of them names."""
from __future__ import annotations

import json
import re
from typing import Dict, Iterable, List, Mapping, NamedTuple, Optional, Sequence, Tuple

from balisekit.errors import TableError
from balisekit.expressions import expression
from balisekit.tables.cells import COLUMNS, GREATEST_NAME, NEEDED, digits, kind_and_text

SEARCHED = 20
"""How many rows are searched for the headings: a title and a few lines of a form may be above them."""
ALIKE = 0.75
"""How much of a heading has to be as in a known one to be taken for it."""
TELEGRAM = expression("[0-9A-Fa-f]{20,}")
KILOMETRE = expression(r"-?[0-9]{1,4}(?:[.,][0-9]{1,6}|\+[0-9]{3})?")
TO_THE_METRE = expression("[.,+][0-9]{3}")


class Headings(NamedTuple):
    """The columns that a sheet may have and needs, and the headings that a user has given to some of them."""

    known: Tuple[str, ...] = COLUMNS
    needed: Tuple[str, ...] = NEEDED
    own: Mapping[str, str] = {}
    """The heading of a column, by its name."""
    source: str = ""
    """The file that gives them."""
    strict: bool = False
    """Whether a column has to have its own heading. Otherwise it may have its name as well."""

    @property
    def has_telegrams(self) -> bool:
        """Whether they are those of a table of telegrams: the options that choose a sheet and fill cells are for it."""
        return "telegram" in self.needed

    def places(self, row: Sequence[str]) -> Dict[str, int]:
        """Where each column is that the row has a heading for."""
        names, taken = compared(row), set(compared(list(self.own.values())))
        places = {}
        for column in self.known:
            own = compared([self.own[column]]) if column in self.own else []
            plain = [] if own and self.strict or column in taken else [column]
            place = next((names.index(name) for name in [*own, *plain] if name in names), None)
            if place is not None:
                places[column] = place
        return places

    def row_of(self, rows: Sequence[Sequence[str]]) -> Optional[int]:
        """The row with all headings that are needed, and the most that are known, counted from 0."""
        found = [self.places(row).keys() for row in rows[:SEARCHED]]
        fits = [(len(names), -place) for place, names in enumerate(found) if names >= set(self.needed)]
        return -max(fits)[1] if fits else None

    def missing(self, row: Sequence[str]) -> List[str]:
        """The columns that the row has to name and does not."""
        found = self.places(row)
        return [
            name
            for name in self.known
            if name not in found and (name in self.needed or self.strict and name in self.own)
        ]

    def look_at(self, rows: Sequence[Sequence[str]], place: int) -> Dict[str, int]:
        """Where the columns are by the headings in this row. TableError is raised if one is missing or there twice."""
        row, number = rows[place], place + 1
        if self.missing(row):
            raise self._refusal(rows, place)
        names, places = compared(row), self.places(row)
        for at in places.values():
            if names.count(names[at]) > 1:
                second = names.index(names[at], at + 1) + 1
                raise TableError(f"columns {at + 1} and {second} have one heading, {shown(row[at])}", number)
        return places

    def _refusal(self, rows: Sequence[Sequence[str]], place: int) -> TableError:
        """What is missing in the row that should have the headings, and what to type."""
        row, missing = rows[place], self.missing(rows[place])
        if is_data(row) and self.has_telegrams:
            return TableError(
                "there is no heading: the first row has a telegram; put a row with the names of the "
                f"columns above it; {' and '.join(self.needed)} are needed",
                row=place + 1,
            )
        named = [f'{name} ("{self.own[name]}" by {self.source})' if name in self.own else name for name in missing]
        found = ", ".join(shown(cell) for cell in row if shown(cell))[:GREATEST_NAME]
        why = f"no column {' and no column '.join(named)}: the headings are {found}"
        remedies = [f"correct {self.source}"] if self.source else []
        if not self.strict:
            remedies.append(f"give --columns FILE, a text file with the line {self._line(rows, place)}")
        return TableError(f"{why}; {', or '.join(remedies)}", row=place + 1)

    def _line(self, rows: Sequence[Sequence[str]], place: int) -> str:
        """The line of TOML that names the columns that are missing, and the one that seems to have kilometres."""
        row, missing = rows[place], self.missing(rows[place])
        found = {"telegram": _telegrams_at(rows, place)}
        if self.has_telegrams and "km" not in self.places(row):
            found["km"] = _kilometres_at(rows, place)
        there = {name: at for name, at in found.items() if at is not None and at < len(row)}
        own = {name: shown(row[at]) for name, at in there.items() if shown(row[at])}
        names = [*missing, *(["km"] if "km" in own else [])]
        pairs = [f"{name} = {json.dumps(own.get(name, '..'), ensure_ascii=False)}" for name in names]
        return f"columns = {{ {', '.join(pairs)} }}"

    def likely(self, rows: Sequence[Sequence[str]]) -> int:
        """The row that should have the headings: the last one above a telegram, else the one with the most of them."""
        filled = [place for place, row in enumerate(rows[:SEARCHED]) if any(map(str.strip, row))]
        data = next((place for place in filled if is_data(rows[place])), None)
        if data is None:
            return max(filled, key=lambda place: (len(self.places(rows[place])), -place), default=0)
        return max((place for place in filled if place < data), default=data)

    def of_row(self, row: Sequence[str]) -> Dict[str, str]:
        """The headings of the user's own that the row has, by their columns."""
        names = compared(row)
        return {name: own for name, own in self.own.items() if compared([own])[0] in names}

    def used(self, row: Sequence[str]) -> List[str]:
        """A note on the headings of the user's own that the row has."""
        names = [f'{name} is "{shown(own)}"' for name, own in self.of_row(row).items()]
        return [f"headings by {self.source}: {', '.join(names)}"] if names else []

    def notes(self, row: Sequence[str]) -> List[str]:
        """Notes on the headings of the user's own that the row has, and on those that it lacks."""
        there, places = self.of_row(row), self.places(row)
        names = [
            f'{name} is "{shown(own)}"{"" if name in places else f" (there is no column {name})"}'
            for name, own in self.own.items()
            if name not in there
        ]
        lacking = [f"headings by {self.source} that the table lacks: {', '.join(names)}"] if names else []
        return self.used(row) + lacking


def look_at_cells(cells: Sequence[str], width: int, places: Mapping[str, int]) -> None:
    """Raises TableError for a cell that no column has and that is not empty: a quote may have put rows into it.

    `width` is how many cells the row of the headings has, and `places` is where the columns are.
    """
    filled = [at for at, cell in enumerate(cells) if cell.strip()]
    if any(at >= width for at in filled):
        raise TableError(f"it has {len(cells)} cells, and the heading {width}")
    other = next((at for at in filled if at not in places.values()), None)
    if other is not None:
        raise TableError(f"cell {other + 1} is not empty, and has no heading")


def alike(name: str, known: Iterable[str]) -> str:
    """The known name for which this one may have been mistyped, or nothing."""
    from difflib import get_close_matches  # (few tables need it)

    return "".join(get_close_matches(name, known, 1, ALIKE))


def compared(row: Sequence[str]) -> List[str]:
    """The headings of a row as they are compared: in small letters, and each blank or line end as one blank."""
    return [shown(cell).lower() for cell in row]


def shown(cell: str) -> str:
    """A heading in one line."""
    return " ".join(kind_and_text(cell)[1].split())


def is_data(row: Sequence[str]) -> bool:
    """Whether a row has a telegram in it, whatever is between its cells."""
    return any(TELEGRAM.fullmatch(digits(part)) for cell in row for part in re.split("[,;\t]", cell))


def _telegrams_at(rows: Sequence[Sequence[str]], place: int) -> Optional[int]:
    """The column with a telegram in one of the next rows."""
    cells = ((at, cell) for row in rows[place + 1 : place + 1 + SEARCHED] for at, cell in enumerate(row))
    return next((at for at, cell in cells if TELEGRAM.fullmatch(digits(cell))), None)


def _kilometres_at(rows: Sequence[Sequence[str]], place: int) -> Optional[int]:
    """The first column that has kilometres only in the next rows, one of them to the metre."""
    for at in range(len(rows[place])):
        texts = [kind_and_text(row[at])[1].strip() for row in rows[place + 1 : place + 1 + SEARCHED] if at < len(row)]
        cells = list(filter(None, texts))
        if all(map(KILOMETRE.fullmatch, cells)) and any(map(TO_THE_METRE.search, cells)):
            return at
    return None

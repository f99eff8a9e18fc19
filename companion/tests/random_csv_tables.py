"""Random CSV tables of balise groups: sound ones, ones with findings, and ones that a reader refuses.

A table is made without balisekit and without the program, from telegrams, names and faults. FAULTS lists the faults:
more than half of the tables have one or two.
"""
from __future__ import annotations

from random import Random
from typing import Callable, List, NamedTuple, Sequence

Rows = List[List[str]]
NAMES = ["BG {}"] * 6 + ["{}"] * 6 + ["Süd, {}", 'the "old" {}', "é{}"] * 2 + ["{}\nlower line"]
"""How a group is named by a number."""


class Maker:
    """Makes one table after the other."""

    def __init__(self, random: Random) -> None:
        self.random, self.identity = random, 0

    def telegram(self, position: int, total: int, duplicate: int = 0) -> str:
        """A telegram of the group that is being made, without packets."""
        fields = [
            (1, 1),
            (33, 7),
            (0, 1),
            (position, 3),
            (total, 3),
            (duplicate, 2),
            (255, 8),
            (1, 10),
            (self.identity, 14),
        ]
        bits = "".join(f"{value:0{width}b}" for value, width in [*fields, (1, 1)]).ljust(210, "1")
        return f"{int(bits + '000000', 2):054x}"

    def group(self) -> Rows:
        """The rows of a group: name, telegram, aspect and number of the balise."""
        random, total = self.random, self.random.choice([1, 1, 1, 2, 2, 3, 8])
        self.identity += random.random() < 0.97
        name = random.choice(NAMES).format(self.identity)
        aspects = random.choice([[""], [""], [""], ["red", "green"], ["1", "2", "3"]])
        every = total > 1 and len(aspects) > 1 and random.random() < 0.5
        rows = [[name, self.telegram(0, total - 1), "*", "0"]] if every else []
        for aspect in aspects:
            for position in range(1 if every else 0, total):
                wrong = random.random() < 0.03
                duplicate = random.choice([1, 2]) if random.random() < 0.05 else 0
                rows.append([name, self.telegram(position ^ wrong, total - 1, duplicate), aspect, str(position)])
        return rows

    def rows(self) -> Rows:
        """The rows of a few groups, one after the other or mixed."""
        rows = [row for _ in range(self.random.randrange(1, 5)) for row in self.group()]
        if self.random.random() < 0.15:
            self.random.shuffle(rows)
        if self.random.random() < 0.5:
            rows = [[group, self.spelled(telegram), aspect, balise] for group, telegram, aspect, balise in rows]
        return rows

    def spelled(self, digits: str) -> str:
        """The digits in another spelling that is read."""
        way = self.random.randrange(5)
        if way == 0:
            return digits.upper()
        if way == 1:
            return " ".join(digits[at : at + 4] for at in range(0, len(digits), 4))
        return digits


def _cell(change: Callable[[Random, str], str]) -> Callable[[Random, Rows], None]:
    """A fault in one cell."""

    def fault(random: Random, rows: Rows) -> None:
        row = random.choice(rows)
        column = random.randrange(len(row))
        row[column] = change(random, row[column])

    return fault


def _line(random: Random, rows: Rows) -> None:
    rows.insert(
        random.randrange(len(rows) + 1),
        random.choice([[""], ["", "", "", ""], ["remark"], ["", "x"], ["end", "", "", ""]]),
    )


def _twice(random: Random, rows: Rows) -> None:
    rows.insert(random.randrange(len(rows) + 1), list(random.choice(rows)))


def _dropped(random: Random, rows: Rows) -> None:
    if len(rows) > 1:
        del rows[random.randrange(len(rows))]


def _digit(random: Random, cell: str) -> str:
    at = random.randrange(len(cell) + 1)
    return cell[:at] + random.choice(["0", "g", "", ":", "-", "."]) + cell[at + 1 :]


FAULTS: Sequence[Callable[[Random, Rows], None]] = [
    _cell(lambda random, cell: ""),
    _cell(lambda random, cell: f" {cell}"),
    _cell(lambda random, cell: f"{cell}\t"),
    _cell(lambda random, cell: f"0x{cell}"),
    _cell(lambda random, cell: f"{cell}h"),
    _cell(lambda random, cell: cell[:-1]),
    _cell(lambda random, cell: "*"),
    _cell(lambda random, cell: random.choice(["7", "007", "9", "12345", "red", "first", "3.0"])),
    _cell(_digit),
    _line,
    _twice,
    _dropped,
]


class Written(NamedTuple):
    """How the rows are written."""

    separator: str
    end: str
    mark: bytes
    quoted: float


def _field(random: Random, cell: str, written: Written) -> str:
    """A cell, in quotes if it needs them, and now and then if it does not."""
    if any(one in cell for one in f'"\r\n{written.separator}') or random.random() < written.quoted:
        return '"' + cell.replace('"', '""') + '"'
    return cell


def _heading(random: Random, columns: List[str]) -> List[str]:
    """The heading row, in letters of either case."""
    return [random.choice([str.lower, str.lower, str.upper, str.capitalize])(column) for column in columns]


def table(random: Random, maker: Maker) -> bytes:
    """One table."""
    rows = maker.rows()
    for _ in range(random.choice([0, 0, 1, 1, 2])):
        random.choice(FAULTS)(random, rows)
    kept = [0, 1]
    kept += [2] if any(len(row) > 2 and row[2] for row in rows) or random.random() < 0.2 else []
    kept += [3] if any(len(row) > 2 and row[2] for row in rows) or random.random() < 0.4 else []
    names, others = ["group", "telegram", "aspect", "balise"], random.random() < 0.3
    random.shuffle(kept)
    title = [["Line 1"], [""]][: random.randrange(3)] if random.random() < 0.2 else []
    heading = _heading(random, [names[column] for column in kept]) + (["remark"] if others else [])
    cells = [
        [row[column] for column in kept if column < len(row)] + (["x"] if others and len(row) > 2 else [])
        for row in rows
    ]
    written = Written(
        random.choice(",,,;;\t"),
        random.choice(["\n", "\n", "\r\n"]),
        random.choice([b"", b"", b"\xef\xbb\xbf"]),
        random.choice([0, 0, 0.3]),
    )
    lines = [written.separator.join(_field(random, cell, written) for cell in row) for row in [*title, heading, *cells]]
    text = written.end.join(lines) + random.choice([written.end, written.end, ""])
    if random.random() < 0.05:
        at = random.randrange(len(text))
        text = text[:at] + random.choice(['"', "\n", written.separator, " "]) + text[at:]
    return written.mark + text.encode("utf-8")

"""Random tables and workbooks, with telegrams also in cells that no reader of a table would look at.

Most rows are sound. A table has up to four of the features of FEATURES. It is made without balisekit, so that what is
known of it is not what balisekit reads.
"""
from __future__ import annotations

import csv
import io
import sys
from pathlib import Path
from random import Random
from typing import Any, Callable, Dict, List, NamedTuple, Optional, Sequence, Set, Tuple, Union

from plain_count import Cells, Known, cells_of_csv, cells_of_workbook

sys.path.insert(0, str(Path(__file__).parent / "hostile"))
from workbooks import MAIN, workbook  # noqa: E402  (the path comes first)

MESSAGE = "03048000001900080021e810901ff801f400"
COMMON = [
    "other column",
    "column without heading",
    "second telegram column",
    "known column",
    "title",
    "blank row",
    "aspects",
    "refused",
    "line end",
    "trailing",
    "short row",
    "own headings",
    "messages",
    "limit",
    "--all",
    "--only",
    "--skip-column",
    "--skip-column",
    "--by-position",
]
OUTSIDE = ["in heading", "above heading", "heading above"]
"""Telegrams outside of the rows below the heading, for which a table is refused. They are rarer than other features."""
OF_CSV = ["quote", "quote", "sep="]
OF_WORKBOOK = [
    "second sheet",
    "hidden sheet",
    "very hidden sheet",
    "empty sheet",
    "chart sheet",
    "wide sheet",
    "same headings",
    "--sheet",
    "--sheet",
    "hidden row",
    "hidden column",
    "merged",
    "--fill-merged",
    "merged heading",
    "formula",
    "number",
    "runs",
]
FEATURES = frozenset([*COMMON, *OUTSIDE, *OF_CSV, *OF_WORKBOOK])
MORE_SHEETS = {"second sheet", "hidden sheet", "very hidden sheet", "wide sheet", "same headings"}
WORDS = [
    "",
    "",
    "",
    "checked",
    "drawing 7, sheet 2",
    "Süd",
    'the "old" one',
    "=B2",
    "x",
    "12",
    "né",
    "a1007f",
    "-",
    "#",
]
OTHERS = ["remark", "drawn", "Prüfer", "Telegram 2", "Text", "checksum", "telegrams", "old telegram"]
"""Headings of columns that are passed over."""
MARKS = ["0x{}", "0X{}", "\\x{}", "x'{}'", "{}h", "&H{}", "$ {}", "%{}"]
"""How hexadecimal digits are marked."""
COPY, LAST = "copy", "remark 2"
"""Columns that are passed over too: a second one for telegrams, and the last one of a table with a quote."""
OWN = {"group": "BG-Name", "telegram": "Telegramm (hex)", "km": "Kilometer"}


class Formula(NamedTuple):
    """A formula, with the value that a spreadsheet has stored, if any."""

    text: str
    value: Optional[str]


class Runs(NamedTuple):
    """A text whose parts are formatted differently."""

    parts: Tuple[str, ...]


Cell = Union[str, int, float, bool, None, Formula, Runs]
Row = List[Cell]


class Sheet(NamedTuple):
    """A sheet of a workbook, before it is written."""

    rows: List[Row]
    state: str = "visible"
    merged: Sequence[str] = ()
    hidden_rows: Sequence[int] = ()
    hidden_columns: Sequence[int] = ()


class Made(NamedTuple):
    """A table, how `check` is to be run on it, and what is known of it."""

    name: str
    content: bytes
    cells: Callable[[], Cells]
    """Reads all its cells in the plainest way."""
    known: Known
    words: List[str]
    beside: Dict[str, bytes]
    """Other files of its folder."""
    features: Set[str]
    limit: int
    """After how many refused telegrams the others are not tried."""
    sheets: Tuple[str, ...] = ()
    """The names of the sheets of cells."""


class Maker:
    """Telegrams of one table, and texts that are nearly telegrams."""

    def __init__(self, random: Random) -> None:
        self.random, self.identity = random, 0

    def telegram(self, position: int = 0, total: int = 0) -> str:
        """A sound telegram of the next group, or of another balise of this one."""
        self.identity += position == 0
        size, digits = self.random.choice([(210, 54), (210, 54), (830, 208)])
        identity = [(1, 10), (self.identity, 14), (1, 1)]
        header = [(1, 1), (33, 7), (0, 1), (position, 3), (total, 3), (0, 2), (255, 8), *identity]
        bits = "".join(f"{value:0{width}b}" for value, width in header).ljust(size, "1")
        return f"{int(bits.ljust(4 * digits, '0'), 2):0{digits}x}"

    def refused(self) -> str:
        """A telegram that the program refuses, or a few digits of one."""
        random, text = self.random, self.telegram()
        at = random.randrange(1, len(text))
        return random.choice(
            [
                text[:at] + random.choice("gzG?.Ol") + text[at + 1 :],
                text[:-1],
                text + "0",
                text[:-2],
                text[:at],
                text * 2,
                text[:-1] + "1",
                text[:4] + "2" + text[5:],
                (text * 5)[: random.choice([86, 256])],
                "0" * 54,
                random.choice(["x", "-", "see above", "a1 00"]),
            ]
        )

    def dressed(self, text: str) -> str:
        """The text in one of the spellings that are read."""
        random, way = self.random, self.random.randrange(6)
        if way == 0 and len(text) % 2 == 0:
            text = random.choice(":-").join(text[at : at + 2] for at in range(0, len(text), 2))
        elif way == 1:
            step, blank = random.choice([2, 4, 8]), random.choice(" \u00a0\t\u2009")
            text = blank.join(text[at : at + step] for at in range(0, len(text), step))
        elif way == 2:
            text = text.upper()
        text = f"{text}{random.choice('hH')}" if random.random() < 0.1 else text
        text = f"{random.choice(['0x', '0X'])}{text}" if random.random() < 0.1 else text
        before, after = random.choice([("", ""), ("", ""), ("", ""), ('"', '"'), ("'", ""), ("“", "”"), ("«", "»")])
        text = f"{before}{text}{after}"
        return f" {text}\u00a0" if random.random() < 0.1 else text

    def in_groups(self, text: str) -> str:
        """The text in groups, as tools write bytes."""
        random, size = self.random, self.random.choice([1, 2, 2, 2, 4, 8])
        parts = [text[at : at + size] for at in range(0, len(text), size)]
        marks = ["{}", '"{}"', "'{}'", "“{}”", "[{}]", *(MARKS if size > 1 else [])]
        between = random.choice([".", "_", " ", ", ", ",", "; ", "/", "|", " - ", "\u00b7", "\u200d", "\t", "~"])
        return between.join(map(random.choice(marks).format, parts))

    def stray(self) -> str:
        """A telegram, also a refused one, or a text that is one but for a few characters."""
        random, way = self.random, self.random.randrange(12)
        if way < 3:
            return self.dressed(self.telegram())
        if way < 5:
            return self.in_groups(self.telegram())
        if way == 5:
            return self.dressed(self.refused())
        if way < 9:
            length, other = random.choice([(39, 0), (39, 3), *2 * [(40, 0), (40, 4), (40, 5)], (50, 5), (50, 6)])
            digits = "".join(random.choice("0123456789abcdefABCDEF") for _ in range(length))
            return f"{digits[other:]}{random.choice(['z', 'g', '?', 'ß']) * other}"
        if way == 9:
            return f"{random.choice(['old: ', 'was ', 'v2 ', 'see '])}{self.telegram()}"
        if way == 10:
            return random.choice([" ", "; ", " / ", " und "]).join([self.telegram(), self.telegram()])
        return f"{self.telegram()}{random.choice([' (2024)', ' ?', ' ok', '.', ' replaced by another telegram'])}"


class Grid:
    """The rows of the table itself."""

    def __init__(self, maker: Maker, features: Set[str], is_workbook: bool) -> None:
        self.maker, self.random, self.features, self.is_workbook = maker, maker.random, features, is_workbook
        self.names = self._names()
        self.others = [at for at, name in enumerate(self.names) if name in (*OTHERS, "", COPY, LAST)]
        """The columns that are passed over."""
        self.column = self.names.index("telegram")
        self.data = self._data()
        self.merged: List[str] = []
        self._change_cells()
        self._change_rows()
        titles, head = self._titles(), self._heading()
        self.names_at = self.heading = len(titles) + 1
        """The row with the headings, and the last row that they cover if they are merged."""
        below = self._below_heading() if {"merged heading", "--fill-merged"} <= features else []
        self.heading += len(below)
        self.rows = [*titles, head, *below, *self.data]
        if "merged" in features:
            self._merge()

    def _has(self, *features: str) -> bool:
        return not self.features.isdisjoint(features)

    def _names(self) -> List[str]:
        random = self.random
        more = random.sample(["name", "track", "nominal"], random.randint(0, 2))
        if self._has("heading above") and "name" not in more:
            more.append("name")  # (of two rows with headings the one with more of them is read)
        names = ["group", "telegram", *more, *(["km"] if random.random() < 0.5 else [])]
        names += ["aspect"] if self._has("aspects") else []
        names += random.sample(OTHERS, random.randint(0, 2))
        if self._has("other column", "in heading", "line end", "formula", "--skip-column") and not set(names) & set(
            OTHERS
        ):
            names.append(random.choice(OTHERS))
        names += [""] if self._has("column without heading") else []
        names += [COPY] if self._has("second telegram column") else []
        random.shuffle(names)
        return [*names, LAST] if self._has("quote") else names

    def _data(self) -> List[Row]:
        """Rows of groups with one or two balises. The second one may have two aspects."""
        rows: List[Row] = []
        for number in range(self.random.randint(1, 6)):
            total = self.random.choice([0, 0, 1])
            several = total and self._has("aspects") and self.random.random() < 0.7
            rows.append(self._row(number, 0, total, "*" if several else ""))
            rows += [self._row(number, 1, total, each) for each in (["red", "green"] if several else [""] * total)]
        return rows

    def _row(self, number: int, place: int, total: int, aspect: str) -> Row:
        km = (10_000 + 1000 * number + 3 * place) / 1000
        texts: Dict[str, Cell] = {
            "group": f"G{number}",
            "telegram": self.maker.dressed(self.maker.telegram(place, total)),
            "km": km if self.is_workbook and number % 2 else f"{km:.3f}",
            "name": f"B{number}.{place}",
            "track": "1",
            "nominal": "rising",
            "aspect": aspect,
        }
        return [texts[name] if name in texts else self.random.choice(WORDS) for name in self.names]

    def _change_cells(self) -> None:
        """Puts telegrams and other things into random cells."""
        random, maker = self.random, self.maker
        texts = [name for name in self.names if name in ("group", "name", "track")]
        cells: List[Tuple[str, Callable[[], int], Callable[[], Cell]]] = [
            ("refused", lambda: self.column, lambda: maker.dressed(maker.refused())),
            ("other column", self._other, maker.stray),
            ("column without heading", lambda: self.names.index(""), maker.stray),
            ("second telegram column", lambda: self.names.index(COPY), lambda: maker.dressed(maker.telegram())),
            ("known column", lambda: self.names.index(random.choice(texts)), maker.stray),
            ("formula", self._other, lambda: Formula("A1", random.choice([maker.stray(), None]))),
            ("line end", self._other, self._with_line_end),
            ("number", self._other, lambda: random.choice([9.0072e52, 10**15, 0.5, True, 12])),
            ("runs", self._other, lambda: Runs((maker.telegram()[:9], maker.telegram()[9:20], maker.telegram()[20:]))),
        ]
        for feature, column, cell in cells:
            for _ in range(random.randint(1, 3) if feature in self.features else 0):
                random.choice(self.data)[column()] = cell()

    def _other(self) -> int:
        """Mostly a column that is passed over, if there is one."""
        is_read = not self.others or self.random.random() < 0.15
        return self.column if is_read else self.random.choice(self.others)

    def _with_line_end(self) -> str:
        stray, remark = self.maker.stray(), "replaced on 2024-05-01 by the telegram below"
        return self.random.choice(["a\nb", f"x\n{stray}", f"{remark}\n{stray}", f"{stray}\n", "\v", "\u2028x"])

    def _change_rows(self) -> None:
        """Makes rows longer or shorter, and puts empty ones between them."""
        random = self.random
        if self._has("trailing"):
            random.choice(self.data).extend(random.choice([[""], ["", ""], ["x"], [self.maker.stray()]]))
        for row in self.data if self._has("short row") else ():
            while row[-1] in ("", None) and len(row) > 1:
                row.pop()
        for _ in range(random.randint(1, 2) if self._has("blank row") else 0):
            self.data.insert(random.randint(0, len(self.data)), random.choice([[], ["", ""], [" "]]))

    def _titles(self) -> List[Row]:
        """The rows above the heading."""
        random, titles = self.random, []
        if self._has("title", "above heading"):
            kinds: List[Row] = [["Line 7"], [], ["", "2026-11-30"], ["a", "b", "c"]]
            titles = [list(random.choice(kinds)) for _ in range(random.randint(1, 4))]
        if self._has("above heading"):
            at = random.randrange(len(titles))
            titles[at] = [*[""] * random.randint(0, 2), self.maker.stray()]
        if self._has("heading above"):
            titles += [["group", "telegram"], ["A", self.maker.dressed(self.maker.telegram())]]
        return titles

    def _heading(self) -> Row:
        """The headings, in one of their spellings."""
        own = OWN if self._has("own headings", "second telegram column") else {}
        spelled = {name: self.random.choice([name, name.title(), name.upper(), f" {name} "]) for name in self.names}
        texts = {name: spelled[name] if name in ("group", "telegram") else name for name in self.names}
        texts.update({name: own[name] for name in self.names if name in own})
        texts.update({COPY: "telegram"} if COPY in self.names else {})
        if self._has("in heading") and self.others:
            texts[self.names[self.others[0]]] = self.maker.stray()
        return [texts[name] for name in self.names]

    def _below_heading(self) -> List[Row]:
        """Rows over which merged headings reach, some with a telegram beside these or under them."""
        random = self.random
        rows: List[Row] = [[None] * len(self.names) for _ in range(random.randint(1, 2))]
        columns = random.choice([[*range(len(self.names))], [self.names.index("group")]])
        self.merged += [area(at, self.heading, at, self.heading + len(rows)) for at in columns]
        if random.random() < 0.7:
            random.choice(rows)[random.randrange(len(self.names))] = self.maker.stray()
        return rows

    def _merge(self) -> None:
        """Merges cells of one column. What is in the cells below the first one mostly stays."""
        first = self.random.randint(self.heading + 1, len(self.rows))
        last = min(len(self.rows), first + self.random.randint(1, 2))
        at = self.random.randrange(len(self.names))
        self.merged.append(area(at, first, at, last))
        for row in self.rows[first:last]:
            if at < len(row) and self.random.random() < 0.3:
                row[at] = None


def letters(column: int) -> str:
    """The name of a column, which is counted from 0."""
    return (letters(column // 26 - 1) if column >= 26 else "") + chr(ord("A") + column % 26)


def area(left: int, top: int, right: int, bottom: int) -> str:
    """The name of an area. Rows are counted from 1, and columns from 0."""
    return f"{letters(left)}{top}:{letters(right)}{bottom}"


def made(seed: int) -> Made:
    """The table of this number."""
    random = Random(seed)
    is_workbook = random.random() < 0.55
    possible = [*OUTSIDE, *2 * (COMMON + (OF_WORKBOOK if is_workbook else OF_CSV))]
    features = set(random.sample(possible, random.choice([0, 1, 1, 2, 2, 3, 4])))
    if "merged heading" in features:
        features.add("--fill-merged")
    if features & {"limit", "--all"}:
        features.add("refused")
    if "same headings" in features and random.random() < 0.7:
        features.add("--sheet")
    return (_workbook if is_workbook else _csv)(Maker(random), features)


def _words(random: Random, features: Set[str], grid: Grid) -> Tuple[List[str], Dict[str, bytes]]:
    """The options, and the files that they name."""
    words = [word for word in ("--all", "--by-position", "--fill-merged") if word in features]
    beside: Dict[str, bytes] = {}
    if "--only" in features:
        families = ["F", "E", "F,E", "L,F"]
        words += ["--only", random.choice([*families, "L"] if "km" in grid.names else families)]
    if "--skip-column" in features and grid.others:
        at = random.choice(grid.others)
        words += ["--skip-column", str(grid.rows[grid.names_at - 1][at]).strip() or f"column {at + 1}"]
    if "messages" in features:
        lines = [random.choice([MESSAGE, f"{MESSAGE};to train 7", MESSAGE[:-2], "", "03"]) for _ in range(4)]
        words, beside["m.txt"] = [*words, "--messages", "m.txt"], "\n".join([*lines, MESSAGE, ""]).encode()
    if features & {"own headings", "second telegram column"}:
        pairs = [f'{name} = "{heading}"' for name, heading in OWN.items() if name in grid.names]
        name = random.choice(["own.toml", "balisekit.toml"])
        words += ["--columns", name] if name == "own.toml" else []
        beside[name] = "\n".join([random.choice(["[columns]", ""]), *pairs, ""]).encode()
    return words, beside


def _limit(random: Random, features: Set[str]) -> int:
    return random.randint(1, 3) if features & {"limit", "--all"} else 10_000


def _csv(maker: Maker, features: Set[str]) -> Made:
    """A CSV file in one of its spellings."""
    random, grid = maker.random, Grid(maker, features, False)
    separator, end = random.choice(",,;;\t"), random.choice(["\n", "\n", "\r\n", "\r"])
    rows = [["" if cell is None else str(cell) for cell in row] for row in grid.rows]
    first = [f"sep={separator}"] if "sep=" in features else []
    with_quote = "quote" in features and not features & {"line end", "short row"}
    lines = _lines_with_a_quote(random, grid, rows, separator) if with_quote else _lines(random, rows, separator)
    text = end.join([*first, *lines]) + random.choice(["", end, end])
    encoding = random.choice(["utf-8", "utf-8", "utf-8-sig", "utf-16", "utf-16-le", "cp1252"])
    try:
        content = text.encode(encoding)
    except UnicodeEncodeError:
        encoding, content = "utf-8", text.encode()
    words, beside = _words(random, features, grid)
    return Made(
        random.choice(["table.csv", "table.csv", "table.txt", "t ä.csv"]),
        content,
        lambda: cells_of_csv(content, encoding, separator),
        Known(None, grid.names_at, grid.heading, grid.column),
        words,
        beside,
        features,
        _limit(random, features),
    )


def _lines(random: Random, rows: Sequence[Sequence[str]], separator: str) -> List[str]:
    """The lines of these rows, each of which may have several."""
    quoting = random.choice([csv.QUOTE_MINIMAL, csv.QUOTE_MINIMAL, csv.QUOTE_ALL])
    return [_line(row, separator, quoting) for row in rows]


def _line(row: Sequence[str], separator: str, quoting: Any = csv.QUOTE_MINIMAL) -> str:
    out = io.StringIO(newline="")
    csv.writer(out, delimiter=separator, lineterminator="", quoting=quoting).writerow(row)
    return out.getvalue()


def _lines_with_a_quote(random: Random, grid: Grid, rows: Sequence[List[str]], separator: str) -> List[str]:
    """The lines of these rows. In the last column a quote opens in one row, and mostly closes in another one."""
    width, lines = len(grid.names), []
    for number, row in enumerate(rows, 1):
        row = row if number == grid.heading else row[: width - 1]
        lines.append(_line(row, separator) + separator * max(0, width - len(row)))
    first = random.randint(grid.heading, max(grid.heading, len(rows) - 2))
    last = min(len(rows) - 1, first + random.randint(0, 2))
    if first == last:
        lines[first] += '"see drawing"'
    else:
        lines[first] += '"see drawing'
        lines[last] += random.choice(['of 2024"', '"', '"', ""])
    return lines


def _workbook(maker: Maker, features: Set[str]) -> Made:
    """A workbook as a spreadsheet writes it, or openpyxl."""
    random, grid = maker.random, Grid(maker, features, True)
    hidden_rows = random.sample(range(1, len(grid.rows) + 1), 1) if "hidden row" in features else []
    hidden_columns = [random.randrange(len(grid.names))] if "hidden column" in features else []
    table = Sheet(grid.rows, "visible", grid.merged, hidden_rows, hidden_columns)
    sheets = [table, *_other_sheets(maker, features, grid)]
    random.shuffle(sheets)
    names = tuple(f"S{number}" for number in range(1, len(sheets) + 1))
    with_chart = "chart sheet" in features
    by_hand = not with_chart and random.random() < 0.9
    content = written(sheets) if by_hand else written_by_openpyxl(sheets, with_chart)
    words, beside = _words(random, features, grid)
    name = names[sheets.index(table)]
    words += ["--sheet", name] if "--sheet" in features else []
    known, limit = Known(name, grid.names_at, grid.heading, grid.column), _limit(random, features)
    return Made("table.xlsx", content, lambda: cells_of_workbook(content), known, words, beside, features, limit, names)


def _other_sheets(maker: Maker, features: Set[str], grid: Grid) -> List[Sheet]:
    """Sheets beside the table."""
    random, sheets = maker.random, []
    for feature in sorted(features & MORE_SHEETS):
        state = {"hidden sheet": "hidden", "very hidden sheet": "veryHidden"}.get(feature, "visible")
        names: Row = [*random.sample(["Signal", "Text", "Telegramm", "no", "Group name"], random.randint(1, 4))]
        names = list(grid.rows[grid.names_at - 1]) if feature == "same headings" else names
        rows = [names, *(_row_beside(maker, len(names)) for _ in range(random.randint(1, 4)))]
        if feature == "wide sheet":
            random.choice(rows).extend([*[None] * random.choice([20, 250]), maker.stray()])
        sheets.append(Sheet(rows, state))
    return [*sheets, *([Sheet([], random.choice(["visible", "hidden"]))] if "empty sheet" in features else [])]


def _row_beside(maker: Maker, width: int) -> Row:
    """A row of another sheet, which may have a telegram somewhere, or nothing at all."""
    random = maker.random
    row: Row = [random.choice([*WORDS, None, 7, 0.25]) for _ in range(width)]
    if random.random() < 0.6:
        row[random.randrange(width)] = maker.stray()
    return row if random.random() < 0.9 else []


def written(sheets: Sequence[Sheet]) -> bytes:
    """The workbook with parts as a spreadsheet writes them."""
    return workbook(*map(_xml, sheets), states=[sheet.state for sheet in sheets])


def _xml(sheet: Sheet) -> str:
    columns = "".join(f"<col min='{at + 1}' max='{at + 1}' hidden='1'/>" for at in sheet.hidden_columns)
    hidden = {number: " hidden='1'" for number in sheet.hidden_rows}
    rows = "".join(
        f"<row r='{number}'{hidden.get(number, '')}>{_cells(number, row)}</row>"
        for number, row in enumerate(sheet.rows, 1)
        if row
    )
    merged = "".join(f"<mergeCell ref='{each}'/>" for each in sheet.merged)
    return (
        f"<worksheet xmlns='{MAIN}'>{columns and f'<cols>{columns}</cols>'}<sheetData>{rows}</sheetData>"
        f"{merged and f'<mergeCells>{merged}</mergeCells>'}</worksheet>"
    )


def _cells(number: int, row: Row) -> str:
    return "".join(_cell(f"{letters(at)}{number}", cell) for at, cell in enumerate(row) if cell is not None)


def _cell(place: str, cell: Cell) -> str:
    if isinstance(cell, Formula):
        stored = "" if cell.value is None else f"<v>{escaped(cell.value)}</v>"
        return f"<c r='{place}' t='str'><f>{cell.text}</f>{stored}</c>"
    if isinstance(cell, Runs):
        runs = "".join(f"<r><rPr><b/></rPr><t>{escaped(part)}</t></r>" for part in cell.parts)
        return f"<c r='{place}' t='inlineStr'><is>{runs}</is></c>"
    if isinstance(cell, bool):
        return f"<c r='{place}' t='b'><v>{cell:d}</v></c>"
    if isinstance(cell, (int, float)):
        return f"<c r='{place}'><v>{cell!r}</v></c>"
    return f"<c r='{place}' t='inlineStr'><is><t xml:space='preserve'>{escaped(cell or '')}</t></is></c>"


def escaped(text: str) -> str:
    """The text within XML. XML has no control characters, so they are written as Excel writes them."""
    text = text.replace("&", "&amp;").replace("<", "&lt;")
    return "".join(f"_x{ord(each):04X}_" if each < " " and each not in "\t\n" else each for each in text)


def written_by_openpyxl(sheets: Sequence[Sheet], with_chart: bool) -> bytes:
    """The workbook as openpyxl writes it, with a sheet that is a chart behind the others if asked for."""
    import openpyxl
    from openpyxl.chart import BarChart

    book = openpyxl.Workbook()
    book.remove(book.active)
    for number, each in enumerate(sheets, 1):
        _fill(book.create_sheet(f"S{number}"), each)
    if with_chart:
        book.create_chartsheet("Chart").add_chart(BarChart())
    out = io.BytesIO()
    book.save(out)
    return out.getvalue()


def _fill(sheet: Any, made_of: Sheet) -> None:
    """Puts these cells into a sheet of openpyxl, which writes no value of a formula and no control characters."""
    sheet.sheet_state = made_of.state
    for number, cells in enumerate(made_of.rows, 1):
        for column, cell in enumerate(cells, 1):
            value: Any = f"={cell.text}" if isinstance(cell, Formula) else cell
            value = "".join(cell.parts) if isinstance(cell, Runs) else value
            sheet.cell(number, column).value = value.replace("\v", " ") if isinstance(value, str) else value
    for merged in made_of.merged:
        sheet.merge_cells(merged)
    for hidden in made_of.hidden_rows:
        sheet.row_dimensions[hidden].hidden = True

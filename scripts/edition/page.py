"""Parts of docs/assurance/edition.md, each between `<!-- PART -->` and `<!-- /PART -->`: the definitions of the reading
edition beside the rows of the table of variables.

- `layouts`: the fields of each layout
- `numbers`: variables whose numbers have names, or are not all allowed
"""
from __future__ import annotations

import re
from typing import Dict, Iterator, List, Sequence

from edition.definitions import TOP, definitions
from edition.wire import SPECS, Field, layouts
from variables.page import condition, numbers_text, table, with_doubt
from variables.table import Row, rows_of

PAGE = TOP / "docs/assurance/edition.md"
PART = re.compile(r"(?s)(<!-- (layouts|numbers) -->\n).*?(?=<!-- /\2 -->\n)")
BOX = "☐"
"""What a person ticks."""


def title(row: Row) -> str:
    """The heading of a layout."""
    kind, _, number = row.layouts.rpartition(" ")
    if not number.isdigit():
        return {"header": "The header of a telegram", "packet other": "Other packets to trains"}.get(
            row.layouts, "Other packets from trains")
    origin = " from train to track" * (kind == "train packet")
    return f"{kind.removeprefix('train ').capitalize()} {number}{origin}, {row.meaning}"


def by_the_table(row: Row) -> str:
    """What the table has about a variable: its width, its condition and its numbers."""
    width = f"{row.bits} bit{'s' * (row.width != 1)}" if row.bits else "the other bits"
    return with_doubt("; ".join(filter(None, [width, condition(row), numbers_text(row)])), row.doubt)


def beside(rows: Sequence[Row], fields: Sequence[Field]) -> Iterator[List[str]]:
    """The cells of a layout, which has its variables in the same order on both sides."""
    listed = [it for it in fields for _ in it.variable.split(" or ")]
    assert len(rows) == len(listed)
    for row, it in zip(rows, listed):
        yield [row.variable, f"`{it.term}`, line {it.place[1]}", by_the_table(row), BOX]


def layouts_part(rows: Sequence[Row]) -> str:
    """A heading and a table for each layout."""
    found = []
    for row in rows:
        own = rows_of(rows).get(row.layouts, [])
        if not row.variable and own:
            fields = layouts()[row.layouts]
            files = sorted({it.place[0] for it in fields})
            links = " and ".join(f"[{it.name}](../../{it.relative_to(TOP)})" for it in files)
            head = with_doubt(f"SUBSET-026, {row.section}. Lines of {links}.", row.doubt)
            cells = [*beside(own, fields)]
            found.append(f"### {title(row)}\n\n{head}\n\n" + table(["Variable", "Edition", "Table", "Print"], cells))
    return "".join(found)


def code_of(line: str) -> str:
    """A line of a definition as code in a cell, in which a bar would end the cell."""
    return f"<code>{line.replace('|', '&#124;')}</code>" if "|" in line else f"`{line}`"


def numbers_part(rows: Sequence[Row]) -> str:
    """The definitions of variables whose numbers have names or are not all allowed, beside their rows."""
    used: Dict[str, List[str]] = {}
    for field in (it for own in layouts().values() for it in own):
        used.setdefault(field.term.split()[0], []).extend(field.variable.split(" or "))
    cells = []
    for it in definitions().values():
        if it.path in (SPECS / "Variables.antt", SPECS / "TrainPackets.antt") and it.name in used:
            names = [*dict.fromkeys(used[it.name])]
            code = "<br>".join(map(code_of, it.text.splitlines()[1:]))
            read = {row.variable: numbers_text(row) for row in rows if row.variable in names}
            texts = {text: [name for name in names if read[name] == text] for text in read.values()}
            said = "<br>".join(f"{', '.join(own)}: {text}" for text, own in texts.items())
            cells.append([code, said, BOX])
    return table(["Edition", "Table", "Print"], cells)


def edition_page(rows: Sequence[Row]) -> str:
    """The page with its parts as they are made now."""
    text = PAGE.read_text("utf-8")
    parts = {"layouts": layouts_part(rows), "numbers": numbers_part(rows)}
    assert {name for _, name in PART.findall(text)} == {*parts}, "the page lacks a part"
    return PART.sub(lambda it: f"{it[1]}\n{parts[it[2]]}", text)

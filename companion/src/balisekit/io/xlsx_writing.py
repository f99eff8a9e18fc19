"""Workbooks that are written: one sheet, whose texts are no formulas. The same rows make the same bytes."""
from __future__ import annotations

import re
import shutil
from tempfile import TemporaryFile
from typing import IO, Any, Iterable, Iterator, Sequence, Union
from zipfile import ZIP_DEFLATED, ZipFile, ZipInfo

from balisekit.errors import TableError, needed

GREATEST_ROW = 1_048_576
"""The last row of a sheet."""
ANSWER = "answer"
"""The sheet that has the verdict."""
PIECE = 1 << 20
PURPOSE = "writing .xlsx (CSV needs no package)"
EARLIEST = (1980, 1, 1, 0, 0, 0)
"""The time of each part: the first one that a zip can have."""
PROPERTIES = "docProps/core.xml"
TIMES = re.compile(rb"<dcterms:(created|modified)\b.*?</dcterms:\1>", re.DOTALL)
Cell = Union[str, int, float, None]


def pieces(
    title: str,
    heading: Sequence[str],
    rows: Iterable[Sequence[Cell]],
    widths: Sequence[int] = (),
    purpose: str = PURPOSE,
    answer: Sequence[str] = (),
    is_whole: bool = True,
) -> Iterator[bytes]:
    """The bytes of a workbook with this sheet. Its rows are never in memory together.

    `widths` has those of the first columns, in characters. `purpose` is named if the package is absent. A second sheet
    has the lines of the answer. A spreadsheet opens it first unless the answer is whole.
    """
    with needed("openpyxl", purpose):
        import openpyxl
        from openpyxl.utils import get_column_letter
    book = openpyxl.Workbook(write_only=True)
    book.properties.creator = "balisekit"
    sheet = book.create_sheet(title)
    sheet.freeze_panes = "A2"
    for number, width in enumerate(widths, 1):
        sheet.column_dimensions[get_column_letter(number)].width = width
    sheet.append(list(heading))
    for number, row in enumerate(rows, 2):
        if number > GREATEST_ROW:
            raise TableError(f"an .xlsx has at most {GREATEST_ROW:,} rows, and there are more: write CSV")
        sheet.append([_cell(sheet, value) for value in row])
    second = book.create_sheet(ANSWER)
    for line in answer:
        second.append([_cell(second, line)])
    if not is_whole:
        book.active = second
    yield from _saved(book)


def _saved(book: Any) -> Iterator[bytes]:
    """The bytes of a workbook, which do not depend on the time."""
    with TemporaryFile() as made, TemporaryFile() as file:
        book.save(made)
        _without_times(made, file)
        file.seek(0)
        while True:
            piece = file.read(PIECE)
            if not piece:
                return
            yield piece


def _without_times(made: IO[bytes], target: IO[bytes]) -> None:
    """Copies a workbook without the times at which it and its parts were made."""
    with ZipFile(made) as old, ZipFile(target, "w") as new:
        for part in old.infolist():
            copy = ZipInfo(part.filename, EARLIEST)
            copy.compress_type, copy.file_size = ZIP_DEFLATED, part.file_size
            with old.open(part) as source, new.open(copy, "w") as sink:
                if part.filename == PROPERTIES:
                    sink.write(TIMES.sub(b"", source.read()))
                else:
                    shutil.copyfileobj(source, sink, PIECE)


def _cell(sheet: Any, value: Cell) -> Any:
    """A number, or a text that is taken for nothing else. Characters that no workbook can have are escapes."""
    if not isinstance(value, str):
        return value
    from openpyxl.cell import WriteOnlyCell
    from openpyxl.cell.cell import ILLEGAL_CHARACTERS_RE

    text = ILLEGAL_CHARACTERS_RE.sub(lambda found: ascii(found.group())[1:-1], value)
    if not text.startswith(("=", "#")):
        return text
    cell = WriteOnlyCell(sheet, text)
    cell.data_type = "s"
    return cell

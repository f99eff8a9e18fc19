"""Telegrams in pieces, one row below the other, with counters or words beside them: no row is lost without a word."""
from __future__ import annotations

from pathlib import Path
from typing import Any, Callable, List

import pytest
from conftest import Run
from telegrams import ALONE, OTHER

Write = Callable[..., Path]
FORMS = {
    "counter": "{number} {piece}",
    "counter with a point": "{number}. {piece}",
    "words": "part {number}: {piece} end",
    "a word of hexadecimal digits": "bed {piece}",
    "of how many": "{piece} {number}/5",
    "bytes": "{number}: {bytes}",
    "quoted": '"{number}"  0x{piece}',
}


def cells(form: str, size: int = 12) -> List[str]:
    """The pieces of a telegram in this form."""
    pieces = [OTHER[at : at + size] for at in range(0, len(OTHER), size)]
    by_bytes = [" ".join(piece[at : at + 2] for at in range(0, len(piece), 2)) for piece in pieces]
    return [
        form.format(number=number, piece=piece, bytes=each)
        for number, (piece, each) in enumerate(zip(pieces, by_bytes), 1)
    ]


def is_incomplete(run: Run, path: Path) -> bool:
    """Whether the answer names possible telegrams that are not read."""
    return any(line.startswith("INCOMPLETE") for line in run("check", path)[1])


@pytest.mark.parametrize("form", FORMS.values(), ids=FORMS)
def test_pieces_in_a_column(run: Run, table: Write, form: str) -> None:
    quoted = [cell.replace('"', '""') for cell in cells(form)]
    lines = [f'G{number},{ALONE},"{cell}"' for number, cell in enumerate(quoted)]
    assert is_incomplete(run, table("group,telegram,remark", *lines))


@pytest.mark.parametrize(
    "beside", [lambda at: [at + 1], lambda at: ["part"], lambda at: [100 + at, at]], ids=["counter", "word", "numbers"]
)
def test_pieces_in_another_sheet(run: Run, tmp_path: Path, beside: Callable[[int], List[Any]]) -> None:
    """A counter or a word is in the column before the pieces."""
    openpyxl = pytest.importorskip("openpyxl")
    book = openpyxl.Workbook()
    for row in (("group", "telegram"), ("G", ALONE)):
        book.active.append(row)
    other = book.create_sheet("Other")
    for at, piece in enumerate(cells("{piece}", 8)):
        other.append([*beside(at), piece, 7])
    path = tmp_path / "t.xlsx"
    book.save(path)
    assert is_incomplete(run, path)


def test_counters_and_words_are_no_telegram(run: Run, table: Write) -> None:
    """Names and numbers that begin as a telegram does."""
    remarks = ["a1 of 5", "90 12 34 f", "a1027f x", "9101 face", "part 9: bed fa", "91 00 12 fe", "a1 0 f", "a1 on 2"]
    lines = [f"G{number},{ALONE},{remark}" for number, remark in enumerate(remarks * 20)]
    out = run("check", table("group,telegram,remark", *lines))[1]
    assert not [line for line in out if line.startswith(("INCOMPLETE", "not judged"))]

"""Columns with checksums of telegrams beside them are no telegrams, and no column of pieces is taken for checksums."""
from __future__ import annotations

import hashlib
from pathlib import Path
from typing import Callable, List

import pytest
from conftest import Run
from telegrams import ALONE, OTHER

Write = Callable[..., Path]
ROWS = 60


def checksum(number: int, digits: int) -> str:
    """Digits as a checksum of this length has."""
    return hashlib.sha512(f"row {number}".encode()).hexdigest()[:digits]


def is_incomplete(run: Run, path: Path) -> bool:
    """Whether the answer names possible telegrams that are not read."""
    return any(line.startswith("INCOMPLETE") for line in run("check", path)[1])


@pytest.mark.parametrize("prefix", ["", "0x"])
@pytest.mark.parametrize("lengths", [(16,), (32, 16), (16, 32), (16, 8)], ids=str)
def test_checksums(run: Run, table: Write, lengths: List[int], prefix: str) -> None:
    """CRC-64 by itself, with MD5 and with CRC-32: fewer digits than a telegram has."""
    names = ",".join(f"sum {number}" for number in range(len(lengths)))
    cells = (",".join(prefix + checksum(row, each)[:each] for each in lengths) for row in range(ROWS))
    lines = [f"G{row},{12 + row}.500,{ALONE},{own}" for row, own in enumerate(cells)]
    assert not is_incomplete(run, table(f"group,km,telegram,{names}", *lines))


def pieces(*ends: int) -> str:
    """A telegram in cells that end behind these digits."""
    return ",".join(OTHER[begin:end] for begin, end in zip((0, *ends), (*ends, len(OTHER))))


LONG = (ALONE[:50] + "0123456789abcdef" * 12)[:208]
HIDDEN = {
    "three pieces": ["group,telegram,a,b,c", *(f"G{row},{ALONE},{pieces(32, 48)}" for row in range(ROWS))],
    "the first piece as a name": [
        "group,telegram,name,md5,crc",
        *(f"G{row},{ALONE},{OTHER[:6]},{OTHER[6:38]},{OTHER[38:54]}" for row in range(ROWS)),
    ],
    "four columns": [
        "group,telegram,a,b,c,d",
        *(f"G{row},{ALONE},{','.join(checksum(row * 4 + at, 16) for at in range(4))}" for row in range(ROWS)),
    ],
    "beginnings": ["group,telegram,a", *(f"G{row},{ALONE},{OTHER[:16]}" for row in range(ROWS))],
    "one beginning": ["group,telegram,a", f"G,{ALONE},{OTHER[:16]}"],
    "fill": ["group,telegram,a", *(f"G{row},{ALONE},a1ffffffffffffff" for row in range(ROWS))],
    "another length": [
        "group,telegram,a",
        *(f"G{row},{ALONE},{checksum(row, 16 if row else 18)}" for row in range(ROWS)),
    ],
    "rows": [
        "group,telegram,a",
        *(f"G{row},{ALONE},{LONG[16 * (row % 13):16 * (row % 13) + 16]}" for row in range(13)),
    ],
}


@pytest.mark.parametrize("lines", HIDDEN.values(), ids=HIDDEN)
def test_pieces(run: Run, table: Write, lines: List[str]) -> None:
    """Parts of telegrams of the same lengths are still named as not read."""
    assert is_incomplete(run, table(*lines))

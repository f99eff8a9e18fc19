"""Telegrams in pieces of which one is as long as a checksum (split_digits.txt), and tables that only look like it."""
from __future__ import annotations

import hashlib
import re
from pathlib import Path
from random import Random
from typing import Callable, List, Tuple

import pytest
from conftest import Run
from telegrams import ALONE, FAULTY
from test_unread_digits import rows_named

from balisekit.tables import pieces, unread_digits

Write = Callable[..., Path]
_LINES = Path(__file__).with_name("split_digits.txt").read_text("utf-8").splitlines()
ROWS = [line for line in _LINES if not line.startswith("#")]
REAL = "a1007f802000c31024a5007fe007d002a813a000105080647fffc0"
"""It has packets."""
SHORT = "a1027fac0000c1503620fa000111420fa0001d17ffffffffffffc0"
"""It has fill from the 41st digit on."""
TELEGRAMS = {"bare": ALONE, "faulty": FAULTY, "packets": REAL}


def cells_of(line: str, telegram: str) -> List[str]:
    """The cells of a line for this telegram."""
    before, sizes, fill, rest = re.fullmatch(r"(b?0?){([0-9 ]+)}([0f]?)(.*)", line).groups()  # type: ignore[union-attr]
    digits = f"b{telegram[1:]}" if "b" in before else telegram
    digits = f"{'0' * 10 if '0' in before else ''}{digits}{fill * 10}"
    cells, at = [], 0
    for size in map(int, sizes.split()):
        cells.append(digits[at : at + size])
        at += size
    return [*filter(None, [*cells, digits[at:]]), *(cell.strip() for cell in rest.split("|") if cell.strip())]


@pytest.mark.parametrize("telegram", TELEGRAMS.values(), ids=TELEGRAMS)
@pytest.mark.parametrize("between", ["\t", " ", " ; "])
def test_side_by_side(telegram: str, between: str, run: Run, table: Write) -> None:
    """In cells side by side, and in one cell."""
    rows = [cells_of(line, telegram) for line in ROWS]
    names = [f"c{at}" for at in range(max(map(len, rows)))]
    lines = ["\t".join([f"G{at}", ALONE, between.join(cells)]) for at, cells in enumerate(rows)]
    named = rows_named(run, table("\t".join(["group", "telegram", *names]), *lines))
    assert [line for number, line in enumerate(ROWS, 2) if number not in named] == []


@pytest.mark.parametrize("telegram", [ALONE, REAL], ids=["bare", "packets"])
@pytest.mark.parametrize("sizes", ["12 40 2", "12 12 12 12 6", "10 10 10 10 10 4", "8 8 8 8 8 8 6"])
def test_one_below_the_other(telegram: str, sizes: str, run: Run, table: Write) -> None:
    """In one column, and in another sheet."""
    cells = cells_of(f"{{{sizes}}}", telegram)
    lines = [["B 1", ""], *(["A", cell] for cell in cells), ["B 2", "a1"]]
    path = table("group;telegram;old", *(f"{name}{at};{ALONE};{cell}" for at, (name, cell) in enumerate(lines)))
    assert rows_named(run, path) == [*range(3, 3 + len(cells))]
    book = pytest.importorskip("openpyxl").Workbook()
    for row in (["group", "telegram"], ["A", ALONE]):
        book.active.append(row)
    other = book.create_sheet("other")
    for _, cell in lines:
        other.append([cell or None])
    path = table(content=b"", name="book.xlsx")
    book.save(path)
    assert rows_named(run, path) == [*range(2, 2 + len(cells))]


@pytest.mark.parametrize("sizes", ["20 20", "26 14", "10 10 10 10", "8 8 8 8 8"])
def test_one_below_the_other_without_fill(sizes: str, run: Run, table: Write) -> None:
    """What fills a telegram up behind its packets is often not written."""
    digits = SHORT.rstrip("0c").rstrip("f")
    rest = f"{{{sizes}}}"
    cells = [" ".join(cell[at : at + 2] for at in range(0, len(cell), 2)) for cell in cells_of(rest, digits)]
    path = table("group;telegram;old", *(f"G{at};{ALONE};{cell}" for at, cell in enumerate(["", *cells, "a1"])))
    assert len(digits) == 40 and rows_named(run, path) == [*range(3, 3 + len(cells))]


@pytest.mark.parametrize("size", [8, 16, 20, 24])
def test_rows_of_random_digits(size: int) -> None:
    """In 20,000 rows at most one run of them looks like a telegram: lists of checksums are none."""
    random = Random(size)
    rows = sorted(unread_digits.digits_in_rows([f"{random.getrandbits(4 * size):0{size}x}" for _ in range(20_000)]))
    assert sum(row - 1 not in rows for row in rows) <= 1


@pytest.mark.parametrize("kind", ["md5", "sha1", "sha256"])
def test_checksums_in_columns(kind: str, run: Run, table: Write) -> None:
    """More than four of one length in a row could be the lines of a telegram: all their columns are named."""
    sums = [getattr(hashlib, kind)(f"{at}".encode()).hexdigest() for at in range(5)]
    path = table(";".join(["group", "telegram", *"abcde"]), ";".join(["G", ALONE, *sums]))
    status, out, _ = run("check", path)
    assert status == 2 and 'in columns "a", "b", "c", "d", "e", row 2' in "\n".join(out)


def test_legal_tables(run: Run, table: Write) -> None:
    """Checksums of each kind beside names, numbers, UUIDs and other checksums, in 500 rows."""
    lines = ["\t".join(["group", "telegram", "md5", "sha1", "sha256", "sha512", "drawn", "uuid", "name", "no", "rev"])]
    for at in range(500):
        md5, sha1, sha256, sha512 = (
            getattr(hashlib, kind)(f"{kind}{at}".encode()).hexdigest() for kind in ("md5", "sha1", "sha256", "sha512")
        )
        uuid = f"{md5[:8]}-{sha1[:4]}-{sha256[:4]}-{sha512[:4]}-{sha1[8:20]}"
        more = ["20240501" if at % 2 else "202405011200", uuid, f"B{at}", f"{901200000000 + 999983 * at}", sha1[:7]]
        kept = [md5 if at % 3 else "", sha1 if at % 2 else "", sha256, sha512 if at % 5 else "0" * 128, *more]
        lines.append("\t".join([f"G{at}", ALONE, *kept]))
    assert rows_named(run, table(*lines)) == []
    for column in range(2, 11):
        cells = [row.split("\t") for row in lines]
        assert rows_named(run, table(*("\t".join([*row[:2], row[column]]) for row in cells))) == []


SIZES = {
    "md5, crc32 and crc16": (32, 8, 4),
    "md5, crc16, crc32 and adler": (32, 4, 8, 8),
    "md5 and two crc32": (32, 8, 8),
    "two md5 and two crc32": (32, 32, 8, 8),
    "sha1 and device": (40, 12),
    "device and sha1": (12, 40),
    "sha1, revision and crc32": (40, 7, 8),
    "sha1 and two revisions": (40, 7, 7),
    "md5, sha1, sha256 and two crc32": (32, 40, 64, 8, 8),
}
"""How many digits the checksums of a row have."""


@pytest.mark.parametrize("between", ["\t", " ", " ; "])
@pytest.mark.parametrize("sizes", SIZES.values(), ids=SIZES)
def test_checksums_beside_checksums(sizes: Tuple[int, ...], between: str, run: Run, table: Write) -> None:
    """They are no telegram in pieces, in cells side by side or in one cell: 60 rows of them."""
    lines = []
    for at in range(60):
        cells = [hashlib.sha512(f"{at} {place}".encode()).hexdigest()[:size] for place, size in enumerate(sizes)]
        lines.append("\t".join([f"G{at}", ALONE, between.join(cells)]))
    named = rows_named(run, table("\t".join(["group", "telegram", *(f"c{at}" for at in range(len(sizes)))]), *lines))
    assert named == []
    counted = [line.split("\t")[2] for line in lines if between != "\t"]
    assert not any(map(unread_digits.could_hold_telegram, counted))


@pytest.mark.parametrize(
    "text",
    [
        "5d1ee6a0c17a55f40b8bc4a4e9e20b2c2f3c4c01 a51cb2d8 Ada Faced Added a decade of facade",
        "a1007f80c17a55f40b8bc4a4e9e20b2c2f3c4c01 a51cb2d8 Added F2 and E10",
        "a1007f80c17a55f40b8bc4a4e9e20b2c2f3c4c01 A. Decade B20",
        "a1007f80c17a55f40b8bc4a4e9e20b2c a1007 B20 Added Decade Faced",
    ],
)
@pytest.mark.parametrize("between", ["\t", " "])
def test_words_are_no_rest(text: str, between: str, run: Run, table: Write) -> None:
    """Words with no other letters than a to f, beside a checksum that has a header at its beginning or has none."""
    words = text.split()
    heading = "\t".join(["group", "telegram", *(f"c{at}" for at in range(len(words)))])
    assert rows_named(run, table(heading, "\t".join(["G", ALONE, between.join(words)]))) == []


@pytest.mark.parametrize(
    "text",
    [
        f"{REAL[:12]} {REAL[12:52]}",
        f"{REAL[:40]} {REAL[40:52]}",
        f"{REAL[:32]} {REAL[32:40]} {REAL[40:50]}",
        f"b{REAL[1:12]} {REAL[12:52]} ffffffff",
        f"b{REAL[1:12]} {REAL[12:50]}ff c0ffffffffff",
    ],
)
@pytest.mark.parametrize("between", ["\t", " "])
def test_a_header_or_fill_of_what_is_cut(text: str, between: str, run: Run, table: Write) -> None:
    """A telegram that lacks digits, or has a faulty version, is named if it has a header or fill."""
    cells = text.split()
    heading = "\t".join(["group", "telegram", *(f"c{at}" for at in range(len(cells)))])
    assert rows_named(run, table(heading, "\t".join(["G", ALONE, between.join(cells)]))) == [2]


def naively(rows: List[List[str]]) -> List[range]:
    """What `in_rows` yields, if each row is tried."""
    found, at = [], 0
    while at < len(rows):
        count = pieces._rows_from(rows, at) if rows[at] else 0
        found += [range(at, at + count)] if count > 1 else []
        at += max(1, count)
    return found


def test_rows_are_tried_if_a_telegram_can_begin(monkeypatch: pytest.MonkeyPatch) -> None:
    """A quick look at what follows a row finds the same telegrams. A column of numbers such as A000123-F has none."""
    random = Random(1)
    for _ in range(300):
        rows: List[List[str]] = []
        while len(rows) < 30:
            fill, telegram = random.choice(["", "f" * 12, "000"]), random.choice([REAL, ALONE, REAL.upper()])
            cells = re.findall(f".{{1,{random.choice([2, 7, 12, 40])}}}", fill + telegram + "f" * random.randrange(9))
            rows += random.choice([[], [[]], [["ff"]], [["A1", "90"]], [["A000017", "F"]]])
            rows += [[cell] for cell in cells[: random.choice([len(cells), len(cells), 5])]]
        assert list(pieces.in_rows(rows)) == naively(rows)
    tried: List[int] = []

    def none_from(_: object, begin: int) -> int:
        tried.append(begin)
        return 0

    monkeypatch.setattr(pieces, "_rows_from", none_from)
    assert not list(pieces.in_rows([[f"A{number:06d}", "F"] for number in range(2000)])) and len(tried) < 20

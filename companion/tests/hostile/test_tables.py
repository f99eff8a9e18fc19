"""Tables and files of messages that take too long, or whose cause is hard to see."""

from __future__ import annotations

import os
import random
from decimal import Decimal
from pathlib import Path
from typing import Callable, Dict, Iterator, List, Tuple

import pytest
from conftest import Run
from limits import is_within
from telegrams import ALONE, FIRST, MESSAGE, OTHER, SECOND

from balisekit.errors import KitError
from balisekit.tables import grouping, messages, reader
from balisekit.tables.model import Aspect, Group, Row
from balisekit.tables.names import clean, describe_balise

Write = Callable[..., Path]


def by_turns(count: int) -> Iterator[str]:
    """Rows of two groups by turns, as where the column `group` holds the track."""
    yield "group,telegram"
    yield from (f"{'AB'[number % 2]},{ALONE}" for number in range(count))


def lacking(count: int) -> Iterator[str]:
    """Aspects of one group, each with a balise of its own, and one with a second."""
    yield "group,aspect,name,telegram"
    yield from (f"A,{number},B{number},{ALONE}" for number in range(count))
    yield f"A,0,B,{ALONE}"


def every(count: int) -> Iterator[str]:
    """Rows of every aspect, and as many aspects."""
    yield "group,aspect,telegram"
    yield from (f"A,*,{ALONE}" for _ in range(count))
    yield from (f"A,{number},{ALONE}" for number in range(count))


QUADRATIC: Dict[str, Tuple[Callable[[int], Iterator[str]], int, str]] = {
    "rows of two groups by turns": (
        by_turns,
        20_000,
        'row 18: group "A" has 10000 balises, and at most 8 are possible: are they of several aspects?',
    ),
    "balises that lack aspects": (
        lacking,
        4_000,
        'row 2: balise "B0" of group "A" has no telegram for aspects "1" (row 3), "2" (row 4), ',
    ),
    "rows of every aspect": (every, 4_000, 'row 10: group "A" has 4001 balises, and at most 8 are possible'),
}


@pytest.mark.uncovered
@pytest.mark.parametrize("name", QUADRATIC)
def test_refusals_in_proportion_to_the_table(table: Write, name: str) -> None:
    """A refusal takes a few seconds at most, and its lines are short."""
    make, count, wanted = QUADRATIC[name]
    path = table(*make(count))

    def refused() -> None:
        with pytest.raises(KitError) as raised:
            reader.read(str(path))
        errors.append(raised.value)

    errors: List[KitError] = []
    assert is_within(4, refused)
    lines = [line.replace(f"{path}: ", "") for line in errors[0].lines()]
    assert lines[0].startswith(wanted) and len(lines) <= 21 and max(map(len, lines)) < 1000


def test_rows_that_are_many_are_counted(table: Write) -> None:
    """The first 20 are named."""
    path = table(*by_turns(16), *(f"A{number},{ALONE}" if number % 2 else f"C,{ALONE}" for number in range(45)))
    with pytest.raises(KitError) as raised:
        reader.read(str(path))
    shown = ", ".join(str(number) for number in range(2, 42, 2))
    last = grouping._rows([Row(number, "A", ALONE) for number in range(2, 46, 2)])
    assert last == f"rows {shown} and 2 more" and len(raised.value.lines()) == 21


@pytest.mark.uncovered
def test_many_aspects(table: Write) -> None:
    """10,000 aspects of a group are read, and each row is described, in a few seconds."""
    count = 10_000
    path = table("group,aspect,telegram", *(f"A,{number},{ALONE}" for number in range(count)))
    described: List[str] = []

    def describe() -> None:
        group = reader.read(str(path)).groups[0]
        described[:] = [describe_balise(group, row) for row in group.rows()]

    assert is_within(4, describe)
    assert len(described) == count and described[-1] == 'row 10001  A  aspect "9999"  balise (first of its group)'


UNREADABLE: List[Tuple[bytes, str]] = [
    (b"", "the table is empty: it needs a row with the headings group and telegram"),
    (b"\n\n", "the table is empty: it needs a row with the headings group and telegram"),
    (b"\ngroup,telegram\n\n", "the table has no row below its heading"),
    (
        b"group,tele\xe2\x80\x8bgram\nA,00\n",
        "row 1: no column telegram: the headings are group, tele\\u200bgram; give --columns FILE, a text file with the "
        'line columns = { telegram = ".." }',
    ),
]


@pytest.mark.parametrize("content, wanted", UNREADABLE)
def test_texts(run: Run, tmp_path: Path, content: bytes, wanted: str) -> None:
    """The cause is named, with what cannot be seen."""
    path = tmp_path / "t.csv"
    path.write_bytes(content)
    assert run("check", path) == (2, [], [f"balisekit: {path}: {wanted}"])


@pytest.mark.parametrize("content", ["", "\n\n", " \t\n"])
def test_messages_without_a_message(run: Run, table: Write, content: str) -> None:
    """As a table without a row, they are no input at all."""
    path, file = table("group,telegram", f"A,{ALONE}"), table(content, name="m.txt")
    why = "the file has no message: write one per line in hexadecimal digits, with its name after ;"
    for command in ("check", "show", "links"):
        assert run(command, path, "--messages", file) == (2, [], [f"balisekit: {file}: {why}"])
    assert len(messages.read(str(table(MESSAGE, name="m.txt"))).messages) == 1


INVISIBLE = {
    "\u200b": "\\u200b",
    "\u061c": "\\u061c",
    "\u3164": "\\u3164",
    "\u00ad": "\\xad",
    "\u2060": "\\u2060",
    "\u2800": "\\u2800",
    "\U000e0041": "\\U000e0041",
    "\ufe0f": "\\ufe0f",
    "\u034f": "\\u034f",
    "\uffa0": "\\uffa0",
    "\u202e": "\\u202e",
    "\u2028": "\\u2028",
    "\x1b": "\\x1b",
    "\ud800": "\\ud800",
    "\uffff": "\\uffff",
    "\u00a0": "\u00a0",
    "\u3000": "\u3000",
    "ü": "ü",
    "信": "信",
    "\u0438": "\u0438",
    "i\u0308": "i\u0308",
}


@pytest.mark.parametrize("text, shown", INVISIBLE.items(), ids=map(ascii, INVISIBLE))
def test_names_with_invisible_characters(text: str, shown: str) -> None:
    """What cannot be seen is shown as an escape. Letters and blanks of all scripts stay as they are."""
    assert clean(f"Signal {text}A") == f"Signal {shown}A"


KILOMETRES = ["13.8505", "13.8515", "9999.9999", "0.000001"]


@pytest.mark.parametrize("km", KILOMETRES)
def test_kilometres_are_not_rounded(run: Run, table: Write, km: str) -> None:
    """They are written as the table has them."""
    spoilt = f"{ALONE[:-2]}1{ALONE[-1]}"
    status, out, _ = run("check", table("group,km,telegram", f"A,{km},{spoilt}", f"B,{km},{OTHER}"))
    assert status == 2 and out[1].startswith(f"row 2  A  km {km}  balise (first of its group): ")


def test_order_of_positions() -> None:
    """As check and show order balises with --by-position."""
    rows = [Row(number, "A", ALONE, aspect="x") for number in (2, 3, 4)]
    group = Group("A", (Aspect("x", tuple(rows)),))
    ordered = grouping.by_position(group, {2: 2, 3: 0, 4: 1})
    assert [row.number for row in ordered.rows()] == [3, 4, 2] and ordered.places == {3: 0, 4: 1, 2: 2}


CONTRADICTING = {"km": ("1.1", "1.2", "1.3"), "name": ("P", "Q", "R")}
"""A column, and its cells for the first balise, for the second one, and for the second one in another aspect."""


@pytest.mark.parametrize("command", ["check", "plan", "show"])
@pytest.mark.parametrize("column", CONTRADICTING)
def test_by_position_a_balise_has_one_name_and_kilometre(run: Run, table: Write, column: str, command: str) -> None:
    """In the order of N_PIG, aspects that contradict each other are refused, as they are in the order of the rows."""
    first, second, other = CONTRADICTING[column]
    rows = [f"A,x,{first},{FIRST}", f"A,x,{second},{SECOND}", f"A,y,{{}},{SECOND}", f"A,y,{first},{FIRST}"]
    heading = f"group,aspect,{column},telegram"
    same = table(heading, *rows).read_text("utf-8").format(second)
    assert run(command, table(content=same.encode()), "--by-position")[0] < 2
    path = table(content=same.replace(f"A,y,{second}", f"A,y,{other}").encode())
    said = f"row 4, column {column}: {other}, and row 3, the same balise by N_PIG, has {second}"
    status, _, err = run(command, path, "--by-position")
    assert (status, err) == (2, [f"balisekit: {path}: {said}"])


def test_by_position_kilometres_rise_or_fall(run: Run, table: Write) -> None:
    """Kilometres in another order than N_PIG are refused, as those in another order than the rows."""
    texts = [f"{head}{ALONE[4:]}" for head in ("a105", "a115", "a125")]
    rows = [f"A,{km},{text}" for km, text in zip(("1.1", "1.2", "1.3"), (texts[0], texts[2], texts[1]))]
    path = table("group,km,telegram", *rows)
    status, _, err = run("check", path, "--by-position")
    assert (status, err) == (2, [f"balisekit: {path}: row 3, column km: the kilometres of the group rise and fall"])


@pytest.mark.uncovered
@pytest.mark.parametrize("count", [4_000, pytest.param(20_000, marks=pytest.mark.slow)])
def test_the_short_way_of_groups(count: int) -> None:
    """What is found at once of a group without a fault is what all the checks find of it."""
    draw = random.Random(7)
    plain = 0
    for _ in range(count):
        size = draw.randint(1, 5)
        use = [draw.random() < 0.5 for _ in range(5)]
        rows = [
            Row(
                number,
                "A",
                ALONE,
                aspect=draw.choice(["", "x"]) if use[0] else "*xy"[number % 3],
                balise=draw.choice([None, 0, 1]) if use[1] else None,
                name=draw.choice(["A", "a", "b", ""]) if use[2] else "",
                km=draw.choice([None, Decimal(1), Decimal(2), Decimal(3)]) if use[3] else None,
                track=draw.choice(["", "t", "u"]) if use[4] else "",
            )
            for number in range(2, 2 + size)
        ]
        aspects = grouping._plain_aspects("A", rows)
        if aspects is not None:
            plain += 1
            assert grouping._aspects("A", rows, False) == (aspects, [])
            assert grouping._aspects("A", rows, True) == (aspects, [])
    assert plain > count // 20


def test_files_that_are_too_large(run: Run, tmp_path: Path) -> None:
    """A file of more than 2 GB is refused before it is read. This one takes no room on the disk."""
    path = tmp_path / "t.csv"
    path.touch()
    os.truncate(path, 2 * 10**9 + 1)
    answers: List[object] = []
    assert is_within(1, lambda: answers.append(run("check", path)))
    why = "it has 2,000,000,001 bytes, more than 2,000,000,000: divide it into several files"
    assert answers[-1] == (2, [], [f"balisekit: {path}: {why}"])


def test_many_columns_that_are_passed_over(run: Run, table: Write) -> None:
    """The first 20 are named, and the others counted."""
    names = [f"c{number}" for number in range(1000)]
    _, out, _ = run("check", table(",".join(["group", "telegram", *names]), ",".join(["A", ALONE, *["x"] * 1000])))
    line = next(line for line in out if line.startswith("columns passed over"))
    assert line == f"columns passed over: {', '.join(names[:20])} and 980 more"


def test_a_mistyped_heading_behind_many_columns(run: Run, table: Write) -> None:
    """It is named, however many columns are passed over before it."""
    names = [*(f"c{number}" for number in range(30)), "Aspct", "c30"]
    _, out, _ = run("check", table(",".join(["group", "telegram", *names]), ",".join(["A", ALONE, *["x"] * 32])))
    line = next(line for line in out if line.startswith("columns passed over"))
    assert line == f"columns passed over: {', '.join(names[:20])}, Aspct (did you mean \"aspect\"?) and 11 more"


def test_numbers_of_kilometres(table: Write) -> None:
    """A sign is for plain numbers only."""
    with pytest.raises(KitError, match="-1\\+850 is no kilometre"):
        reader.read(str(table("group,km,telegram", f"A,-1+850,{ALONE}")))
    rows = reader.read(str(table("group,km,telegram", f"A,\u22121.5,{ALONE}", f"B,1+850.5,{ALONE}"))).rows
    assert [row.km for row in rows] == [Decimal("-1.5"), Decimal("1.8505")]

"""Tables in all their spellings, and those that cannot be read."""
from __future__ import annotations

import csv
import datetime
import io
import os
import sys
import zipfile
from decimal import Decimal
from pathlib import Path
from typing import Any, Callable, Dict, List, Sequence

import pytest
from cases_of_program import TOP
from conftest import Run
from telegrams import ALONE, FIRST, MESSAGE, OTHER, SECOND

from balisekit.errors import KitError, TableError, TableErrors
from balisekit.tables import messages as messages_file, reader as tables, xlsx as xlsx_file
from balisekit.tables.cells import NOT_CALCULATED
from balisekit.tables.model import Table
from balisekit.tables.names import describe_rows

Write = Callable[..., Path]
PAIR = ["group,telegram", f"A,{FIRST}", f"A,{SECOND}", f"B,{OTHER}"]


def shape(table: Table) -> List[Any]:
    """The names of groups and aspects with the numbers of their rows."""
    return [
        (group.name, [(one.name, [row.number for row in one.rows]) for one in group.aspects]) for group in table.groups
    ]


@pytest.mark.uncovered
@pytest.mark.parametrize("separator", [",", ";", "\t"])
@pytest.mark.parametrize("encoding", ["utf-8", "utf-8-sig", "utf-16", "utf-16-le", "utf-16-be", "cp1252"])
@pytest.mark.parametrize("end", ["\n", "\r\n", "\r"])
def test_spellings_of_csv(table: Write, separator: str, encoding: str, end: str) -> None:
    lines = ["Telegram|GROUP| km |Name|more", f"{ALONE}|Signal 1 West|13.850|Süd|x", f"{OTHER}|2|13+950|é|"]
    text = "".join(line.replace("|", separator) + end for line in lines)
    read = tables.read(str(table(content=text.encode(encoding))))
    assert [(row.group, row.telegram, row.km, row.name) for row in read.rows] == [
        ("Signal 1 West", ALONE, Decimal("13.850"), "Süd"),
        ("2", OTHER, Decimal("13.950"), "é"),
    ]
    assert read.passed_over == ("more",) and read.separator == separator


def test_groups_in_the_order_of_their_first_row(table: Write) -> None:
    assert shape(tables.read(str(table(*PAIR)))) == [("A", [("", [2, 3])]), ("B", [("", [4])])]


def test_aspects_and_balises(table: Write) -> None:
    read = tables.read(
        str(
            table(
                "group,aspect,balise,telegram",
                f"A,red,2,{SECOND}",
                f"A,red,1,{FIRST}",
                f"A,green,1,{FIRST}",
                f"A,green,2,{SECOND}",
            )
        )
    )
    assert shape(read) == [("A", [("red", [3, 2]), ("green", [4, 5])])]


def test_the_name_of_the_group_tells_no_balise(table: Write) -> None:
    """A column with the signal's name in each row is accepted if the group has the same name."""
    read = tables.read(str(table("group,aspect,name,telegram", f"A,*,A,{FIRST}", f"A,x,A,{SECOND}", f"A,y,A,{SECOND}")))
    assert shape(read) == [("A", [("x", [2, 3]), ("y", [2, 4])])]


def test_a_telegram_of_every_aspect(table: Write) -> None:
    read = tables.read(str(table("group,aspect,telegram", f"A,*,{FIRST}", f"A,red,{SECOND}", f"A,green,{SECOND}")))
    assert shape(read) == [("A", [("red", [2, 3]), ("green", [2, 4])])]


def test_a_line_that_names_the_separator(table: Write) -> None:
    assert len(tables.read(str(table("sep=;", *[line.replace(",", ";") for line in PAIR]))).rows) == 3


def test_empty_rows_count(table: Write) -> None:
    read = tables.read(str(table(PAIR[0], "", PAIR[1], ",", PAIR[2])))
    assert [row.number for row in read.rows] == [3, 5]


@pytest.mark.parametrize(
    "cell",
    [
        f" {ALONE}\u00a0",
        f"0x{ALONE}",
        f'"""{ALONE}"""',
        f"'{ALONE}",
        f"{ALONE}h",
        f"{ALONE}H",
        f"“{ALONE}”",
        " ".join(ALONE[at : at + 2] for at in range(0, 54, 2)),
        ":".join(ALONE[at : at + 2] for at in range(0, 54, 2)),
        "-".join(ALONE[at : at + 2] for at in range(0, 54, 2)),
    ],
)
def test_what_stands_around_digits(table: Write, cell: str) -> None:
    assert tables.read(str(table("group,telegram", f"A,{cell}"))).rows[0].telegram == ALONE


@pytest.mark.parametrize(
    "cell, km",
    [
        ("13.85", "13.85"),
        ("13+850", "13.850"),
        ("13+850.5", "13.8505"),
        ("-0.5", "-0.5"),
        ("\u22121.25", "-1.25"),
        ("7", "7.0"),
        ('"13,850"', "13.850"),
        ("", None),
    ],
)
def test_kilometres(table: Write, cell: str, km: str) -> None:
    read = tables.read(str(table("group,km,telegram", f"A,{cell},{ALONE}")))
    assert read.rows[0].km == (None if km is None else Decimal(km))


def fault(path: Path, **words: Any) -> str:
    """The fault of a table that cannot be read."""
    with pytest.raises((TableError, TableErrors)) as raised:
        tables.read(str(path), **words)
    assert isinstance(raised.value, KitError) and raised.value.status == 2
    lines = raised.value.lines()
    assert len(lines) == 1 and "\n" not in lines[0]
    return lines[0].replace(f"{path}: ", "")


H = "group,telegram"
BAD: Sequence[Any] = [
    ([], "the table is empty: it needs a row with the headings group and telegram"),
    (["", ","], "the table is empty: it needs a row with the headings group and telegram"),
    (["", H], "the table has no row below its heading"),
    (
        [f"A,{ALONE}"],
        "row 1: there is no heading: the first row has a telegram; put a row with the names of the "
        "columns above it; group and telegram are needed",
    ),
    ([f"A;A1;{ALONE.upper()}", f"A;A2;{ALONE}"], "row 1: there is no heading: the first row has a telegram"),
    (
        ["Signal,Text", f"A,{ALONE}"],
        "row 1: no column group and no column telegram: the headings are Signal, Text; give --columns FILE, a text "
        'file with the line columns = { group = "..", telegram = "Text" }',
    ),
    (["group,name", "A,B"], "row 1: no column telegram: the headings are group, name; give --columns FILE, a text"),
    (
        ["Line 7,,", "", "Signal,Text,km", f"A,{ALONE},1", f"B,{ALONE},2"],
        "row 3: no column group and no column telegram: the headings are Signal, Text, km; give --columns FILE",
    ),
    (["group,telegram,Group", f"A,{ALONE},B"], "row 1: columns 1 and 3 have one heading, group"),
    ([H], "the table has no row below its heading"),
    ([H, f",{ALONE}"], "row 2, column group: no group; fill merged cells"),
    ([H, "A,"], "row 2, column telegram: it is empty"),
    ([H, "A,9.00720E+52"], "row 2, column telegram: a number, not digits: the spreadsheet has changed it"),
    (
        [H, f"A,{ALONE}", f"b,{OTHER}", f"A,{OTHER}"],
        'row 3, column group: "b" is between rows 2, 4 of group "A": is it mistyped? If it is not, put the rows of '
        'group "A" together',
    ),
    (
        [
            "group,aspect,balise,telegram",
            f"A,*,0,{FIRST}",
            f"B,x,1,{SECOND}",
            "",
            f"A,y,1,{SECOND}",
            f"A,z,1,{SECOND}",
            f"B,*,0,{FIRST}",
            f"B,x,1,{SECOND}",
        ],
        'row 3, column group: "B" is between rows 2, 5 of group "A": is it mistyped?',
    ),
    ([H, *[f"A,{ALONE}"] * 9], 'row 10: group "A" has 9 balises, and at most 8 are possible'),
    (
        ["group,aspect,telegram", f"A,x,{ALONE}", f"A,y,{ALONE}", f"A,y,{ALONE}"],
        'row 2: aspect "x" of group "A" has 1 balise (row 2), and aspect "y" has 2 (rows 3, 4): a row is missing, or '
        "one too many; the column balise or name tells which",
    ),
    (
        ["group,aspect,balise,telegram", f"A,x,1,{ALONE}", f"A,x,2,{ALONE}", f"A,y,1,{ALONE}"],
        'row 3: balise 2 of group "A" has no telegram for aspect "y" (row 4): add the row, or write * as the aspect',
    ),
    (
        ["group,aspect,name,telegram", f"A,x,A1,{ALONE}", f"A,x,A2,{ALONE}", f"A,y,A1,{ALONE}", f"A,z,A1,{ALONE}"],
        'row 3: balise "A2" of group "A" has no telegram for aspects "y" (row 4), "z" (row 5): add the row',
    ),
    (
        ["group,aspect,km,telegram", f"A,x,1.000,{ALONE}", f"A,y,1.000,{ALONE}", f"A,y,1.003,{ALONE}"],
        'row 4: the balise at km 1.003 of group "A" has no telegram for aspect "x" (row 2): add the row',
    ),
    (
        ["group,aspect,telegram", f"A,x,{ALONE}", f"A,,{ALONE}"],
        "row 3, column aspect: empty, but the group has named aspects: write *",
    ),
    (
        ["group,aspect,telegram", f"A,*,{ALONE}", f"A,,{ALONE}"],
        "row 3, column aspect: empty, but the group has named aspects: write *",
    ),
    (
        ["group,aspect,telegram", f"A,x,{ALONE}", f"A,*,{ALONE}", f"A,y,{ALONE}"],
        "row 3: its place differs between aspects: number the balises",
    ),
    (["group,balise,telegram", f"A,1,{ALONE}", f"A,1,{ALONE}"], "row 3, column balise: row 2 has balise 1 too"),
    (["group,name,telegram", f"A,A1,{ALONE}", f"A,A1,{ALONE}"], 'row 3, column name: row 2 has balise "A1" too'),
    (
        ["group,aspect,balise,telegram", f"A,*,0,{FIRST}", *[f"A,{one},1,{SECOND}" for one in "xyxz"]],
        'row 5, column aspect: row 3 has balise 1 of aspect "x" too',
    ),
    (
        ["group,aspect,name,telegram", f"A,*,A1,{FIRST}", *[f"A,{one},A2,{SECOND}" for one in "xxyz"]],
        'row 4, column aspect: row 3 has balise "A2" of aspect "x" too',
    ),
    (
        ["group,aspect,name,telegram", f"A,*,A1,{FIRST}", f"A,*,A1,{SECOND}", f"A,x,A2,{SECOND}", f"A,y,A2,{SECOND}"],
        'row 3, column aspect: row 2 has balise "A1" of every aspect too',
    ),
    (
        ["group,balise,name,telegram", f"A,0,A1,{FIRST}", f"A,1,A1,{SECOND}"],
        'row 3, column name: row 2 has balise "A1" too, as balise 0',
    ),
    (
        ["group,aspect,balise,name,telegram", f"A,x,0,A1,{FIRST}", f"A,x,1,A1,{SECOND}"],
        'row 3, column name: row 2 has balise "A1" of aspect "x" too, as balise 0',
    ),
    (
        ["group,aspect,balise,name,telegram", f"A,*,1,A1,{FIRST}", f"A,x,1,A2,{SECOND}"],
        'row 3, column balise: row 2 has balise 1 of every aspect too, as balise "A1"',
    ),
    (
        ["group,aspect,balise,name,telegram", f"A,x,1,A1,{FIRST}", f"A,x,1,A1,{SECOND}"],
        'row 3, column aspect: row 2 has balise 1 of aspect "x" too',
    ),
    (
        ["group,aspect,km,telegram", f"A,*,1,{FIRST}", *[f"A,{one},1.003,{SECOND}" for one in "xyyz"]],
        'row 5, column aspect: row 4 has the balise at km 1.003 of aspect "y" too',
    ),
    (
        ["group,aspect,km,telegram", f"A,*,1,{FIRST}", *[f"A,{one},1,{SECOND}" for one in "xyyz"]],
        'row 4: aspect "y" of group "A" has 3 balises (rows 2, 4, 5), and aspect "x" has 2 (rows 2, 3): a row',
    ),
    (["group,balise,telegram", f"A,1,{ALONE}", f"A,,{ALONE}"], "row 3, column balise: empty, but the group has"),
    (["group,balise,telegram", f"A,1.5,{ALONE}"], "row 2, column balise: 1.5 is no whole number"),
    (
        ["group,balise,telegram", f"A,1,{FIRST}", f"A,A-2,{SECOND}"],
        "row 3, column balise: A-2 is no whole number: names of balises belong in the column name",
    ),
    (
        ["group,name,balise,telegram", f"A,old,A-1,{ALONE}"],
        "row 2, column balise: A-1 is no whole number: names of balises belong in the column name",
    ),
    (
        ["group,km,telegram", f"A,13.850,{ALONE}", f"A,13.8x,{ALONE}"],
        "row 3, column km: 13.8x is no kilometre: one is written like 13.850",
    ),
    (
        ["group,telegram,km", f"A,{ALONE},13,850"],
        "row 2: it has 4 cells, and the heading 3: is a decimal comma not quoted?",
    ),
    (
        ["group,km,telegram", f"A,1,{FIRST}", f"A,3,{SECOND}", f"A,2,{SECOND}"],
        "row 4, column km: the kilometres of the group rise and fall",
    ),
    (
        ["group,aspect,km,telegram", f"A,x,1,{FIRST}", f"A,y,2,{FIRST}"],
        "row 3, column km: 2.0, and row 2, the same balise by the order of the rows, has 1.0",
    ),
    (
        ["group,aspect,name,telegram", f"A,*,A1,{FIRST}", f"A,x,A2,{SECOND}", f"A,y,,{SECOND}", f"A,z,B2,{SECOND}"],
        "row 5, column name: B2, and row 3, the same balise by the order of the rows, has A2",
    ),
    (
        [
            "group,aspect,balise,name,telegram",
            f"A,x,0,A1,{FIRST}",
            f"A,x,1,A2,{SECOND}",
            f"A,y,0,A2,{FIRST}",
            f"A,y,1,A1,{SECOND}",
        ],
        "row 4, column name: A2, and row 2, the same balise by the column balise, has A1",
    ),
    (["group,nominal,telegram", f"A,up,{FIRST}"], "row 2, column nominal: up is neither rising nor falling"),
    (
        ["group,nominal,telegram", f"A,rising,{FIRST}", f"A,falling,{FIRST}"],
        "row 3, column nominal: falling, and row 2 of the group says rising",
    ),
    (
        ["group,track,telegram", f"A,,{FIRST}", f"A,1,{SECOND}", f"B,1,{ALONE}", f"B,2,{ALONE}"],
        "row 5, column track: 2, and row 4 of the group says 1",
    ),
    (["group,aspect,telegram", f"#BEZUG!,,{ALONE}"], "row 2, column group: #BEZUG! is an error of the spreadsheet"),
    (["group,aspect,telegram", f"A,#N/A,{ALONE}"], "row 2, column aspect: #N/A is an error of the spreadsheet"),
    *(
        (
            ["group,track,telegram", f"A,{error},{ALONE}"],
            f"row 2, column track: {error.strip()} is an error of the spreadsheet",
        )
        for error in (
            *("#N/D", "#¡REF!", "####", "#ÜBERLAUF!", "#GETTING_DATA", "Loading..."),
            *("#N/B", "#I/T", "#HIÁNYZIK", "#NENÍ_K_DISPOZICI", "#YOK", "#Н/Д", "#SPILL!", "#BLOCKED?"),
            *("Err:502", "Fehler:502", "Fout:502", "Erro:502", "Err :502", "\tErr:502", "Err:\t502", "Ошибка:502"),
        )
    ),
    ([H, f'"A\nB",{ALONE}'], "row 2, column group: the cell contains a line end"),
    ([H, f'A,"{ALONE}'], "row 2: a quote is not closed"),
    ([H, f'A,"{ALONE}"x'], "row 2: a cell contains a quote"),
    ([H, f"A\0,{ALONE}"], "character 17 is NUL"),
    ([H, f"A,{'a' * 100_001}"], "row 2: a cell has more than 100,000 characters"),
    ([H, f"{'a' * 2000},{ALONE}"], "row 2, column group: it has more than 1,000 characters"),
]


@pytest.mark.parametrize("lines, said", BAD, ids=[said for _, said in BAD])
def test_tables_that_cannot_be_read(table: Write, lines: List[str], said: str) -> None:
    heard = fault(table(*lines))
    assert heard.startswith(said)


def test_several_faults_have_a_line_each(table: Write) -> None:
    lines = [f"A{row},x,{ALONE}" for row in range(30)]
    with pytest.raises(TableErrors) as raised:
        tables.read(str(table("group,km,telegram", *lines)))
    said = raised.value.lines()
    assert len(said) == 21 and said[-1] == "and 10 more"
    assert "row 3, column km: x is no kilometre" in said[1]


@pytest.mark.parametrize(
    "content, said",
    [
        ("group,telegram".encode("utf-32"), "it is UTF-32: save it as UTF-8"),
        (b"group,telegram\nA\x81,00\n", "it is neither UTF-8 nor Windows-1252: byte 81 at 16: save it as UTF-8"),
        (b"\xff\xfea", "it begins like UTF-16, but is not"),
        (b"\xd0\xcf\x11\xe0more", "it is an .xls, or protected by a password: save it as .xlsx or CSV"),
        (b"PK\x03\x04more", "it is cut short or damaged (File is not a zip file): copy it again, or save it as CSV"),
    ],
)
def test_contents_that_cannot_be_read(table: Write, content: bytes, said: str) -> None:
    assert fault(table(content=content)).startswith(said)


def test_no_files(tmp_path: Path) -> None:
    os.mkfifo(tmp_path / "pipe")
    assert fault(tmp_path / "none").endswith("No such file or directory")
    assert fault(tmp_path).endswith("it is a folder")
    assert fault(Path("/dev/zero")).endswith("it is a device or pipe, no file")
    assert fault(tmp_path / "pipe").endswith("it is a device or pipe, no file")


def test_a_file_that_is_being_written(table: Write, monkeypatch: pytest.MonkeyPatch) -> None:
    path = table(*PAIR)
    real, seen = os.stat, []

    def stat(name: Any, **words: Any) -> os.stat_result:
        if str(name) == str(path):
            seen.append(name)
            if len(seen) == 2:
                path.write_text("longer" * 100)
        return real(name, **words)

    monkeypatch.setattr(os, "stat", stat)
    assert fault(path) == "the file is being written"


def test_aspects_that_lack_balises_have_a_line_each(table: Write) -> None:
    """Each balise that lacks an aspect is named, and the other groups' faults as well."""
    with pytest.raises(TableErrors) as raised:
        tables.read(
            str(
                table(
                    "group,aspect,name,telegram",
                    f"A,*,A1,{ALONE}",
                    f"A,x,A2,{ALONE}",
                    f"A,y,A3,{ALONE}",
                    f"A,y,A2,{ALONE}",
                    f"A,z,A3,{ALONE}",
                    f"B,x,,{ALONE}",
                    f"B,,,{ALONE}",
                )
            )
        )
    lines = [
        line.split(": ", 1)[1].split(":")[0] + ":" + line.split(": ", 1)[1].split(":")[1]
        for line in raised.value.lines()
    ]
    assert lines == [
        'row 3: balise "A2" of group "A" has no telegram for aspect "z" (rows 2, 6)',
        'row 4: balise "A3" of group "A" has no telegram for aspect "x" (rows 2, 3)',
        "row 8, column aspect: empty, but the group has named aspects",
    ]


def test_rows_that_are_apart_are_taken_together(table: Write) -> None:
    """As in a table that is sorted by aspects. A note names the first group, and its rows are given together."""
    lines = [f"{group},{aspect},{ALONE}" for aspect in "xy" for group in "ABC"]
    read = tables.read(str(table("group,aspect,telegram", *lines)))
    assert shape(read) == [(name, [("x", [row]), ("y", [row + 3])]) for name, row in (("A", 2), ("B", 3), ("C", 4))]
    assert [row.number for row in read.rows] == [2, 5, 3, 6, 4, 7]
    assert read.notes == (
        'rows of one group that are apart are taken together: group "A": rows 2, 5, and 2 more groups',
    )
    assert describe_rows(read.groups[0]) == "rows 2, 5"
    read = tables.read(str(table(H, f"A,{FIRST}", f"B,{OTHER}", f"C,{OTHER}", f"A,{SECOND}")))
    assert shape(read) == [("A", [("", [2, 5])]), ("B", [("", [3])]), ("C", [("", [4])])]
    assert read.notes == ('rows of one group that are apart are taken together: group "A": rows 2, 5',)


def test_rows_of_several_groups_by_turns(table: Write) -> None:
    """No single row is the odd one."""
    read = tables.read(str(table(H, *[f"{name},{ALONE}" for name in "ABABCC"])))
    assert shape(read) == [("A", [("", [2, 4])]), ("B", [("", [3, 5])]), ("C", [("", [6, 7])])]


def test_one_wrong_cell_of_a_line_is_one_fault(table: Write) -> None:
    """A group's name that is mistyped among its rows, or an aspect that is there twice, in each row of a line."""
    with open(TOP / "examples" / "table" / "line.csv", encoding="utf-8", newline="") as file:
        rows = list(csv.reader(file))
    tried = 0
    for number, row in enumerate(rows[2:-1], 3):
        before, after = rows[number - 2], rows[number]
        for column, cell in ((0, f"{row[0]}x"), (3, before[3])):
            if before[0] == row[0] and (after[0] == row[0] if column == 0 else before[3] != "*"):
                changed = [*row[:column], cell, *row[column + 1 :]]
                lines = [",".join(one) for one in [*rows[: number - 1], changed, *rows[number:]]]
                assert fault(table(*lines)).startswith(f"row {number}, column {rows[0][column]}: ")
                tried += 1
    assert tried == 32


def test_a_mistyped_heading_before_the_faults_that_it_makes(table: Write) -> None:
    with pytest.raises(TableErrors) as raised:
        tables.read(str(table("group,aspct,name,telegram", f"A,x,A1,{ALONE}", f"A,y,A1,{ALONE}")))
    assert [line.split(": ", 1)[1] for line in raised.value.lines()] == [
        'row 1: the column aspct is passed over: did you mean "aspect"?',
        'row 3, column name: row 2 has balise "A1" too: are they of two aspects?',
    ]


@pytest.mark.parametrize("name", ["#3", "#Name", "#A1", "#A", "Track: 5021", "Gleis 502"])
def test_a_name_that_is_no_error_of_a_spreadsheet(table: Write, name: str) -> None:
    assert tables.read(str(table("group,track,telegram", f"A,{name},{ALONE}"))).rows[0].track == name


def test_each_repeated_row_is_named(table: Write) -> None:
    with pytest.raises(TableErrors) as raised:
        tables.read(
            str(
                table(
                    "group,aspect,name,telegram",
                    f"A,x,A1,{ALONE}",
                    f"A,x,A1,{ALONE}",
                    f"A,x,A1,{ALONE}",
                    f"B,x,B1,{ALONE}",
                    f"B,y,B1,{ALONE}",
                    f"B,y,B1,{ALONE}",
                )
            )
        )
    assert [line.split(": ", 1)[1] for line in raised.value.lines()] == [
        'row 3, column aspect: row 2 has balise "A1" of aspect "x" too',
        'row 4, column aspect: row 2 has balise "A1" of aspect "x" too',
        'row 7, column aspect: row 6 has balise "B1" of aspect "y" too',
    ]


def test_a_name_that_all_balises_of_groups_share_has_one_hint(table: Write) -> None:
    """At the heading, before the rows. A single group has none: a row may be there twice."""
    rows = [f"{group},{aspect},S {group},{ALONE}" for group in "AB" for aspect in ("*", "x", "y")]
    for lines, hints in ((rows, 1), (rows[:3], 0), ([*rows[:3], *rows[4:]], 0)):
        with pytest.raises(TableErrors) as raised:
            tables.read(str(table("group,aspect,name,telegram", *lines)))
        said = [line.split(": ", 1)[1] for line in raised.value.lines()]
        hint = (
            'row 1, column name: in 2 groups all balises have one name, such as "S A" in group "A": it tells no '
            "balise from another. If it names a signal, give the column another heading, under which it is passed over"
        )
        assert said[:1] == [hint] if hints else not any(line.startswith("row 1") for line in said)
        assert any(line.startswith("row 3, column ") for line in said)


def test_notes(table: Write) -> None:
    read = tables.read(
        str(table("group,balise,telegram", f"Signal A,1,{ALONE}", f"signal  a,1,{OTHER}", f"signal  a,3,{OTHER}"))
    )
    assert read.notes == (
        'groups "Signal A" and "signal  a" differ only in case or blanks',
        'group "signal  a": the balises are numbered 1, 3',
    )
    read = tables.read(str(table("group,aspect,balise,telegram", f"A,x,1,{ALONE}", f"A,y,2,{ALONE}")))
    assert read.notes == ('group "A": aspects "x" and "y" number their balises differently',)


def test_a_column_balise_with_names(table: Write) -> None:
    """It is the column `name`, and a note reports that. Empty cells change nothing, and numbers stay numbers."""
    rows = [f"A,x,A-1,{FIRST}", f"A,x,A-2,{SECOND}", f"B,x,,{ALONE}"]
    named = tables.read(str(table("group,aspect,Balise,telegram", *rows)))
    assert [(row.name, row.balise) for row in named.rows] == [("A-1", None), ("A-2", None), ("", None)]
    assert named.notes == (tables.NAMES,) and not named.passed_over
    for cells in (("1", "2"), ("", "")):
        rows = [f"A,x,{cell},{digits}" for cell, digits in zip(cells, (FIRST, SECOND))]
        read = tables.read(str(table("group,aspect,Balise,telegram", *rows)))
        assert [row.balise for row in read.rows] == [int(cell) if cell else None for cell in cells] and not read.notes
    with pytest.raises(TableErrors) as raised:
        tables.read(str(table("group,Balise,telegram", f"A,A-1,{FIRST}", f"A,A-1,{SECOND}")))
    reported = [line.split(": ", 1)[1] for line in raised.value.lines()]
    assert reported == [
        f"row 1: {tables.NAMES}",
        'row 3, column name: row 2 has balise "A-1" too: are they of two aspects?',
    ]


def test_messages(table: Write) -> None:
    read = messages_file.read(str(table(f"{MESSAGE};to train 7", "", f"0x{MESSAGE}\r")))
    assert [(one.number, one.text, one.name) for one in read.messages] == [(1, MESSAGE, "to train 7"), (3, MESSAGE, "")]
    with pytest.raises(TableErrors, match="line 1: no message before the semicolon"):
        messages_file.read(str(table("; name")))
    with pytest.raises(TableError, match="it is a workbook or another zip: save it as text, such as CSV"):
        messages_file.read(str(table(content=b"PK\x03\x04\x81")))


class TestWorkbooks:
    """Tables of .xlsx."""

    @staticmethod
    def book(path: Path, *sheets: Sequence[Sequence[Any]]) -> Path:
        """Writes a workbook of these rows."""
        openpyxl = pytest.importorskip("openpyxl")
        book = openpyxl.Workbook()
        for number, rows in enumerate(sheets):
            sheet = book.active if number == 0 else book.create_sheet()
            for row in rows:
                sheet.append(row)
        book.save(path / "table.xlsx")
        return path / "table.xlsx"

    def test_cells(self, tmp_path: Path) -> None:
        """Numbers as km, group and balise."""
        rows: List[List[Any]] = [["Group", "km", "balise", "telegram"], [7, 13.85, 1, ALONE], [8, 14, None, OTHER]]
        read = tables.read(str(self.book(tmp_path, rows)))
        assert [(row.group, row.km, row.balise, row.telegram) for row in read.rows] == [
            ("7", Decimal("13.85"), 1, ALONE),
            ("8", Decimal("14"), None, OTHER),
        ]
        assert read.encoding == "xlsx"

    def test_kilometres_to_the_millimetre(self, tmp_path: Path) -> None:
        """A number has the places that a text may have, and no more: later places of a sum can be wrong."""
        rows: List[List[Any]] = [
            ["group", "km", "telegram"],
            ["A", 13.8505, FIRST],
            ["A", 13.85 + 0.003, SECOND],
            ["B", 14.1234564, OTHER],
            ["C", 20.0000000001, OTHER],
        ]
        read = tables.read(str(self.book(tmp_path, rows)))
        assert [str(row.km) for row in read.rows] == ["13.8505", "13.853", "14.123456", "20.0"]

    @pytest.mark.filterwarnings("error")
    def test_what_openpyxl_would_not_write_again(self, tmp_path: Path) -> None:
        """Lists to choose from, as workbooks have them: nothing of the table is lost, and nobody is warned."""
        path = self.book(tmp_path, [["group", "telegram"], ["A", ALONE]])
        with zipfile.ZipFile(path) as parts:
            held = {name: parts.read(name) for name in parts.namelist()}
        held["xl/worksheets/sheet1.xml"] = held["xl/worksheets/sheet1.xml"].replace(
            b"</worksheet>", b'<extLst><ext uri="{CCE6A557-97BC-4b89-ADB6-D9C93CAAB3DF}"/></extLst></worksheet>'
        )
        with zipfile.ZipFile(path, "w") as parts:
            for name, content in held.items():
                parts.writestr(name, content)
        assert [row.telegram for row in tables.read(str(path)).rows] == [ALONE]

    def test_another_zip(self, tmp_path: Path, monkeypatch: pytest.MonkeyPatch) -> None:
        """As LibreOffice saves a table, or a folder that was packed. Nobody is sent for openpyxl in vain."""
        modules: Dict[str, Any] = sys.modules
        monkeypatch.setitem(modules, "openpyxl", None)
        with zipfile.ZipFile(tmp_path / "table.ods", "w") as parts:
            parts.writestr("mimetype", "application/vnd.oasis.opendocument.spreadsheet")
        assert fault(tmp_path / "table.ods") == "it is no .xlsx, but an .ods or another zip: save it as .xlsx or CSV"

    def test_sheets(self, tmp_path: Path) -> None:
        """The sheet that has the headings, or the one that is named."""
        good: List[List[Any]] = [["group", "telegram"], ["A", ALONE]]
        assert len(tables.read(str(self.book(tmp_path, [["other"]], good))).rows) == 1
        path = self.book(tmp_path, good, good)
        assert fault(path).startswith("several sheets have the headings: name one by --sheet: Sheet, Sheet1")
        assert len(tables.read(str(path), "Sheet1").rows) == 1
        assert fault(path, sheet="no").startswith("there is no sheet no: the sheets are Sheet, Sheet1")

    @pytest.mark.parametrize(
        "row, said",
        [
            (["A", 1e52], "row 2, column telegram: a number, not digits"),
            (["A", datetime.date(2026, 1, 2)], "row 2, column telegram: a date, not digits"),
            ([datetime.date(2026, 1, 2), ALONE], "row 2, column group: a date, not a name"),
            (["A", "=A1"], f"row 2, column telegram: {NOT_CALCULATED}"),
            ([None, ALONE], "row 2, column group: no group; fill merged cells"),
        ],
    )
    def test_cells_that_cannot_be_read(self, tmp_path: Path, row: Sequence[Any], said: str) -> None:
        """What spreadsheets do to cells."""
        assert fault(self.book(tmp_path, [["group", "telegram"], row])).startswith(said)

    def test_a_workbook_that_is_too_large(self, tmp_path: Path) -> None:
        """Its size is looked at before it is unpacked: zeros take a thousandth of their size in the file."""
        assert (xlsx_file.GREATEST, xlsx_file.GREATEST_PART, xlsx_file.GREATEST_RATIO) == (2 * 10**8, 10**8, 100)
        path = tmp_path / "table.xlsx"
        with zipfile.ZipFile(path, "w", zipfile.ZIP_DEFLATED) as parts:
            parts.writestr("xl/worksheets/sheet1.xml", bytes(6_000_000))
        assert path.stat().st_size < 10_000
        assert fault(path).startswith(
            "xl/worksheets/sheet1.xml in it has 6,000,000 bytes unpacked, more than 100 times"
        )

    def test_without_openpyxl(self, run: Run, tmp_path: Path, monkeypatch: pytest.MonkeyPatch) -> None:
        """One line says which package is missing, and what to do without it. CSV needs none."""
        path = self.book(tmp_path, [["group", "telegram"], ["A", ALONE]])
        modules: Dict[str, Any] = sys.modules
        monkeypatch.setitem(modules, "openpyxl", None)
        status, out, err = run("check", path)
        assert (status, out, len(err)) == (3, [], 1)
        assert err[0].startswith("balisekit: reading .xlsx (CSV needs no package) needs openpyxl, which ")


@pytest.mark.uncovered
def test_tables_that_are_made() -> None:
    hypothesis: Any = pytest.importorskip("hypothesis")
    strategies = hypothesis.strategies
    name = (
        strategies.text(strategies.characters(blacklist_categories=("Cs", "Cc", "Zl", "Zp")), min_size=1, max_size=12)
        .map(str.strip)
        .filter(bool)
    )
    names = strategies.lists(name, min_size=1, max_size=6, unique=True)

    @hypothesis.given(
        names,
        name,
        strategies.sampled_from(",;\t"),
        strategies.sampled_from(["\n", "\r\n"]),
        strategies.sampled_from(["utf-8", "utf-8-sig", "utf-16"]),
    )  # type: ignore[misc]
    def made(groups: List[str], other: str, separator: str, end: str, encoding: str) -> None:
        out = io.StringIO(newline="")
        writer = csv.writer(out, delimiter=separator, lineterminator=end)
        writer.writerow(["telegram", "name", "group"])
        writer.writerows([ALONE, other, group] for group in groups)
        with Room() as path:
            path.write_bytes(out.getvalue().encode(encoding))
            read = tables.read(str(path))
        assert [row.group for row in read.rows] == groups and {row.name for row in read.rows} == {other}
        assert read.separator == separator

    made()


class Room:
    """A file for one table."""

    def __enter__(self) -> Path:
        import tempfile

        self.folder = tempfile.TemporaryDirectory()
        return Path(self.folder.name) / "table.csv"

    def __exit__(self, *_: object) -> None:
        self.folder.cleanup()


def test_faults_of_tables_end_commands(run: Run, table: Write) -> None:
    path = table("group,telegram", ",00")
    assert run("check", path) == (2, [], [f"balisekit: {path}: row 2, column group: no group; fill merged cells"])

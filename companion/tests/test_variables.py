"""`table`: the flat sheet of all variables, and what differs from a sheet that is expected."""
from __future__ import annotations

import csv
import io
import json
from pathlib import Path
from typing import Any, Callable, Dict, Iterator, List, Tuple

import pytest
from cases_of_program import EXAMPLES, TOP, accepted, value_at
from conftest import Run
from telegrams import ALONE, FAULTY, FIRST, OTHER, SECOND, with_contents

from balisekit.compare.sheet import COLUMNS, same
from balisekit.etcs.flat import variables

Write = Callable[..., Path]
LINE = TOP / "examples" / "links" / "line.csv"


def forms() -> Iterator[Any]:
    """The records of all telegrams that the program reads."""
    return (json.loads(case.answer) for case in [*accepted(), *EXAMPLES[False]])


def rows_of(path: Path) -> List[Dict[str, str]]:
    """The rows of a CSV file by their headings."""
    return list(csv.DictReader(io.StringIO(path.read_text("utf-8"), newline="")))


@pytest.fixture
def sheet(run: Run, tmp_path: Path) -> Path:
    """The sheet of the line."""
    status, out, err = run("table", LINE, "--csv", tmp_path / "sheet.csv")
    assert (status, err, out[-1]) == (0, [], f"written: {tmp_path / 'sheet.csv'}")
    return tmp_path / "sheet.csv"


def changed(sheet: Path, number: int, column: str, cell: str) -> Path:
    """The sheet with another text in a cell."""
    with open(sheet, encoding="utf-8", newline="") as file:
        rows = list(csv.reader(file))
    rows[number - 1][COLUMNS.index(column)] = cell
    out = io.StringIO(newline="")
    csv.writer(out, lineterminator="\n").writerows(rows)
    path = sheet.with_name("changed.csv")
    path.write_text(out.getvalue(), "utf-8")
    return path


@pytest.mark.uncovered
def test_all_numbers_are_there() -> None:
    """Each number of the JSON, and of bodies that are read, has a row with its raw value, and there is no other one."""
    for form in forms():
        found = [each.raw for each in variables(form)]
        assert sorted(map(str, found)) == sorted(str(value) for _, value in value_at(with_contents(form)))


@pytest.mark.uncovered
def test_each_variable_is_named_once() -> None:
    """Packet, element and variable name no second value of a telegram."""
    for form in forms():
        names = [each[:3] for each in variables(form)]
        assert len(names) == len(set(names))


def test_rows(sheet: Path) -> None:
    """The columns, a distance with its kilometre, and the balise's own kilometre."""
    rows = rows_of(sheet)
    assert tuple(rows[0]) == COLUMNS
    link = next(row for row in rows if row["variable"] == "D_LINK")
    wanted: Tuple[str, ...] = ("A", "352/1", "", "0", "5", "link 0", "D_LINK", "1000", "1000", "m", "11.000")
    assert tuple(link.values()) == wanted
    assert (rows[0]["variable"], rows[0]["km"], rows[0]["packet"]) == ("user bits", "10.000", "")


def test_a_sheet_against_its_own_table(sheet: Path, run: Run) -> None:
    """Nothing differs."""
    count = len(rows_of(sheet))
    status, out, err = run("table", LINE, "--expect", sheet)
    assert (status, err, out[-1]) == (0, [], f"differences 0; compared: {count} rows of {sheet}")


def test_each_changed_cell_is_the_one_difference(sheet: Path, run: Run) -> None:
    """With the row of the sheet, both values, and where the variable is."""
    number = next(place for place, row in enumerate(rows_of(sheet), 2) if row["variable"] == "D_LINK")
    at = 'row 2  A  km 10.000  balise "A1" (first of its group)  packet 5  link 0  D_LINK'
    for column, cell, found in (
        ("raw", "1001", '"1000"'),
        ("value", "999.5", '"1000" m'),
        ("km", "11.001", '"11.000"'),
    ):
        status, out, _ = run("table", LINE, "--expect", changed(sheet, number, column, cell))
        said = [line for line in out if line.startswith("row ")]
        assert status == 1 and said == [
            f'row {number} of the sheet, column {column}: expected "{cell}", found {found}: {at}'
        ]
        assert out[-1].startswith("differences 1; compared: ")


def test_one_row_that_is_compared(tmp_path: Path, run: Run) -> None:
    """It is one row, and it is named as a row of the sheet: the same line names a row of the table."""
    path = tmp_path / "one.csv"
    path.write_text("group,balise,variable,value\nA,1,NID_BG,9\n", "utf-8")
    status, out, _ = run("table", LINE, "--expect", path)
    assert status == 1 and f"; compared: 1 row of {path}; not in the sheet: " in out[-1]
    assert [line.partition(":")[0] for line in out if "found" in line] == ["row 2 of the sheet, column value"]


def test_rows_that_the_table_does_not_have(sheet: Path, run: Run) -> None:
    number = next(place for place, row in enumerate(rows_of(sheet), 2) if row["variable"] == "D_LINK")
    for column, cell, what in (
        ("group", "X", "the table has no telegram of group X, identity 352/1, balise 0"),
        ("packet", "6", "row 2 of the table has no packet 6, element link 0, variable D_LINK"),
        ("variable", "D_LINC", "row 2 of the table has no packet 5, element link 0, variable D_LINC"),
    ):
        status, out, _ = run("table", LINE, "--expect", changed(sheet, number, column, cell))
        assert status == 1 and f"row {number} of the sheet: {what}" in out
        assert out[-1].startswith("differences 1; ") and "; not in the sheet: 1 of " in out[-1]


def test_a_sheet_made_by_hand(table: Write, run: Run) -> None:
    """With few columns, headings of its own, and units and decimal commas in its cells."""
    path = table("Pruefblatt;;", "Gruppe;Variable;Wert", "A;d_link;1000,0 m", "A;q_link;Linked", "B;M_VERSION;2.0")
    file = table('[expect]\ngroup = "Gruppe"\nvalue = "Wert"', name="c.toml")
    status, out, _ = run("table", LINE, "--expect", path, "--columns", file)
    said = [line for line in out if line.startswith("row ")]
    assert status == 1 and [line.split(": expected ")[1].split(": ")[0] for line in said] == ['"2.0", found "2.1"'] * 2
    assert f'note: headings by {file}: group is "Gruppe", value is "Wert"' in out


@pytest.mark.parametrize("encoding", ["utf-8", "utf-8-sig", "utf-16", "cp1252"])
@pytest.mark.parametrize("separator", [",", ";", "\t"])
@pytest.mark.parametrize("first", ["", "sep=|\r\n"])
def test_spellings_of_a_sheet(table: Write, run: Run, encoding: str, separator: str, first: str) -> None:
    """It is read as a table is, but row by row."""
    lines = ["Pr\u00fcfung|", "group|balise|variable|raw|value|km", "A|0|N_TOTAL|1||11+000", "A|0|N_TOTAL||1|10+000"]
    text = first.replace("|", separator) + "".join(line.replace("|", separator) + "\r\n" for line in lines)
    path = table(content=text.encode(encoding), name="s.csv")
    status, out, _ = run("table", LINE, "--expect", path)
    said = [line for line in out if line.startswith("row ")]
    assert status == 1 and [line.split(":")[0] for line in said] == [
        "row 3 of the sheet, column km",
        "row 4 of the sheet, column value",
    ]
    assert out[-1].startswith(f"differences 2; compared: 2 rows of {path}")


def test_a_sheet_that_is_no_csv(table: Write, run: Run) -> None:
    path = table("group,variable,raw", "A,D_LINK,1000", 'A,"D_LINK', name="s.csv")
    assert run("table", LINE, "--expect", path)[::2] == (2, [f"balisekit: {path}: row 3: a quote is not closed"])
    path = table(content=b"group,variable\0raw", name="s.csv")
    assert run("table", LINE, "--expect", path)[::2] == (
        2,
        [f"balisekit: {path}: character 15 is NUL: this is no text file"],
    )


def test_same() -> None:
    assert same("105", "105") and same("105 km/h", "105", "km/h") and same("1,50", "1.5") and same(" Linked ", "linked")
    assert same("\u22125", "-5") and same("+4", "4") and not same("104", "105") and not same("a", "105")
    assert same("13+850", "13.850") and same("13,85", "13.850") and not same("13+850", "13.851")


@pytest.mark.parametrize(
    "lines, said",
    [
        (["group,value", "A,1"], "row 1: no column variable: the headings are group, value"),
        (["variable,value", "A,1"], "row 1: no column group or identity: it needs one of them"),
        (["group,variable", "A,1"], "row 1: no column raw or value: it needs one of them"),
        (["group,variable,value", "A,,1"], "row 2, column variable: no variable"),
        (["group,variable,value", "A,D_LINK,#N/A"], "row 2, column value: #N/A is an error of the spreadsheet"),
        (
            ["group,variable,value", "A,NID_BG,1", "A,D_LINK, "],
            "row 3: neither raw nor value: there is nothing to compare",
        ),
        (["group,variable,raw,value", "A,NID_BG"], "row 2: neither raw nor value: there is nothing to compare"),
        (["group,variable,value"], "the sheet has no row below its heading"),
    ],
)
def test_sheets_that_cannot_be_compared(table: Write, run: Run, lines: List[str], said: str) -> None:
    path = table(*lines)
    status, out, err = run("table", LINE, "--expect", path)
    assert (status, out) == (2, []) and err[0].startswith(f"balisekit: {path}: {said}")


def test_refused_telegrams(table: Write, run: Run, tmp_path: Path) -> None:
    """They are named, their rows of the sheet are counted, and the status is 2."""
    path, sheet = table("group,telegram", f"A,{ALONE}", f"B,{OTHER}"), tmp_path / "s.csv"
    assert run("table", path, "--csv", sheet)[0] == 0
    path = table("group,telegram", f"A,{ALONE}", f"B,{FAULTY}")
    status, out, _ = run("table", path, "--expect", sheet)
    assert status == 2 and out[1].startswith(
        "row 3  B  balise (first of its group): Q_DIR of packet 21 (second packet) is 3"
    )
    assert out[-1] == (
        "INCOMPLETE: 1 of 2 telegrams refused, 9 rows of the sheet about them not compared; differences 0; compared: "
        f"9 rows of {sheet}"
    )
    status, out, _ = run("table", path, "--csv", "-")
    assert status == 2 and len(out) == 10


def test_a_telegram_of_every_aspect(table: Write, run: Run) -> None:
    """It is found by `*`, and by each aspect of its group."""
    path = table("group,aspect,telegram", f"A,*,{FIRST}", f"A,red,{SECOND}", f"A,green,{SECOND}")
    rows = [f"A,{aspect},0,N_TOTAL,1" for aspect in ("*", "red", "green")]
    status, out, _ = run("table", path, "--expect", table("group,aspect,balise,variable,raw", *rows, name="s.csv"))
    assert status == 0 and out[-1].startswith("differences 0; compared: 3 rows of ")


def test_nothing_to_do(run: Run) -> None:
    assert run("table", LINE)[::2] == (
        2,
        ["balisekit: name what to do: --csv FILE or --xlsx FILE writes the sheet, --expect FILE compares one"],
    )


def test_cells_that_a_spreadsheet_would_take_for_formulas(table: Write, run: Run, tmp_path: Path) -> None:
    """Names and signed numbers come back as they were."""
    sheet = tmp_path / "s.csv"
    path = table("group,telegram", f"=A,{ALONE}", f"-B,{OTHER}", f"'=C,{FIRST}", f"'=C,{SECOND}")
    assert run("table", path, "--csv", sheet)[0] == 0 and "\n'=A," in sheet.read_text("utf-8")
    assert run("table", path, "--expect", sheet)[0] == 0


class TestWorkbooks:
    """The sheet as .xlsx."""

    def test_a_workbook_against_its_own_table(self, run: Run, tmp_path: Path) -> None:
        """Numbers are numbers, and a changed one is the one difference."""
        openpyxl: Any = pytest.importorskip("openpyxl")
        path = tmp_path / "s.xlsx"
        assert run("table", LINE, "--xlsx", path)[0] == 0
        status, out, _ = run("table", LINE, "--expect", path)
        assert status == 0 and out[-1].startswith("differences 0; ")
        book = openpyxl.load_workbook(path)
        cell = next(row[8] for row in book.active.iter_rows() if row[6].value == "D_LINK")
        assert cell.value == 1000 and cell.number_format == "General"
        cell.value = 1010
        book.save(path)
        status, out, _ = run("table", LINE, "--expect", path)
        assert status == 1 and out[-2].startswith(
            f'row {cell.row} of the sheet, column value: expected "1010", found "1000" m: row 2'
        )

    def test_a_date_cannot_be_compared(self, run: Run, tmp_path: Path) -> None:
        openpyxl: Any = pytest.importorskip("openpyxl")
        import datetime

        book = openpyxl.Workbook()
        for row in (["group", "variable", "value"], ["A", "D_LINK", datetime.date(2026, 1, 5)]):
            book.active.append(row)
        book.save(tmp_path / "s.xlsx")
        status, _, err = run("table", LINE, "--expect", tmp_path / "s.xlsx")
        assert status == 2 and "row 2, column value: a date: the spreadsheet has changed it" in err[0]

    def test_names_are_no_formulas(self, run: Run, table: Write, tmp_path: Path) -> None:
        openpyxl: Any = pytest.importorskip("openpyxl")
        path = table("group,telegram", f"=1+1,{ALONE}")
        assert run("table", path, "--xlsx", tmp_path / "s.xlsx")[0] == 0
        cell = openpyxl.load_workbook(tmp_path / "s.xlsx").active["A2"]
        assert (cell.value, cell.data_type) == ("=1+1", "s")
        assert run("table", path, "--expect", tmp_path / "s.xlsx")[0] == 0

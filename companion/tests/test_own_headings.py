"""Tables as people have them: titles above the headings, headings of one's own, cover sheets and merged cells."""
from __future__ import annotations

import json
import sys
from pathlib import Path
from typing import Any, Callable, Dict, List, Sequence

import pytest
from conftest import Run
from telegrams import ALONE, FIRST, OTHER, SECOND

from balisekit.errors import KitError
from balisekit.tables import reader as tables
from balisekit.tables.cells import COLUMNS, NEEDED

Write = Callable[..., Path]
OPTIONAL = [name for name in COLUMNS if name not in NEEDED]
GERMAN = 'group = "BG-Name"\ntelegram = "Telegramm (hex)"\nkm = "Kilometer"\naspect = "Begriff"\n'
OWN = ["BG-Name;Kilometer;Begriff;Bemerkung;Telegramm (hex)", f"S1;12,300;Halt;x;{FIRST}", f"S1;12,303;Halt;;{SECOND}"]


def refusal(path: Path, **words: Any) -> str:
    """The one line that a table is refused with."""
    with pytest.raises(KitError) as raised:
        tables.read(str(path), **words)
    assert raised.value.status == 2 and len(raised.value.lines()) == 1
    return raised.value.lines()[0].replace(f"{path.parent}/", "")


@pytest.mark.parametrize("text", [GERMAN, f"[columns]\n{GERMAN}", f"[columns]\n{GERMAN}[expect]\nvalue = 'Wert'\n"])
@pytest.mark.parametrize("name", ["columns.toml", "balisekit.toml"])
def test_headings_of_ones_own(table: Write, text: str, name: str) -> None:
    """By a file that is named, or by balisekit.toml beside the table. A note names them."""
    path, file = table("Linie 7;;;;", "", *OWN), table(content=text.encode(), name=name)
    read = tables.read(str(path), columns=str(file) if name == "columns.toml" else None)
    assert [(row.number, row.group, row.aspect, str(row.km)) for row in read.rows] == [
        (4, "S1", "Halt", "12.300"),
        (5, "S1", "Halt", "12.303"),
    ]
    names = 'group is "BG-Name", telegram is "Telegramm (hex)", km is "Kilometer", aspect is "Begriff"'
    assert read.notes == (
        f"headings by {file}: {names}",
        "the headings are in row 3: the 2 rows above it are passed over",
    )
    assert read.passed_over == ("Bemerkung",) and read.separator == ";"


def test_a_file_beside_the_table_binds_no_other_table(table: Write, run: Run) -> None:
    """A table without these headings is read by the names of the columns, and a note names what it lacks."""
    file = table(content=GERMAN.encode(), name="balisekit.toml")
    read = tables.read(str(table("group,Kilometer,telegram", f"A,1.5,{ALONE}")))
    lacks = f'headings by {file} that the table lacks: group is "BG-Name", telegram is "Telegramm (hex)"'
    no_aspect = 'aspect is "Begriff" (there is no column aspect)'
    assert str(read.rows[0].km) == "1.5"
    assert read.notes == (f'headings by {file}: km is "Kilometer"', f"{lacks}, {no_aspect}")
    no_km = 'km is "Kilometer" (there is no column km)'
    assert tables.read(str(table("group,telegram", f"A,{ALONE}"))).notes == (f"{lacks}, {no_km}, {no_aspect}",)


@pytest.mark.parametrize("name", OPTIONAL)
def test_a_mistyped_heading_beside_the_table(name: str, table: Write, run: Run) -> None:
    """Text and JSON name it, because the column would be missing without a word. By --columns it is refused."""
    path = table("group,Spalte,telegram", f"A,,{ALONE}")
    file = table(content=f'{name} = "Splate"\n'.encode(), name="balisekit.toml")
    note = f'headings by {file} that the table lacks: {name} is "Splate" (there is no column {name})'
    answer = path.with_suffix(".json")
    assert f"note: {note}" in run("check", path, "--json", answer)[1]
    assert note in json.loads(answer.read_text("utf-8"))["table"]["notes"]
    assert run("check", path, "--columns", file)[0] == 2
    file.write_text(f'{name} = "Spalte"\n', "utf-8")
    assert not any("lacks" in line for line in run("check", path)[1])


def test_a_file_beside_the_table_that_is_not_read(table: Write, run: Run) -> None:
    """A note names it if --columns names another file, because it may state the line too."""
    path = table("group,telegram", f"A,{ALONE}")
    beside = table(content=b"[check]\nline_speed = 200\n", name="balisekit.toml")
    other = table(content=b"group = 'group'", name="c.toml")
    note = f"note: {beside} is not read: --columns names another file"
    options: List[List[Any]] = [["--columns", other], []]
    for command in ("check", "table"):
        words = ["--csv", path.parent / "sheet.csv", "--force"] if command == "table" else []
        assert [note in run(command, path, *words, *more)[1] for more in options] == [True, False]
    assert note not in run("check", path, "--columns", beside)[1]
    beside.unlink()
    assert note not in run("check", path, "--columns", other)[1]


def test_a_heading_that_is_not_there(table: Write) -> None:
    """By a file that is named each heading has to be there."""
    file = table(content=GERMAN.encode(), name="c.toml")
    path = table("group,telegram,BG-Name,Begriff,Telegramm (hex)", f"A,{ALONE},B,x,{OTHER}")
    assert refusal(path, columns=str(file)) == (
        'table.csv: row 1: no column km ("Kilometer" by c.toml): the headings are group, telegram, BG-Name, Begriff, '
        "Telegramm (hex); correct c.toml"
    )


@pytest.mark.parametrize(
    "heading, cells, said",
    [
        ("Gruppe,Text", "A,", '{ group = "..", telegram = "Text" }'),
        ("Gruppe,km,Text", "A,12.300,", '{ group = "..", telegram = "Text" }'),
        ("Gruppe,PK,Text", "A,12+300,", '{ group = "..", telegram = "Text", km = "PK" }'),
        ("Gruppe,Stand,Text", "A,2.1,", '{ group = "..", telegram = "Text" }'),
        ('group,"Kilometer ""neu""",Text', "A,0.300,", '{ telegram = "Text", km = "Kilometer \\"neu\\"" }'),
        ("Gruppe,,Text", "A,12.300,", '{ group = "..", telegram = "Text" }'),
        ("Gruppe;Kilometer;Text", "A;12,300;", '{ group = "..", telegram = "Text", km = "Kilometer" }'),
        ("Gruppe\tText", "A\t", '{ group = "..", telegram = "Text" }'),
    ],
)
def test_the_line_that_a_refusal_gives_is_toml(table: Write, heading: str, cells: str, said: str) -> None:
    """The file with this line and the heading of `group` makes the table readable."""
    path = table(heading, f"{cells}{ALONE}")
    line = refusal(path).rsplit("a text file with the line ", 1)[1]
    assert line == f"columns = {said}"
    file = table(content=line.replace("..", "Gruppe").encode(), name="c.toml")
    assert tables.read(str(path), columns=str(file)).rows[0].group == "A"


@pytest.mark.parametrize(
    "text, said",
    [
        ("group = ", "it is no TOML, with lines such as telegram = "),
        ("grup = 'x'", '[columns] names an unknown column grup: did you mean "group"?'),
        ("signal = 'x'", "[columns] names an unknown column signal: the columns are group, telegram, name, km, "),
        ("[expect]\nvalu = 'x'", '[expect] names an unknown column valu: did you mean "value"?'),
        ("group = 7", 'the heading of group is no text: write group = "..."'),
        ("group = ' '", 'the heading of group is no text: write group = "..."'),
        ("columns = 'x'", "columns is no table: write [columns], and a line for each heading below it"),
        ("km = 'K'\n[columns]\ngroup = 'G'", "km is outside of [columns]: put all headings of the table there"),
        ("group = 'X'\nkm = ' x '", 'group and km have one heading, " x "'),
        ("a = " + "[" * 5000, "it is no TOML"),
    ],
)
def test_files_of_headings_that_cannot_be_read(table: Write, text: str, said: str) -> None:
    path, file = table("group,telegram", f"A,{ALONE}"), table(content=text.encode(), name="c.toml")
    with pytest.raises(KitError) as raised:
        tables.read(str(path), columns=str(file))
    assert raised.value.status == 2 and raised.value.lines()[0].startswith(f"{file}: {said}")


def test_a_python_without_tomllib(table: Write, run: Run, monkeypatch: pytest.MonkeyPatch) -> None:
    """The package is named, with the interpreter that lacks it, and the status is 3."""
    path, file = table("group,telegram", f"A,{ALONE}"), table(content=GERMAN.encode(), name="c.toml")
    modules: Dict[str, Any] = sys.modules
    monkeypatch.setattr(sys, "version_info", (3, 10, 0))
    monkeypatch.setitem(modules, "tomli", None)
    status, out, err = run("check", path, "--columns", file)
    assert (status, out, len(err)) == (3, [], 1)
    assert err[0].startswith(
        f"balisekit: reading headings of your own needs tomli, which {sys.executable} cannot import"
    )
    assert "python3-tomli" in err[0]


def test_an_output_never_replaces_the_headings(table: Write, run: Run) -> None:
    path = table("group,telegram", f"A,{ALONE}")
    for name in ("balisekit.toml", "c.toml"):
        file = table(content=b"group = 'group'", name=name)
        words = ["--columns", file] if name == "c.toml" else []
        status, _, err = run("check", path, *words, "--json", file, "--force")
        assert (status, err) == (2, [f"balisekit: {file}: it is an input: an output never replaces one"])


def test_a_heading_below_20_rows(table: Write) -> None:
    """20 rows are looked at."""
    assert len(tables.read(str(table(*["x,,"] * 19, "group,telegram", f"A,{ALONE}"))).rows) == 1
    assert refusal(table(*["x,,"] * 20, "group,telegram", f"A,{ALONE}")).startswith(
        "table.csv: row 1: no column group and no column telegram: the headings are x; give --columns FILE"
    )


class TestWorkbooks:
    """Workbooks with cover sheets and merged cells."""

    COVER = [["Streckendaten"], ["Stand", "2026-11-28"]]
    TITLE: List[List[Any]] = [["Balisen der Strecke 7"], []]
    HEADING = ["BG-Name", "Kilometer", "Begriff", "Telegramm\n(hex)"]
    DATA = [
        ["S1", 12.3, "Halt", ALONE],
        [None, None, "Fahrt", ALONE],
        ["S2", 13.5, "*", FIRST],
        [None, 13.503, "Halt", SECOND],
        [None, None, "Fahrt", SECOND],
    ]
    MERGED = ["A1:D1", "A4:A5", "B4:B5", "A6:A8", "B7:B8"]

    @staticmethod
    def book(path: Path, sheets: Dict[str, Any], merged: Sequence[str]) -> Path:
        """Writes a workbook; the last sheet has the merged areas."""
        openpyxl = pytest.importorskip("openpyxl")
        book = openpyxl.Workbook()
        book.remove(book.active)
        for name, rows in sheets.items():
            sheet = book.create_sheet(name)
            for row in rows:
                sheet.append(row)
        for area in merged:
            sheet.merge_cells(area)
        book.save(path / "line.xlsx")
        return path / "line.xlsx"

    def test_each_refusal_says_what_to_type(self, tmp_path: Path, run: Run) -> None:
        """From a workbook with a cover sheet, a title, German headings and merged cells to its answer."""
        sheets = {"Deckblatt": self.COVER, "Balisen": [*self.TITLE, self.HEADING, *self.DATA]}
        path, file = self.book(tmp_path, sheets, self.MERGED), tmp_path / "columns.toml"
        assert run("check", path)[2] == [
            f"balisekit: {path}: row 3: sheet Balisen: no column group and no column telegram: the headings are "
            "BG-Name, Kilometer, Begriff, Telegramm (hex); give --columns FILE, a text file with the line "
            'columns = { group = "..", telegram = "Telegramm (hex)", km = "Kilometer" }; --sheet names another sheet: '
            "Deckblatt"
        ]
        file.write_text(GERMAN, "utf-8")
        status, _, err = run("check", path, "--columns", file)
        assert status == 2 and err == [
            f"balisekit: {path}: row {row}, column group: no group; fill merged cells: give --fill-merged"
            for row in (5, 7, 8)
        ]
        read = tables.read(str(path), columns=str(file), fill_merged=True)
        assert [(row.group, str(row.km), row.aspect) for row in read.rows] == [
            ("S1", "12.3", "Halt"),
            ("S1", "12.3", "Fahrt"),
            ("S2", "13.5", "*"),
            ("S2", "13.503", "Halt"),
            ("S2", "13.503", "Fahrt"),
        ]
        status, out, err = run("check", path, "--columns", file, "--fill-merged")
        assert status == 1 and err == [] and out[0] == f"{path}: 5 telegrams of 2 groups"
        assert "note: the sheet is Balisen; hidden and filtered rows are read as well" in out
        assert (
            "note: merged ranges, whose empty cells are read with the value of the first one: 5, the first A1:D1" in out
        )
        assert "note: the headings are in row 3: the 2 rows above it are passed over" in out

    def test_headings_over_two_rows(self, tmp_path: Path) -> None:
        """Merged headings reach down to the row that divides them; a row within them is no telegram."""
        rows = [["group", "Ort", None, "telegram"], [None, "km", "track", None], ["A", 1, "1", ALONE]]
        path = self.book(tmp_path, {"S": rows}, ["A1:A2", "B1:C1", "D1:D2"])
        read = tables.read(str(path), fill_merged=True)
        assert [(row.number, row.group, str(row.km), row.track) for row in read.rows] == [(3, "A", "1.0", "1")]

    def test_rows_that_are_empty_stay_so(self, tmp_path: Path) -> None:
        """Also within a merged area, which may reach beyond the last row."""
        rows = [["group", "telegram"], ["A", FIRST], [None, None], [None, SECOND]]
        read = tables.read(str(self.book(tmp_path, {"S": rows}, ["A2:A9"])), fill_merged=True)
        assert [(row.number, row.group) for row in read.rows] == [(2, "A"), (4, "A")]

    def test_areas_that_overlap(self, tmp_path: Path) -> None:
        """As no spreadsheet writes them: each would be filled again."""
        rows = [["group", "telegram"], ["A", FIRST], [None, SECOND]]
        path = self.book(tmp_path, {"S": rows}, [f"A2:B{last}" for last in range(3, 9)])
        assert refusal(path, fill_merged=True) == "line.xlsx: its merged ranges overlap: save the workbook again"

    def test_a_csv_has_no_merged_cells(self, table: Write) -> None:
        path = table("group,telegram", f"A,{ALONE}")
        assert refusal(path, fill_merged=True).startswith("table.csv: --fill-merged is only for .xlsx files")

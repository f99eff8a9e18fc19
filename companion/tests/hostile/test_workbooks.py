"""Workbooks that would stop the machine, lose rows, or show something else than what is read."""

from __future__ import annotations

import io
import json
import random
import sys
import time
import tracemalloc
import zipfile
from pathlib import Path
from typing import Any, Callable, Dict, Iterator, List

import pytest
from conftest import Run
from telegrams import ALONE, OTHER

from balisekit.errors import KitError
from balisekit.tables import expected, reader as tables
from balisekit.tables.cells import COVERED, NOT_CALCULATED, RECALCULATED

get_column_letter = pytest.importorskip("openpyxl").utils.get_column_letter
sys.path.insert(0, str(Path(__file__).parent))
from workbooks import HEADING, MAIN, OFFICE, PACKAGE, row, sheet, text, workbook  # noqa: E402  (the path comes first)

Write = Callable[..., Path]
GOOD = row("A", ALONE)
SAVE = "save the table as CSV, or in a workbook of its own"


def strings(first: str, more: int = 0) -> List[Any]:
    """The part of the shared strings: this one, and so many others."""
    body = f"<si><t>{first}</t></si>{'<si><t>x</t></si>' * more}"
    return [("xl/sharedStrings.xml", "sharedStrings", f"<sst xmlns='{MAIN}'>{body}</sst>")]


def noise(length: int) -> str:
    """A comment that cannot be packed, so that no part is packed to a hundredth."""
    return f"<!--{random.Random(1).getrandbits(length * 4):x}-->"


LARGE: Dict[str, Any] = {
    "row 50,000,000": (
        lambda: workbook(sheet(HEADING, GOOD, row("B", OTHER, number="50000000"))),
        "xl/worksheets/sheet1.xml in it has a row 50,000,000, and the last possible row is 1,048,576",
    ),
    "row 2,000,000,000 of another prefix": (
        lambda: workbook(sheet(HEADING, GOOD, f"<x:row xmlns:x='{MAIN}' r = '2000000000'/>")),
        "xl/worksheets/sheet1.xml in it has a row 2,000,000,000, and the last possible row is 1,048,576",
    ),
    "120 MB of rows": (
        lambda: workbook(sheet(HEADING, "<row><c><v>1</v></c></row>" * 4_600_000)),
        "xl/worksheets/sheet1.xml in it has 119,600,210 bytes unpacked, more than 100,000,000: " + SAVE,
    ),
    "102 MB of shared strings": (
        lambda: workbook(sheet(HEADING, GOOD), more=strings("x", 5_999_999)),
        "xl/sharedStrings.xml in it has 102,000,077 bytes unpacked, more than 100,000,000: " + SAVE,
    ),
    "10 MB of empty rows": (lambda: workbook(sheet(HEADING, GOOD, "<row/>" * 1_700_000)), "more than 100 times its"),
    "10 MB of empty cells": (
        lambda: workbook(sheet(HEADING, GOOD, f"<row>{'<c/>' * 2_500_000}</row>")),
        "more than 100 times its",
    ),
    "empty rows beside noise": (
        lambda: workbook(sheet(HEADING, GOOD, noise(200_000), "<row/>" * 1_700_000)),
        "xl/worksheets/sheet1.xml in it has a row 1,048,577, and the last possible row is 1,048,576",
    ),
    "empty cells beside noise": (
        lambda: workbook(sheet(HEADING, GOOD, noise(200_000), f"<row>{'<c/>' * 2_500_000}</row>")),
        f"row 3 of xl/worksheets/sheet1.xml in it has more than 16,384 cells: {SAVE}",
    ),
    "shared strings beside noise": (
        lambda: workbook(sheet(HEADING, GOOD), more=strings(noise(400_000), 1_100_000)),
        f"xl/sharedStrings.xml in it has more than 1,048,576 strings: {SAVE}",
    ),
    "a cell XFD in each row": (
        lambda: workbook(sheet(HEADING, GOOD, *[f"<row>{text(f'{n:x}', f'XFD{n + 3}')}</row>" for n in range(20_000)])),
        f"row 3: it has more than 200 columns: {SAVE}",
    ),
    "300 cells in a row": (
        lambda: workbook(sheet(HEADING, row("A", ALONE, *["x"] * 300))),
        f"row 2: it has more than 200 columns: {SAVE}",
    ),
    "a document type definition": (
        lambda: workbook(f"<!DOCTYPE x [<!ENTITY a '{'<row/>' * 9}'>]>" + sheet(HEADING, GOOD, "&a;")),
        f"xl/worksheets/sheet1.xml in it has a document type definition: {SAVE}",
    ),
}


def refusal(path: Path) -> str:
    """The one line that a table is refused with."""
    with pytest.raises(KitError) as raised:
        tables.read(str(path))
    lines = raised.value.lines()
    assert raised.value.status == 2 and len(lines) == 1 and "\n" not in lines[0]
    return lines[0].replace(f"{path}: ", "")


@pytest.mark.uncovered
@pytest.mark.parametrize("name", LARGE)
def test_workbooks_that_are_too_large(table: Write, name: str) -> None:
    """Each is refused before it takes time or memory."""
    make, wanted = LARGE[name]
    path = table(content=make())
    begin = time.process_time()
    assert wanted in refusal(path)
    assert time.process_time() - begin < 10  # (a fifth of a second on an idle processor)


def test_a_row_number_takes_no_memory(table: Write) -> None:
    """Nor does openpyxl see it."""
    path = table(content=workbook(sheet(HEADING, GOOD, row("B", OTHER, number="90000000"))))
    tracemalloc.start()
    refusal(path)
    assert tracemalloc.get_traced_memory()[1] < 20_000_000
    tracemalloc.stop()


OUTSIDE = f"xl/worksheets/sheet1.xml in it has cells that are in none of its rows: {SAVE}"
STRICT = "http://purl.oclc.org/ooxml/spreadsheetml/main"
DISORDER = "in the workbook, which is damaged: save it again"


@pytest.mark.parametrize(
    "rows, wanted",
    [
        ([row("B", OTHER, number="1")], f"row 1: it follows row 2 {DISORDER}"),
        ([row("B", OTHER, number="2")], f"row 2: it follows row 2 {DISORDER}"),
        ([row("B", OTHER, number="-5")], f"row -5: it follows row 2 {DISORDER}"),
        ([row("B", OTHER, number="x")], f"row 0: it follows row 2 {DISORDER}"),
        ([row("B", OTHER, number="7"), row("C", OTHER, number="6")], f"row 6: it follows row 7 {DISORDER}"),
        (
            [f"<row>{text(OTHER, 'B3')}{text('B', 'A3')}</row>"],
            "row 3: its cells are not in the order of their columns",
        ),
        ([f"<row>{text('B', 'A3')}{text('C', 'A3')}</row>"], "row 3: its cells are not in the order of their columns"),
        ([f"<row r='3'>{row('B', OTHER, number='4')}</row>"], f"row 3: it follows row 4 {DISORDER}"),
        ([f"<row><x:y xmlns:x='x'>{text('B')}{text(OTHER)}</x:y></row>"], OUTSIDE),
        ([row("B", OTHER).replace("<row>", f"<row xmlns='{STRICT}'>")], OUTSIDE),
        (["<row><c r='A3' t='inlineStr'><v>B</v></c></row>"], "its cell A3 has a text that is not its value: save"),
        (["<row><c r='A3' t='str'><is><t>B</t></is></c></row>"], "its cell A3 has a text that is not its value: save"),
        (["<row><c r='A3'><f>D3</f></c><c r='B3'><f>E3</f><v/></c></row>"], f"row 3: {NOT_CALCULATED}"),
        (["<row><c><f>D3</f></c><c t='str'><f>E3</f></c></row>"], f"row 3: {NOT_CALCULATED}"),
        ([f"<row>{text('B', 'A3')}{text(OTHER, 'B7')}</row>"], "row 3: its cell B7 belongs to another row: save the"),
        ([f"<row r='3'>{text('B', 'A')}</row>"], "row 3: its cell A belongs to another row: save the workbook again"),
        *[
            ([f"<row>{text('B')}<c r='B3' t='str'><v>a1</v>{more}</c></row>"], "its cell B3 has a text that is not its")
            for more in (f"<v>{OTHER}</v>", f"<is><t>{OTHER}</t></is>", f"<extLst><ext><y>{OTHER}</y></ext></extLst>")
        ],
        ([f"<row>{text('B')}{text('a1', 'B3').replace('</c>', '<is><r><t>x</t></r></is></c>')}</row>"], "its cell B3 "),
        (["<row><c t='s'><v>-1</v></c></row>"], "row 3: openpyxl cannot read it (IndexError: shared string -1): "),
    ],
)
def test_rows_that_would_be_lost(table: Write, rows: List[str], wanted: str) -> None:
    """openpyxl passes over rows whose numbers do not rise, and counts strings from the end.

    A row of cells that it reads as empty, or does not find, is an empty row.
    """
    assert refusal(table(content=workbook(sheet(HEADING, GOOD, *rows), more=strings("S")))).startswith(wanted)


def test_formulas_whose_value_is_empty(table: Write) -> None:
    """A spreadsheet stores an empty text: such rows are empty. Formulas above the headings do not count."""
    empty = "<row><c t='str'><f>D3</f><v></v></c></row>"
    title = "<row><c><f>D1</f></c></row>"
    assert len(tables.read(str(table(content=workbook(sheet(title, HEADING, GOOD, empty))))).rows) == 1


def test_formulas_that_are_expected(table: Write) -> None:
    """A row of an expected sheet is not left out because its formulas have not been calculated."""
    rows = row("group", "variable", "raw"), row("A", "N_PIG", "0"), "<row><c><f>A2</f></c></row>"
    path = table(content=workbook(sheet(*rows)))
    with pytest.raises(KitError) as raised:
        expected.read(str(path))
    assert raised.value.lines() == [f"{path}: row 3: {NOT_CALCULATED}"]


def test_another_sheet_that_cannot_be_read(table: Write) -> None:
    """Its telegrams cannot be counted."""
    other = sheet(row("x", OTHER)).replace(MAIN, STRICT)
    wanted = f"sheet S2: {OUTSIDE.replace('sheet1', 'sheet2')}"
    assert refusal(table(content=workbook(sheet(HEADING, GOOD), other))) == wanted


def test_disorder_in_another_sheet(table: Write) -> None:
    """Only the sheet that is read has to be in order, and narrow."""
    other = sheet(row("x", number="2"), row("y", number="1"), row(*"x" * 300))
    assert len(tables.read(str(table(content=workbook(other, sheet(HEADING, GOOD))))).rows) == 1


def test_a_sheet_that_cannot_be_found(table: Write) -> None:
    """A spreadsheet may find a part whose name differs in case, and openpyxl passes it over: nothing may be lost."""
    content = workbook(sheet(HEADING, GOOD), sheet(row("x", OTHER)))
    with zipfile.ZipFile(io.BytesIO(content)) as file:
        parts = {name.replace("sheet2", "Sheet2"): file.read(name) for name in file.namelist()}
    out = io.BytesIO()
    with zipfile.ZipFile(out, "w") as file:
        for name, part in parts.items():
            file.writestr(name, part)
    with pytest.raises(KitError) as raised:
        tables.read(str(table(content=out.getvalue())))
    assert "1 of its 2 sheets cannot be found in it: " + SAVE in raised.value.lines()[0]


def test_sheets_of_one_name(table: Write) -> None:
    """Nobody can tell which of them is meant, so the workbook is refused. Letters of another case are the same."""
    content = workbook(sheet(HEADING, GOOD), sheet(row("x", OTHER)))
    with zipfile.ZipFile(io.BytesIO(content)) as file:
        parts = {name: file.read(name).replace(b"'S2'", b"'s1'") for name in file.namelist()}
    out = io.BytesIO()
    with zipfile.ZipFile(out, "w") as file:
        for name, part in parts.items():
            file.writestr(name, part)
    assert refusal(table(content=out.getvalue())) == f"it has the sheet s1 twice: {SAVE}"


@pytest.mark.filterwarnings("ignore:Duplicate name")
def test_parts_of_one_name(table: Write) -> None:
    """One reader takes the first, another the last."""
    out = io.BytesIO(workbook(sheet(HEADING, GOOD, row("B", OTHER))))
    with zipfile.ZipFile(out, "a") as file:
        file.writestr("xl/worksheets/sheet1.xml", sheet(HEADING, GOOD))
    assert refusal(table(content=out.getvalue())) == f"it has the part xl/worksheets/sheet1.xml twice: {SAVE}"


BOOK = workbook(sheet(HEADING, GOOD))
FURTHER = "it has another workbook or other bytes "


AROUND = {
    "a workbook in front": (workbook(sheet(HEADING, row("B", OTHER))) + BOOK, "in front of byte "),
    "a row in front": (b"PK\x03\x04" + row("B", OTHER).encode() + BOOK, "in front of byte "),
    "a row behind": (BOOK + row("B", OTHER).encode(), "behind byte "),
    "a byte behind": (BOOK + b"\0", "behind byte "),
}


@pytest.mark.parametrize("content, wanted", AROUND.values(), ids=AROUND)
def test_more_than_a_workbook(table: Write, content: bytes, wanted: str) -> None:
    """Readers of zips find the last workbook of a file, and see nothing of what is around it."""
    assert refusal(table(content=content)).startswith(FURTHER + wanted)


def test_a_comment_of_the_zip(table: Write) -> None:
    """It belongs to the workbook."""
    out = io.BytesIO(BOOK)
    with zipfile.ZipFile(out, "a") as file:
        file.comment = b"PK of the office"
    assert len(tables.read(str(table(content=out.getvalue()))).rows) == 1


KM = "<row>" + "".join(map(text, ["group", "telegram", "km"])) + "</row>"


def cell(body: str, place: str = "C2") -> str:
    """A row whose third cell has this body."""
    return f"<row>{text('A')}{text(ALONE)}<c r='{place}'>{body}</c></row>"


@pytest.mark.parametrize(
    "rows, behind, notes",
    [
        ([cell("<f>A1</f><v>7</v>")], "", []),
        ([cell("<v>7</v>"), cell("<f>C2</f><v>7</v>", "C3")], "", []),
        (
            [cell("<v>7</v>"), cell("", "C3")],
            "<mergeCells count='2'><mergeCell ref='C2:C3'/><mergeCell ref='D1:E1'/></mergeCells>",
            [
                "merged ranges, whose empty cells are read as empty: 2, the first C2:C3; --fill-merged takes the value "
                "of the first cell for them"
            ],
        ),
    ],
)
def test_cells_that_are_read_as_empty(table: Write, rows: List[str], behind: str, notes: List[str]) -> None:
    """Merged cells. Formulas that have a value are not read as empty."""
    read = tables.read(str(table(content=workbook(sheet(KM, *rows, behind=behind)))))
    assert read.notes == ("the sheet is S1; hidden and filtered rows are read as well", *notes)


@pytest.mark.parametrize("body", ["<f>A1</f>", "<f>A1</f><v/>", "<f t='x'/><v></v>"])
def test_formulas_that_nobody_has_worked_out(body: str, run: Run, table: Write) -> None:
    """Libraries write them without values. In a column that is read they are refused, unless it is skipped."""
    path = table(content=workbook(sheet(KM, cell(body))))
    assert run("check", path)[2] == [f"balisekit: {path}: row 2, column km: {NOT_CALCULATED}"]
    status, out, _ = run("check", path, "--skip-column", "km")
    assert status == 0 and 'not judged: 1 formula in sheet "S1", column "km", row 2: --skip-column km' in "\n".join(out)


FORMULA = "<c><f>Other!B2</f></c>"
X = row("group", "telegram", "x")
SAVED = "their values are not stored, and may be telegrams: open the workbook in a spreadsheet, and save it"


@pytest.mark.parametrize(
    "sheets, where, more, asked",
    [
        ([sheet(X, f"<row>{text('A')}{text(ALONE)}{FORMULA}</row>")], 'column "x", row 2', "--skip-column x", "x"),
        ([sheet(HEADING, GOOD), sheet(f"<row>{FORMULA}</row>")], "row 1", "--sheet", ""),
        ([sheet(f"<row>{FORMULA}</row>", HEADING, GOOD)], "row 1", "", ""),
    ],
)
def test_formulas_that_may_be_telegrams(
    sheets: List[str], where: str, more: str, asked: str, run: Run, table: Write
) -> None:
    """They are not counted as telegrams, and the answer is INCOMPLETE unless an option leaves them out."""
    path, name = table(content=workbook(*sheets)), f"S{len(sheets)}"
    status, out, _ = run("check", path)
    remedy = f", or give {more}" if more else ""
    assert status == 2 and f'not judged: 1 formula in sheet "{name}", {where}: {SAVED}{remedy}' in out
    counts = "account: 1 telegram in the file; 1 judged, 0 refused, 0 not judged; 1 formula without a stored value; "
    assert any(line.startswith(counts) for line in out)
    assert out[-1].startswith("INCOMPLETE: 1 formula without a stored value")
    option = ["--skip-column", asked] if asked else ["--sheet", "S1"]
    assert run("check", path, *option)[0] == (0 if more else 2)


LEFT_TO_THE_SPREADSHEET = ["<calcPr fullCalcOnLoad='1'/>", "<calcPr calcId='1' calcCompleted='false'/>", ""]
ZEROS = ["<f>A1</f><v>0</v>", "<f>A1</f><v>0.0</v>", "<f t='shared' si='0'/><v>-0E0</v>"]


@pytest.mark.parametrize("calculation", LEFT_TO_THE_SPREADSHEET)
def test_formulas_that_a_library_has_given_a_zero(calculation: str, run: Run, table: Write) -> None:
    """Some libraries store 0 or an empty text, and leave the calculation to the spreadsheet that opens the workbook."""
    empty = "<row><c t='str'><f>D3</f><v></v></c></row>"
    for body in ZEROS:
        path = table(content=workbook(sheet(KM, cell(body)), calculation=calculation))
        assert run("check", path)[2] == [f"balisekit: {path}: row 2, column km: {NOT_CALCULATED}"]
        path = table(content=workbook(sheet(X, cell(body)), calculation=calculation))
        assert (
            f'not judged: 1 formula in sheet "S1", column "x", row 2: {SAVED}, or give --skip-column x'
            in run("check", path)[1]
        )
        path = table(content=workbook(sheet(HEADING, GOOD), sheet(cell(body), empty), calculation=calculation))
        status, out, _ = run("check", path)
        assert status == 2 and f'not judged: 2 formulas in sheet "S2", rows 1 to 2: {SAVED}, or give --sheet' in out
    path = table(content=workbook(sheet(HEADING, GOOD, empty), calculation=calculation))
    assert refusal(path) == f"row 3: {NOT_CALCULATED}"


@pytest.mark.parametrize("calculation", LEFT_TO_THE_SPREADSHEET)
def test_values_beside_such_zeros(calculation: str, table: Write) -> None:
    """Other values are those of the formulas, and a zero without a formula is one."""
    rows = [cell("<f>A1</f><v>7</v>"), cell("<v>0</v>", "C3").replace(">A<", ">B<")]
    read = tables.read(str(table(content=workbook(sheet(KM, *rows), calculation=calculation))))
    assert [str(each.km) for each in read.rows] == ["7.0", "0.0"]
    assert [note for note in read.notes if "formula" in note] == [RECALCULATED.format(formulas="1 formula", row=2)]
    read = tables.read(str(table(content=workbook(sheet(X, *rows), calculation=calculation))))
    assert not any("formula" in note for note in read.notes)  # (the column is not read)
    rows = [cell("<f>A1</f><v>1</v>", place).replace(ALONE, "N_PIG") for place in ("C2", "C3")]
    path = table(content=workbook(sheet(row("group", "variable", "raw"), *rows), calculation=calculation))
    assert RECALCULATED.format(formulas="2 formulas", row=2) in expected.read(str(path)).notes


def test_calculated_formulas(table: Write) -> None:
    """A workbook that a spreadsheet has saved needs no note."""
    read = tables.read(str(table(content=workbook(sheet(KM, cell("<f>A1</f><v>7</v>"))))))
    assert [str(each.km) for each in read.rows] == ["7.0"] and not any("formula" in note for note in read.notes)


SECOND = f"<t>a1</t><t>{OTHER}</t>"
ODD_STRINGS = [
    SECOND,
    f"<t>a1</t>{OTHER}",
    f"{OTHER}<t>a1</t>",
    f"<t>a1<b>{OTHER}</b></t>",
    f"<t>a1</t><r><t>{OTHER}</t></r>",
    f"<r>{SECOND}</r>",
    f"<r><t>a1</t></r><r>{SECOND}</r>",
    f"<t>a1</t><extLst><ext><y>{OTHER}</y></ext></extLst>",
    f"<x:AlternateContent xmlns:x='x'><x:Choice><t>{OTHER}</t></x:Choice></x:AlternateContent>",
]


@pytest.mark.parametrize("string", ODD_STRINGS)
def test_strings_with_two_texts(table: Write, string: str) -> None:
    """openpyxl takes one of them. A spreadsheet might show the other one."""
    inline = text("B", "A3") + f"<c r='B3' t='inlineStr'><is>{string}</is></c>"
    path = table(content=workbook(sheet(HEADING, GOOD, f"<row>{inline}</row>")))
    assert refusal(path) == "its cell B3 has a text that is not its value: save the workbook again"
    shared = [("xl/sharedStrings.xml", "sharedStrings", f"<sst xmlns='{MAIN}'><si>{string}</si></sst>")]
    path = table(content=workbook(sheet(HEADING, GOOD), more=shared))
    assert refusal(path) == "its shared string 0 has a text that is not its value: save the workbook again"


@pytest.mark.parametrize(
    "string",
    [
        f"<t>{OTHER}</t>",
        f"<r><rPr><b/></rPr><t>{OTHER[:9]}</t></r><r><t xml:space='preserve'>{OTHER[9:]}</t></r>",
        f"\n <t>{OTHER}</t>\n <rPh sb='0' eb='1'><t>a one</t></rPh><phoneticPr fontId='1'/>",
    ],
)
def test_strings_of_one_text(table: Write, string: str) -> None:
    """Runs with formats, blanks between the elements and how a text is pronounced do not count."""
    shared = [("xl/sharedStrings.xml", "sharedStrings", f"<sst xmlns='{MAIN}'><si>{string}</si></sst>")]
    for own in ("<c t='s'><v>0</v></c>", f"<c t='inlineStr'><is>{string}</is></c>"):
        read = tables.read(str(table(content=workbook(sheet(HEADING, f"<row>{text('A')}{own}</row>"), more=shared))))
        assert [each.telegram for each in read.rows] == [OTHER]


def test_a_text_like_an_escape(table: Write) -> None:
    """A spreadsheet stores the text `_x000D_` with its first character as a number: it has no carriage return."""
    name = "_x005F_x000D_|_x0001_|_x005f_"
    for own in ("<c t='s'><v>0</v></c>", text(name)):
        content = workbook(sheet(HEADING, f"<row>{own}{text(ALONE)}</row>"), more=strings(name))
        assert [each.group for each in tables.read(str(table(content=content))).rows] == ["_x000D_|\x01|_"]


@pytest.mark.parametrize("stored", ["1_0", "\u0661\u0660"])
def test_numbers_that_only_python_reads(table: Write, stored: str) -> None:
    """No spreadsheet reads 1_0 as 10."""
    path = table(content=workbook(sheet(KM, cell(f"<v>{stored}</v>"))))
    assert refusal(path) == f"its cell C2 has {stored}, which is no number: save the workbook again"


def test_rows_that_are_formatted_as_a_whole(table: Write) -> None:
    """Their cells are empty up to the last column of a sheet. Others beyond the greatest number are refused."""
    cells = "".join(f"<c r='{column}2' s='0'/>" for column in map(get_column_letter, range(3, 1025)))
    read = tables.read(str(table(content=workbook(sheet(HEADING, f"<row>{text('A')}{text(ALONE)}{cells}</row>")))))
    assert [each.telegram for each in read.rows] == [ALONE] and not read.passed_over
    for more in (text("x", "AMK2"), "<c r='AMK2'><f>A1</f></c>"):
        path = table(content=workbook(sheet(HEADING, f"<row>{text('A')}{text(ALONE)}{cells}{more}</row>")))
        assert refusal(path) == f"row 2: it has more than 200 columns: {SAVE}"


def test_remedies_for_a_workbook_of_expected_variables(table: Write) -> None:
    """--sheet and --fill-merged are about the table of telegrams."""
    rows = row("group", "variable", "raw"), row("A", "N_PIG", "0")
    several = "several sheets have the headings: save the one that is meant as CSV: S1, S2"
    hidden = "only the hidden sheet S2 has the headings: show it"
    none = (
        "row 1: sheet S1: no column variable: the headings are x; give --columns FILE, a text file with the line "
        'columns = { variable = ".." }; save another sheet as CSV: S2'
    )
    both, second, neither = [sheet(*rows)] * 2, [sheet(row("x")), sheet(*rows)], [sheet(row("x")), sheet(row("y"))]
    for sheets, state, wanted in ((both, "visible", several), (second, "hidden", hidden), (neither, "visible", none)):
        path = table(content=workbook(*sheets, states=("visible", state)))
        with pytest.raises(KitError) as raised:
            expected.read(str(path))
        assert raised.value.lines() == [f"{path}: {wanted}"]
    merged = "<mergeCells><mergeCell ref='A2:A3'/></mergeCells>"
    path = table(content=workbook(sheet(*rows, row("", "NID_BG", "1"), behind=merged)))
    note = "merged ranges, whose empty cells are read as empty: 1, the first A2:A3; unmerge and fill the cells"
    assert note in expected.read(str(path)).notes


def test_a_zero_that_a_spreadsheet_has_calculated(table: Write) -> None:
    """It is the value of the formula, as at the beginning of a line."""
    for body in ZEROS:
        read = tables.read(str(table(content=workbook(sheet(KM, cell(body))))))
        assert [str(each.km) for each in read.rows] == ["0.0"]


def test_lines_of_a_csv_in_one_column(run: Run, table: Write) -> None:
    """Somebody has pasted them into a sheet or a column. Each such cell counts."""
    lines = f"B;{OTHER};12.3", f"B|{OTHER}|{ALONE}"
    path = table(content=workbook(sheet(HEADING, GOOD), sheet(*map(row, lines))))
    status, out, _ = run("check", path)
    assert status == 2 and out[-1].startswith("INCOMPLETE: 2 telegrams in columns or sheets that are not read")
    assert any(line.startswith('not judged: 2 telegrams in sheet "S2", rows 1 to 2: ') for line in out)
    path = table(content=workbook(sheet(X, row("A", ALONE, lines[0]))))
    status, out, _ = run("check", path)
    assert status == 2 and any(
        line.startswith('not judged: 1 telegram in sheet "S1", column "x", row 2') for line in out
    )


def test_telegrams_in_comments(table: Write) -> None:
    """Only cells are read, so telegrams in a comment of a cell are named."""
    comments = f"<comments xmlns='{MAIN}'><comment ref='B2'><text><t>{OTHER}</t></text></comment></comments>"
    part = ("xl/comments1.xml", "comments", comments)
    notes = tables.read(str(table(content=workbook(sheet(HEADING, GOOD), more=[part])))).notes
    parts = "comments, text boxes and other parts that are not read"
    said = f"digits as telegrams have in {parts}: 1, the first in xl/comments1.xml"
    assert said in notes


HALVES = {"{B}": OTHER, "{B1}": OTHER[:20], "{B2}": OTHER[20:], "{main}": MAIN}
OTHER_PARTS: Dict[str, Dict[str, str]] = json.loads(Path(__file__).with_name("other_parts.json").read_text("utf-8"))


def filled(xml: str) -> str:
    """The XML with the telegrams that it names."""
    for name, telegram in HALVES.items():
        xml = xml.replace(name, telegram)
    return xml


@pytest.mark.parametrize("name", OTHER_PARTS)
def test_telegrams_in_other_parts(name: str, table: Write) -> None:
    """Each part of a workbook is searched, and a note names the one that has a telegram (other_parts.json)."""
    case = OTHER_PARTS[name]
    xml, rows, part = filled(case["xml"]), [HEADING, GOOD], case["part"]
    if part == "xl/worksheets/sheet1.xml":
        in_rows = [xml] if xml.startswith("<row") else []
        content = workbook(sheet(*rows, *in_rows, behind="" if in_rows else xml))
    else:
        content = workbook(sheet(*rows), more=[(part, "other", xml)] if xml else [])
    notes = tables.read(str(table(content=content))).notes
    said = f"digits as telegrams have in comments, text boxes and other parts that are not read: 1, the first in {part}"
    assert [note for note in notes if note.startswith("digits as telegrams have in ")] == (
        [said] if case["is found"] == "yes" else []
    )


def strings_of(part: str, *texts: str) -> Any:
    """A part with these shared strings."""
    body = "".join(f"<si><t>{each}</t></si>" for each in texts)
    return part, "sharedStrings", f"<sst xmlns='{MAIN}'>{body}</sst>"


SHARED = "<row><c t='s'><v>0</v></c><c t='s'><v>1</v></c></row>"


@pytest.mark.parametrize("part", ["xl/sharedStrings.xml", "xl/texts.xml", "sst/1.xml"])
def test_shared_strings_of_another_name(part: str, table: Write) -> None:
    """They are cells, whatever their part is called. A string that no cell has is none."""
    read = tables.read(str(table(content=workbook(sheet(HEADING, SHARED), more=[strings_of(part, "A", ALONE)]))))
    assert [each.telegram for each in read.rows] == [ALONE] and len(read.notes) == 1
    more = [strings_of(part, "A", ALONE, "x", OTHER)]
    notes = tables.read(str(table(content=workbook(sheet(HEADING, SHARED), more=more)))).notes
    assert notes[1:] == (
        f"digits as telegrams have in comments, text boxes and other parts that are not read: 1, the first in {part}",
    )


def replaced(content: bytes, part: str, old: str, new: str) -> bytes:
    """The workbook with another text in one of its parts."""
    out = io.BytesIO()
    with zipfile.ZipFile(io.BytesIO(content)) as book, zipfile.ZipFile(out, "w", zipfile.ZIP_DEFLATED) as file:
        for name in book.namelist():
            xml = book.read(name).decode()
            assert name != part or old in xml
            file.writestr(name, xml.replace(old, new) if name == part else xml)
    return out.getvalue()


def test_two_workbooks_in_a_package(table: Write) -> None:
    """A spreadsheet opens the one that the package names."""
    related = f"<Relationship Id='r' Type='{OFFICE}/officeDocument' Target='{{}}'/>"
    for part in ("xl/workbook.xml", "/xl/Workbook.xml", "./xl/workbook.xml", "xl/other.xml"):
        xml = f"<Relationships xmlns='{PACKAGE}/relationships'>{related.format(part)}</Relationships>"
        path = table(content=workbook(sheet(HEADING, GOOD), more=[("_rels/.rels", "other", xml)]))
        if part != "xl/other.xml":
            assert len(tables.read(str(path)).rows) == 1
    assert refusal(path) == f"its workbook is xl/other.xml, which is not the part of this kind: {SAVE}"


@pytest.mark.parametrize("length", [9, 16, 27])
def test_carriage_returns(length: int, run: Run, table: Write) -> None:
    """Excel stores one by its number. With it, or without, a telegram of several lines counts, unless left out."""
    lines = [OTHER[at : at + length] for at in range(0, len(OTHER), length)]
    for end in ("_x000D_\n", "_x000d_", "\n"):
        path = table(content=workbook(sheet(X, row("A", ALONE, end.join(lines)))))
        status, said, _ = run("check", path)
        assert status == 2 and any(line.startswith('not judged: 1 telegram in sheet "S1", column "x"') for line in said)
        assert run("check", path, "--skip-column", "x")[0] == 0
    path = table(content=workbook(sheet(X, row("A", ALONE, "made by\n94197054c0950af5adb77da36675a30ab0567caf"))))
    assert run("check", path)[0] == 0


def test_two_parts_with_shared_strings(table: Write) -> None:
    """A spreadsheet follows the relationship of the workbook, and openpyxl the kind of the part."""
    more = [strings_of("xl/sharedStrings.xml", "A", ALONE), ("xl/b.xml", "other", strings_of("", "A", OTHER)[2])]
    related = f"<Relationship Id='s' Type='{OFFICE}/sharedStrings' Target='b.xml'/></Relationships>"
    book = workbook(sheet(HEADING, SHARED), more=more)
    path = table(content=replaced(book, "xl/_rels/workbook.xml.rels", "</Relationships>", related))
    assert refusal(path) == f"its shared strings are in xl/b.xml, which is not the part of this kind: {SAVE}"


@pytest.mark.parametrize(
    "inner, is_searched",
    [(BOOK, True), (BOOK[:-1], False), (b"\xd0\xcf\x11\xe0", False)],
    ids=["a workbook", "a damaged one", "an object"],
)
def test_embedded_files(inner: bytes, is_searched: bool, table: Write) -> None:
    """The cells of an embedded workbook are searched. What cannot be searched is named."""
    out = io.BytesIO(BOOK)
    with zipfile.ZipFile(out, "a") as file:
        file.writestr("xl/embeddings/1.bin", inner)
        file.writestr("xl/media/1.png", b"\x89PNG")
    notes = tables.read(str(table(content=out.getvalue()))).notes
    said = (
        "digits as telegrams have in comments, text boxes and other parts that are not read: 1, the first in "
        "xl/embeddings/1.bin"
    )
    parts = "macros, embedded objects and other parts that are not searched for telegrams: 1, the first "
    assert notes[1:] == ((said,) if is_searched else (f"{parts}xl/embeddings/1.bin",))


def merged(*ranges: str) -> str:
    """The part of a sheet that names these merged ranges."""
    return f"<mergeCells>{''.join(f'<mergeCell ref={each!r}/>' for each in ranges)}</mergeCells>"


@pytest.mark.parametrize("fill", [False, True])
@pytest.mark.parametrize(
    "rows, ranges, wanted",
    [
        ([row("group", "telegram"), GOOD, row("B", OTHER)], ["A2:A3"], "row 3, column group: "),
        ([row("group", "telegram"), GOOD, row("A", OTHER)], ["B2:B3"], "row 3, column telegram: "),
        ([row("group", "telegram"), GOOD, row("A", ALONE), row("A", OTHER)], ["B2:B4"], "row 4, column telegram: "),
        ([row("group", "telegram"), GOOD, row("", OTHER)], ["A3:B3"], "row 3, column telegram: "),
        ([row("group", "telegram"), GOOD, row("A", "ignored")], ["A1:B1"], "row 1, column telegram: "),
        ([row("group", "x", "telegram"), row("A", "", ALONE)], ["B2:C2"], "row 2, column telegram: "),
    ],
)
def test_contents_below_a_merged_cell(
    rows: List[str], ranges: List[str], wanted: str, fill: bool, table: Write
) -> None:
    """LibreOffice can keep them, and shows only the first cell: nobody sees what would be judged."""
    path = table(content=workbook(sheet(*rows, behind=merged(*ranges))))
    with pytest.raises(KitError) as raised:
        tables.read(str(path), fill_merged=fill)
    assert raised.value.status == 2 and raised.value.lines() == [f"{path}: {wanted}{COVERED}"]


@pytest.mark.parametrize("fill", [False, True])
def test_equal_contents_below_a_merged_cell(fill: bool, table: Write) -> None:
    """They are what is seen. In a column that is not read, other words are not needed."""
    rows = row("group", "telegram", "x"), row("A", ALONE, "y"), row(" A", ALONE, "z")
    path = table(content=workbook(sheet(*rows, behind=merged("A2:A3", "B2:B3", "C2:C3"))))
    assert [(each.group, each.telegram) for each in tables.read(str(path), fill_merged=fill).rows] == [("A", ALONE)] * 2


def test_expected_contents_below_a_merged_cell(table: Write) -> None:
    """They would be compared."""
    rows = row("group", "variable", "raw"), row("A", "N_PIG", "0"), row("A", "N_TOTAL", "1")
    path = table(content=workbook(sheet(*rows, behind=merged("C2:C3"))))
    with pytest.raises(KitError) as raised:
        expected.read(str(path))
    assert raised.value.lines() == [f"{path}: row 3, column raw: {COVERED}"]


@pytest.mark.parametrize("short", ["a100", ALONE[:20], "a1 04 7f", "0xA104"])
def test_a_short_telegram_below_a_merged_heading(short: str, run: Run, table: Write) -> None:
    """It is a row of the table, and would be refused in any other row."""
    rows = row("group", "telegram", "km"), row("A", short), GOOD.replace(">A<", ">B<")
    path = table(content=workbook(sheet(*rows, behind=merged("C1:C2"))))
    why = "merged headings cover its row, and it has digits as a telegram has: unmerge the headings"
    assert run("check", path, "--fill-merged")[::2] == (2, [f"balisekit: {path}: row 2, column telegram: {why}"])


@pytest.mark.parametrize("below", ["hex", "2", "user bits"])
def test_headings_of_two_rows(below: str, table: Write) -> None:
    """Words and numbers of columns below a heading are noted. A row without anything is not."""
    rows = row("group", "telegram", "km"), row("", below), row("", "").replace("<t></t>", ""), GOOD
    path = table(content=workbook(sheet(*rows, behind=merged("A1:A3"))))
    read = tables.read(str(path), fill_merged=True)
    assert [each.group for each in read.rows] == ["A"]
    assert read.notes[-1] == "row 2 is passed over: merged headings cover it"


@pytest.mark.parametrize("state", ["hidden", "veryHidden"])
def test_hidden_sheets(table: Write, state: str) -> None:
    """A sheet that nobody sees is read only if it is named, and a note says that it is hidden."""
    path = table(content=workbook(sheet(row("x")), sheet(HEADING, GOOD), states=["visible", state]))
    assert refusal(path) == "only the hidden sheet S2 has the headings: name it by --sheet, or show it"
    assert tables.read(str(path), "S2").notes == (
        "the sheet is S2, which is hidden; hidden and filtered rows are read as well",
    )


def encrypted(content: bytes) -> bytes:
    """The workbook with a flag in all headers that says that its parts have a password."""
    out = bytearray(content)
    for begin, flag in ((b"PK\x03\x04", 6), (b"PK\x01\x02", 8)):
        at = content.find(begin)
        while at >= 0:
            out[at + flag] |= 1
            at = content.find(begin, at + 1)
    return bytes(out)


def texts() -> Iterator[Any]:
    """Workbooks that cannot be read, and the cause that is named."""
    good = workbook(sheet(HEADING, GOOD))
    yield good[:700], "it is cut short or damaged (File is not a zip file): copy it again, or save it as CSV"
    yield good[:600] + b"x" * 9 + good[609:], "it is cut short or damaged ("
    yield b"PK\x05\x06" + bytes(18), "it is no .xlsx, but an .ods or another zip: save it as .xlsx or CSV"
    yield encrypted(good), "[Content_Types].xml in it is encrypted: save it without a password, or as CSV"
    yield workbook(), "the workbook has no sheet with cells"
    yield workbook(sheet(KM, cell("<v>1e309</v>"))), "row 2, column km: inf is no kilometre: "
    yield workbook(sheet(KM, cell("<v>x</v>"))), "row 2: openpyxl cannot read it (ValueError: invalid literal for int()"
    yield workbook(sheet(KM, "<row><c r='A'><v>x</v>")), "openpyxl cannot read it (ParseError: "
    yield workbook(
        sheet(HEADING, GOOD).replace("<sheetData>", "<sheetData>\0")
    ), "openpyxl cannot read it (ParseError: "
    yield workbook(sheet(HEADING, GOOD).encode("utf-16")), f"xl/worksheets/sheet1.xml in it is not UTF-8: {SAVE}"


TEXTS = [*texts()]


@pytest.mark.parametrize("content, wanted", TEXTS, ids=[wanted for _, wanted in TEXTS])
def test_texts(table: Write, content: bytes, wanted: str) -> None:
    """The cause is named, with row and column if they are known."""
    assert refusal(table(content=content)).startswith(wanted)


@pytest.mark.parametrize(
    "name, words",
    [("openpyxl", ["check"]), ("jinja2", ["report", "--html", "-"]), ("jinja2", ["draw", "--group", "A"])],
)
def test_broken_packages(
    name: str, words: List[str], run: Run, table: Write, tmp_path: Path, monkeypatch: pytest.MonkeyPatch
) -> None:
    """A package that fails to load is named with the interpreter, and a command that installs it."""
    book, csv = table(content=workbook(sheet(HEADING, GOOD))), table("group,telegram", f"A,{ALONE}", name="t.csv")
    (tmp_path / f"{name}.py").write_text("def (")
    for module in [module for module in sys.modules if module.split(".")[0] == name]:
        monkeypatch.delitem(sys.modules, module)
    monkeypatch.syspath_prepend(tmp_path)
    status, out, err = run(words[0], book if name == "openpyxl" else csv, *words[1:])
    assert (status, out, len(err)) == (3, [], 1)
    assert f"needs {name}, which {sys.executable} cannot import (SyntaxError: invalid syntax" in err[0]
    assert f"sudo apt-get install python3-{name}" in err[0]


def test_mistakes_of_balisekit_are_not_blamed_on_the_workbook(table: Write, monkeypatch: pytest.MonkeyPatch) -> None:
    """What balisekit itself does wrong stays an error of its own."""
    path = table(content=workbook(sheet(KM, cell("<v>7</v>"))))
    monkeypatch.setattr("balisekit.tables.xlsx._text", lambda value: 1 / 0)
    with pytest.raises(ZeroDivisionError):
        tables.read(str(path))


@pytest.mark.parametrize("with_cells", [False, True])
def test_a_chart_sheet_without_a_chart(tmp_path: Path, with_cells: bool) -> None:
    """It has no cells: no reason is a name of an exception, and beside a sheet with cells it is only named."""
    openpyxl = pytest.importorskip("openpyxl")
    book = openpyxl.Workbook()
    book.create_chartsheet("Chart")
    if with_cells:
        for cells in (("group", "telegram"), ("A", ALONE)):
            book.active.append(cells)
    else:
        book.remove(book.active)
        book.active = 0
    path = tmp_path / "chart.xlsx"
    book.save(path)
    if with_cells:
        assert [row.telegram for row in tables.read(str(path)).rows] == [ALONE]
    else:
        assert refusal(path) == "the workbook has no sheet with cells"


@pytest.mark.parametrize("column", [1, 2])
def test_rows_that_are_struck_through(run: Run, tmp_path: Path, column: int) -> None:
    """Their telegrams are judged, and a line says so: an engineer may have struck out what no longer holds."""
    openpyxl = pytest.importorskip("openpyxl")
    book = openpyxl.Workbook()
    for cells in (("group", "telegram", "remark"), ("A", ALONE, "x"), ("B", OTHER, "y")):
        book.active.append(cells)
    path = tmp_path / "line.xlsx"
    book.save(path)
    assert not any("struck" in line for line in run("check", path)[1])
    book.active.cell(3, column).font = openpyxl.styles.Font(strike=True)
    book.active.cell(9, 4).font = openpyxl.styles.Font(strike=True)
    book.save(path)
    lines = [line for line in run("check", path)[1] if "struck" in line]
    assert lines == ["note: rows with struck-through cells, which are read as all others: 1, the first row 3"], lines

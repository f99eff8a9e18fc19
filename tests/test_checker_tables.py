"""Tables and workbooks on the page for browsers: verdicts, rows, refusals, exports, and what is said of each file."""
import csv
import io
import json
import subprocess
import time

import pytest

from checker_page import SHORT, choose, paste, saved, texts
from checker_page import a_tab, an_opened_tab  # noqa: F401 pylint: disable=unused-import # (fixtures)
from runner import TOP, run
from workbooks import Raw, parts, sheet, workbook, packed

LINE = TOP / "examples/table/line.csv"
FIRST, SECOND = "a102ff802000ffffffffffffffffffffffffffffffffffffffffc0", "a1137f802000ffffffffffffffffffffffffffffffffffffffffc0"
SINGLE = "a1007f802000ffffffffffffffffffffffffffffffffffffffffc0"
SPARE = (TOP / "examples/spare-mark.txt").read_text().strip()
RESULT = "document.querySelector('#result').textContent"


def rows_of(text, delimiter=","):
    """The rows of a table, as lists."""
    return [*csv.reader(io.StringIO(text), delimiter=delimiter)]


def table_of(*rows, delimiter=","):
    """A table with these rows below the headings of all four columns."""
    return "\n".join(delimiter.join(row) for row in (("group", "aspect", "balise", "telegram"), *rows)) + "\n"


# A table, and what is said of it. The first ones are those of the trials of the proved reader of tables.
SAID = {
    "no telegrams": ("group,telegram\nA,0\n", "refused: row 2: not hexadecimal"),
    "mark": ("\ufeffgroup;telegram\r\nA;00\r\nB;1", "refused: row 2: wrong size"),
    "quoted line end": ('group,telegram\n"A""\n","0\n1"', "refused: row 2: the telegram is not hexadecimal"),
    "other column": ("group,x\nA,0\n", "refused: no heading row"),
    "two delimiters": ("group,telegram\ngroup;telegram\n", "refused: two delimiters give a heading row"),
    "above": (f"{'0123456789' * 4},\ngroup,telegram\nA,0\n", "refused: row 1: a telegram above the headings"),
    "heading twice": ("group,telegram,GROUP\nA,0,B\n", "refused: row 1: heading group twice"),
    "no group": ("group,telegram\n\n,0\n", "refused: row 3: no group"),
    "no telegram": ("group,telegram\nA,\n", "refused: row 2: no telegram"),
    "wide": ("group,telegram\nA,0,,x\n", "refused: row 2: text to the right of the headings"),
    "edge of aspect": ("group,telegram,aspect\nA,0, x\n", "refused: row 2: a blank at an end of the aspect"),
    "edge of group": ("group,telegram\nA\t,0\n", "refused: row 2: a blank at an end of the group"),
    "prefix": ("group,telegram\nA,0x1\n", "refused: row 2: the telegram is not hexadecimal"),
    "balise": ("group,telegram,balise\nA,0,first\n", "refused: row 2: the balise is not a number of up to four digits"),
    "long balise": ("group,telegram,balise\nA,0,12345\n", "refused: row 2: the balise is not a number of up to four digits"),
    "open quote": ('group,telegram\nA,"0\nB,1\n', "refused: row 2: a quote that is not closed"),
    "quote inside": (f'group,telegram\nA"B,{SINGLE}\n', "refused: row 2: a quote in a field without quotes"),
    "text after quote": (f'group,telegram\n"A"B,{SINGLE}\n', "refused: row 2: text after the quote that ends a field"),
    "empty": ("group,telegram\n,\n", "refused: no telegram"),
    "sound": (f"group,telegram\nA,{SINGLE}\n", "yes: groups 1, telegrams 1"),
    "ordered": (f"group;balise;telegram\nA;1;{SECOND}\n;;\nA;0;{FIRST}\n", "yes: groups 1, telegrams 2"),
    "tabs": (f"Line 1\n\nTELEGRAM\tx\tGroup\n{SINGLE[:2]} {SINGLE[2:]}\t\tA\n\t\t\n\n", "yes: groups 1, telegrams 1"),
    "returns": (f"group,telegram\rA,{SINGLE}\r", "yes: groups 1, telegrams 1"),
    "first refused row": (f"group,telegram\nA,{SINGLE}\nB,00\nA,1\n", "refused: row 3: wrong size"),
    "spare": (f"group,telegram\nA,{SINGLE}\nB,{SPARE}\n", "refused: row 3: spare at 15 end 17"),
    "unnamed": (table_of(("A", "red", "", SINGLE), ("A", "", "", SINGLE)), "refused: row 3: no aspect"),
    "unnumbered": (table_of(("A", "", "0", FIRST), ("A", "", "", SECOND)), "refused: row 3: no balise"),
    "repeated": (table_of(("A", "", "0", FIRST), ("A", "", "00", SECOND)), "refused: row 3: balise twice"),
    "ninth": (table_of(*[("A", "", "", SINGLE)] * 9), "refused: row 10: ninth balise"),
    "uneven": (table_of(("A", "red", "", SINGLE), ("A", "green", "", FIRST), ("A", "green", "", SECOND)),
               "refused: row 3: another count of balises than in the first aspect"),
    "moved": (table_of(("A", "red", "", FIRST), ("A", "*", "", SECOND), ("A", "green", "", FIRST)),
              "refused: row 3: not at one place in all aspects"),
    "telegram before group": (table_of(("A", "", "0", FIRST), ("A", "", "0", SECOND), ("B", "", "", "00")),
                              "refused: row 4: wrong size"),
    "number": ("group;telegram\nA;1,6093E+62\n", "refused: row 2: the telegram is not hexadecimal"),
}


@pytest.mark.parametrize("name", SAID)
def test_tables(tab, name):
    """A table is read, or refused for its first fault, as the proved reader of tables does it."""
    text, wanted = SAID[name]
    assert paste(tab, text, "table") == wanted
    assert tab.messages() == []


def test_rows_of_findings(tab):
    """Each finding has the rows of its balise, or the first row of its group or aspect."""
    pair = f"group,aspect,telegram\nA,,{FIRST}\nB,,{SINGLE}\nB,,{FIRST}\nC,red,{SINGLE}\nC,green,{SINGLE}\n"
    every = f"group,balise,aspect,telegram\nA,1,red,{SECOND}\nA,0,*,{FIRST}\nA,1,green,{SINGLE}\n"
    wanted = {pair: ["F2 row 2: total wrong", "F4 row 2: mark points outside", "F1 row 4: position wrong",
                     "F2 row 3: total wrong", "F4 row 4: mark points outside", "F14 row 3: identity used before",
                     "F14 row 5: identity used before"],
              every: ["F1 row 4 aspect 1: position wrong", "F2 row 4 aspect 1: total wrong",
                      "F5 row 3 aspect 1: mark not answered", "F15 row 4 aspect 1: marks differ between aspects",
                      "F16 rows 2, 4: aspects not told apart"]}
    for text, lines in wanted.items():
        assert paste(tab, text, "table") == f"no: findings {len(lines)}"
        said = [it.split("\n") for it in texts(tab, "#result pre") if it.startswith("no:")]
        assert said == [[f"no: findings {len(lines)}", *lines, ""]]
    shown = tab.run("[...document.querySelectorAll('#result table')][0].textContent")
    assert "row 4: group A; balise 1; aspect green; telegram a1007f802000" in shown


@pytest.fixture(name="read_line", scope="module")
def a_read_line():
    """The rows of the table of the examples without the group that is refused."""
    return [row for row in rows_of(LINE.read_text()) if row[0] != "Signal F"]


def written(rows, delimiter=","):
    """The text of a table with these rows."""
    out = io.StringIO()
    csv.writer(out, delimiter=delimiter, lineterminator="\r\n").writerows(rows)
    return out.getvalue()


def plain_form(document):
    """The telegrams of a document by group, aspect and balise."""
    return [[it["balises"] for it in group.get("aspects", [group])] for group in json.loads(document)["groups"]]


def test_as_balisekit(tab, tmp_path, read_line):
    """The document of a table is that of balisekit, and verdict and findings are the program's for it."""
    path = tmp_path / "line.csv"
    path.write_text(written(read_line))
    told = run(["check", path, "--document", tmp_path / "made.json"], path=TOP / "balisekit", timeout=300)
    assert told.status in (1, 2), told
    wanted = run(["check"], (tmp_path / "made.json").read_text()).stdout
    assert choose(tab, path) == wanted.split("\n")[0] and wanted.startswith("no: findings ")
    made = saved(tab, "Save the document")
    assert plain_form(made) == plain_form((tmp_path / "made.json").read_text())
    kept = json.loads(saved(tab, "Save the answer as JSON"))
    lines = [f"{it['rule']}" for it in kept["answer"]["findings"]]
    assert lines == [it.split()[0] for it in wanted.split("\n")[1:-1]]
    assert kept["input_sha256"] == subprocess.check_output(["sha256sum", path], text=True).split()[0]
    (tmp_path / "kept.json").write_text(made)
    sum_of = subprocess.check_output(["sha256sum", tmp_path / "kept.json"], text=True).split()[0]
    assert kept["table"]["document_sha256"] == sum_of and "not proved" in kept["table"]["reader"]
    rows = rows_of(saved(tab, "Save the findings as CSV"))
    assert [row[0] for row in rows[1:]] == lines
    # (the first row of each finding is a row of the group that the export names)
    for row in rows[1:]:
        assert read_line[int(row[3].split(",")[0]) - 1][0] == row[4]


def test_german_table(tab, read_line):
    """Semicolons, decimal commas, umlauts and headings of one's own are read. Numbers of a spreadsheet are explained."""
    own = [["BG", "Name", "km", "Begriff", "Nr", "Telegramm"],
           *[[row[0].replace("Signal", "Straße"), row[1], row[2].replace(".", ","), *row[3:]] for row in read_line[1:]]]
    for name, text in zip(("group", "telegram", "aspect", "balise"), ("BG", "telegramm", "Begriff", "Nr")):
        tab.run(f"document.querySelector('#heading-{name}').value = {json.dumps(text)}")
    try:
        assert paste(tab, written(own, ";")).startswith("no: findings ")
        (rows, *_) = texts(tab, "#result table")
        assert "BG Straße" in rows and "km 15,300" in rows
        assert paste(tab, "BG;Telegramm\nA;1,6093E+62\n") == "refused: row 2: the telegram is not hexadecimal"
        assert "a number of a spreadsheet" in " ".join(texts(tab, "details.faulty"))
        tab.run("document.querySelector('#heading-group').value = 'Nr'")
        assert paste(tab, "BG;Telegramm\n", "table") == "Not checked: two columns of a table cannot have one heading."
    finally:
        tab.open(tab.run("location.pathname"))


# ---- workbooks


def test_workbook(tab, tmp_path, read_line):
    """A workbook has the answer of the table with the same rows. Several sheets are one line, each finding at its sheet."""
    (tmp_path / "line.csv").write_text(written(read_line))
    wanted = choose(tab, tmp_path / "line.csv")
    made = saved(tab, "Save the document")
    path = tmp_path / "line.xlsx"
    path.write_bytes(workbook({"Line": read_line}))
    assert choose(tab, path) == wanted and saved(tab, "Save the document") == made
    half = 1 + sum(row[0] in ("Signal A", "Signal B", "Signal C") for row in read_line[1:])
    other = [[row[-1], *row[:-1]] for row in [read_line[0], *read_line[half:]]]
    path.write_bytes(workbook({"West": read_line[:half], "Notes": [["of 2026"]], "East": other}))
    assert choose(tab, path) == wanted and saved(tab, "Save the document") == made
    rows = rows_of(saved(tab, "Save the findings as CSV"))[1:]
    assert {row[2] for row in rows} == {"West", "East"}
    for row in rows:
        sheets = {"West": read_line[:half], "East": [it[1:] for it in other]}
        assert sheets[row[2]][int(row[3].split(",")[0]) - 1][0] == row[4]
    assert "The sheet Notes was not read" in tab.run(RESULT)


BASE = [["group", "telegram"], ["A", SINGLE]]
SHEETS = {
    "number": ({"Line": [*BASE, ["B", 1.6093e62]]}, "refused: sheet Line row 3: cell B3 is a number, whose digits can be lost"),
    "numbers as names": ({"Line": [BASE[0], [7, SINGLE]]}, "yes: groups 1, telegrams 1"),
    "long name": ({"Line": [BASE[0], [1.25e30, SINGLE]]}, "refused: sheet Line row 2: cell A2 is a number, whose digits can be lost"),
    "error": ({"Line": [*BASE, ["B", Raw('<c r="{reference}" t="e"><v>#N/A</v></c>')]]},
              "refused: sheet Line row 3: cell B3 is an error value"),
    "formula": ({"Line": [*BASE, [Raw('<c r="{reference}"><f>X1</f></c>')]]},
                "refused: sheet Line row 3: cell A3 is a formula without a value"),
    "truth": ({"Line": [*BASE, ["B", Raw('<c r="{reference}" t="b"><v>1</v></c>')]]},
              "refused: sheet Line row 3: cell B3 is a truth value"),
    "stored formula": ({"Line": [*BASE, ["B", Raw(f'<c r="{{reference}}" t="str"><f>X1</f><v>{SPARE}</v></c>')]]},
                       "refused: sheet Line row 3: spare at 15 end 17"),
    "no headings": ({"Line": [["A", SINGLE]]}, "refused: sheet Line row 1: a telegram in a sheet without headings"),
    "other sheet": ({"Line": BASE, "Old": [["B", SINGLE]]}, "refused: sheet Old row 1: a telegram in a sheet without headings"),
    "nothing": ({"Line": [["x"]]}, "refused: no heading row"),
}


@pytest.mark.parametrize("name", SHEETS)
def test_workbooks(tab, tmp_path, name):
    """Cells that are no text are refused with the cell, unless they are whole numbers as names."""
    sheets, wanted = SHEETS[name]
    (tmp_path / "line.xlsx").write_bytes(workbook(sheets))
    assert choose(tab, tmp_path / "line.xlsx") == wanted and tab.messages() == []


def test_nothing_is_hidden(tab, tmp_path):
    """Hidden rows, columns and sheets are read and named. Formulas and merged ranges are named."""
    hidden = sheet([*BASE, ["B", SPARE]], before='<cols><col min="4" max="5" hidden="1"/></cols>', hidden=[3],
                   after='<mergeCells><mergeCell ref="D1:E1"/></mergeCells>')
    (tmp_path / "line.xlsx").write_bytes(workbook({"Line": BASE, "Old": hidden}, states=["visible", "veryHidden"]))
    assert choose(tab, tmp_path / "line.xlsx") == "refused: sheet Old row 3: spare at 15 end 17"
    said = tab.run(RESULT)
    for words in "the sheet is hidden", "hidden rows: 3", "hidden columns", "1 merged ranges":
        assert words in said, words


def test_no_telegram_is_dropped(tab, tmp_path):
    """What looks like a telegram in another column, comment or text box is counted and named, and the yes is not green."""
    rows = f"group,telegram,old\nA,{SINGLE},\"was {SPARE[:60]} {SPARE[60:]}\"\n"
    assert paste(tab, rows).startswith("yes: groups 1, telegrams 1. Other texts look like telegrams")
    said = tab.run(RESULT)
    assert "Telegrams in the file: 2. Judged: 1, refused with the table: 0, in other places: 1." in said
    assert "row 2 column old" in said and tab.run("document.querySelector('#status .yes')") is None
    comment = f'<comments><comment ref="A1"><text><t>{SPARE}</t></text></comment></comments>'
    (tmp_path / "line.xlsx").write_bytes(packed({**parts({"Line": BASE}), "xl/comments1.xml": comment}))
    assert choose(tab, tmp_path / "line.xlsx").startswith("yes: groups 1, telegrams 1. Other texts look like")
    assert "xl/comments1.xml" in tab.run(RESULT)
    (tmp_path / "line.xlsx").write_bytes(packed({**parts({"Line": BASE}), "xl/vbaProject.bin": b"\0"}))
    assert choose(tab, tmp_path / "line.xlsx") == "yes: groups 1, telegrams 1"
    assert "xl/vbaproject.bin of the workbook was not searched" in tab.run(RESULT)


def test_all_refusals_are_listed(tab):
    """Each refused telegram of a table is listed with its cells and faulty bits, and the refusals can be saved."""
    text = f"group,telegram,km\nA,{SINGLE},1\nB,{SPARE},2\nC,00,3\nD,{SPARE},4\n"
    assert paste(tab, text) == "refused: row 3: spare at 15 end 17"
    boxes = texts(tab, "#result details.faulty")
    assert [it.split(":")[0] for it in boxes] == ["row 3", "row 4", "row 5"]
    assert "Faulty bits: 15 to 16. The field there: M_DUP is 3." in boxes[0] and "km2" in boxes[0]
    assert rows_of(saved(tab, "Save the refusals as CSV"))[1:] == [
        ["", "3", "spare at 15 end 17"], ["", "4", "wrong size"], ["", "5", "spare at 15 end 17"]]


def test_formulas_are_not_exported(tab):
    """A name that begins as a formula does has an apostrophe in the saved CSV."""
    text = f"group,telegram\n=1+1,{FIRST}\n-B,{SINGLE}\n"
    assert paste(tab, text).startswith("no: findings ")
    assert {row[4] for row in rows_of(saved(tab, "Save the findings as CSV"))[1:]} <= {"'=1+1", "'-B"}


def test_pasted_cells(tab):
    """Cells that were copied from a spreadsheet are a table by tabs, also below a title."""
    assert paste(tab, f"Line 1\n\ngroup\ttelegram\nA\t{SINGLE}\n") == "yes: groups 1, telegrams 1"
    assert paste(tab, SHORT).startswith("1 line: 1 read")


# ---- many rows

ROWS, SECONDS, RUNS = 100_000, 5, 6
# The reports of progress: how far it was at each, in percent.
PROGRESS = """(window.seen = [], new MutationObserver(() => {
    const bar = document.querySelector("#progress");
    if (bar.hasAttribute("value")) window.seen.push(Math.round(100 * bar.value));
}).observe(document.querySelector("#step"), { childList: true }), 0)"""


@pytest.mark.long  # (it measures time: nothing else may run)
def test_many_rows(tab, tmp_path, read_line):
    """A table of 100,000 rows is answered in 5 s, once in six runs, with progress and no request."""
    digits = [row[-1] for row in read_line[1:]]
    rows = "".join(f"{at // 2},{at / 10},{digits[at % len(digits)]}\n" for at in range(ROWS))
    (tmp_path / "many.csv").write_text(f"group,km,telegram\n{rows}")
    tab.run(PROGRESS)
    taken = []
    while not taken or min(taken) > SECONDS and len(taken) < RUNS:
        begun = time.monotonic()
        assert choose(tab, tmp_path / "many.csv").startswith("no: findings ")
        taken.append(time.monotonic() - begun)
    assert min(taken) <= SECONDS, taken
    assert f"Telegrams in the file: {ROWS}. Judged: {ROWS}," in tab.run(RESULT)
    seen = tab.run("window.seen")
    assert len(set(seen)) > 5 and max(seen) > 50
    assert tab.messages() == [] and tab.requests() == []

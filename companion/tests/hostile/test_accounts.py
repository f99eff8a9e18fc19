"""Tables with telegrams that a green could hide: each is judged, refused, or named as not judged (accounts.json)."""
from __future__ import annotations

import json
import re
import xml.etree.ElementTree as ElementTree
from importlib.util import find_spec
from pathlib import Path
from typing import Any, Callable, Dict, List

import pytest
from conftest import Run
from telegrams import ALONE, MESSAGE, OTHER

from balisekit.errors import TableErrors
from balisekit.rules import checking
from balisekit.tables import messages

Write = Callable[..., Path]
Case = Dict[str, Any]
CASES: List[Case] = json.loads(Path(__file__).with_name("accounts.json").read_text("utf-8"))
HALF = len(OTHER) // 2
TEXTS = {
    "{A}": ALONE,
    "{B}": OTHER,
    "{C}": ALONE.replace("2000ff", "2002ff"),
    "{B:pairs}": re.sub("(..)(?=.)", r"\1:", OTHER),
    "{B:blanks}": f"{OTHER[:HALF]}\u00a0 {OTHER[HALF:]}",
    "{40-4}": "a" * 36 + "xxxx",
    "{40-5}": "a" * 35 + "xxxxx",
    "{39}": "a" * 39,
}


def filled(text: str) -> str:
    """The text with the telegrams that it names."""
    for name, telegram in TEXTS.items():
        text = text.replace(name, telegram)
    return text


def written(case: Case, folder: Path) -> Path:
    """The table of a case, as a CSV file or a workbook."""
    if "csv" in case:
        path = folder / "t.csv"
        path.write_text(filled(case["csv"]), "utf-8")
        return path
    book = pytest.importorskip("openpyxl").Workbook()
    book.remove(book.active)
    for name, rows in case["sheets"].items():
        sheet = book.create_sheet(name)
        sheet.sheet_state = "hidden" if name in case.get("hidden", ()) else "visible"
        for row in rows:
            sheet.append([filled(cell) if isinstance(cell, str) else cell for cell in row])
        for area in case.get("merged", ()):
            sheet.merge_cells(area)
        for number in case.get("hidden_rows", ()):
            sheet.row_dimensions[number].hidden = True
        for letter in case.get("hidden_columns", ()):
            sheet.column_dimensions[letter].hidden = True
    book.save(folder / "t.xlsx")
    return folder / "t.xlsx"


@pytest.mark.parametrize("case", CASES, ids=[case["name"] for case in CASES])
def test_no_telegram_is_lost(run: Run, tmp_path: Path, case: Case) -> None:
    """The account, the status and the last line; or the fault for which the table is refused."""
    path, out = written(case, tmp_path), tmp_path / "out.json"
    status, said, err = run("check", path, *case.get("options", ()), "--json", out)
    assert status == case["status"]
    if "error" in case:
        assert err == [f"balisekit: {path}: {case['error']}"] and said == [] and not out.exists()
        return
    account = json.loads(out.read_text("utf-8"))["account"]
    left_out = [{name: each[name] for name in each if name != "why"} for each in account["not_judged"]]
    assert (account["telegrams"], account["judged"], account["refused"], left_out) == (
        case["telegrams"],
        case["judged"],
        case.get("refused", 0),
        case.get("not_judged", []),
    )
    assert account["telegrams"] == account["judged"] + account["refused"] + sum(each["telegrams"] for each in left_out)
    assert account["columns_not_read"] == case.get("columns_not_read", [])
    assert account["sheets"]["not_read"] == case.get("sheets_not_read", [])
    last = said.index(next(line for line in said if line.startswith("account: ")))
    assert said[last + 1 :] == [case["last"]] and said[last].startswith(f"account: {case['telegrams']} telegram")
    assert sum(line.startswith("not judged: ") for line in said) == len(left_out)


OLD = ["group,km,telegram,old", f"A,1.000,{ALONE},{OTHER}", f"B,2.000,{OTHER},"]
NAMED = 'not judged: 1 telegram in column "old", row 2: only the column telegram is read: give --skip-column old if '
NOT_READ = "1 telegram in columns or sheets that are not read"
COMMANDS: Dict[str, str] = {
    "links": "links TABLE",
    "diff": "diff TABLE TABLE",
    "expect": "table TABLE --expect SHEET",
    "table": "table TABLE --csv OUT",
    "plan": "plan TABLE --csv OUT",
    "show": "show TABLE",
    "report": "report TABLE --html OUT",
    "track": "draw TABLE --track --svg OUT",
    "group": "draw TABLE --group A --svg OUT",
}


PICTURES = ("track", "group")


@pytest.mark.parametrize("name", COMMANDS)
def test_no_command_hides_a_column(run: Run, table: Write, tmp_path: Path, name: str) -> None:
    """Each command names what is not read, and ends with 2, unless --skip-column leaves it out: then with 0."""
    if name in ("report", *PICTURES) and not find_spec("jinja2"):
        pytest.skip("jinja2")
    path, sheet = table(*OLD), tmp_path / "sheet.csv"
    assert run("table", path, "--skip-column", "old", "--csv", sheet)[0] == 0
    asked: List[str] = ["--skip-column", "old"]
    for options, status in ((asked[:0], 2), (asked, 0)):
        files = {"TABLE": path, "SHEET": sheet, "OUT": tmp_path / f"out{status}"}
        words = [files.get(word, word) for word in COMMANDS[name].split()]
        got, said, err = run(*words, *options)
        named = [line for line in said if "not judged: 1 telegram in column" in line]
        assert got == status and named and (status == 0 or NAMED in named[0]), (said, err)
        assert any(NOT_READ in line and "INCOMPLETE" in line for line in said) == (status == 2 and name not in PICTURES)
        assert any(NOT_READ in line for line in [*said, *err]) == (status == 2)


def test_outputs_for_tools(run: Run, table: Write, tmp_path: Path) -> None:
    """JUnit has an error, SARIF a result at the rows; both have the account, which has messages as well."""
    path, radio = table(*OLD), table(MESSAGE, f"{MESSAGE[:-2]};cut", name="m.txt")
    files = {name: tmp_path / f"out.{name}" for name in ("junit", "sarif", "json")}
    words = [word for name, file in files.items() for word in (f"--{name}", file)]
    status, said, _ = run("check", path, "--messages", radio, *words)
    accounts = [line for line in said if line.startswith("account: ")]
    assert status == 2 and accounts == [
        "account: 3 telegrams in the file; 2 judged, 0 refused, 1 not judged; rows 2 to 3; columns not read: old",
        "account: 2 messages in the file; 1 judged, 1 refused, 0 not judged; lines 1 to 2",
    ]
    (case,) = ElementTree.parse(files["junit"]).iterfind(".//testcase[@classname='not judged']")
    error = case.find("error")
    assert case.get("name") == "old" and error is not None and (error.text or "").startswith(NAMED)
    output = (ElementTree.parse(files["junit"]).findtext(".//system-out") or "").splitlines()
    assert [line for line in output if line.startswith("account: ")] == accounts
    log = json.loads(files["sarif"].read_text("utf-8"))["runs"][0]
    (result,) = (each for each in log["results"] if each["ruleId"] == "not-judged")
    assert result["message"]["text"].startswith(NAMED)
    assert result["locations"][0]["physicalLocation"]["region"] == {"startLine": 2, "endLine": 2}
    account = json.loads(files["json"].read_text("utf-8"))["account"]
    assert log["properties"]["account"] == account and account["messages"] == {
        "telegrams": 2,
        "judged": 1,
        "refused": 1,
        "not_judged": [],
        "sheets": {"read": [], "not_read": []},
        "rows": [1, 2],
        "columns_not_read": [],
    }


def test_what_is_not_tried(run: Run, table: Write, tmp_path: Path, monkeypatch: pytest.MonkeyPatch) -> None:
    """After too many refusals the others are named, messages too; the program's findings can be left out as well."""
    monkeypatch.setattr(checking, "GREATEST_REFUSED", 2)
    path = table("group,telegram", f"A,{ALONE}", "B,00", "C,00", f"D,{OTHER}", f"D,{OTHER}")
    radio, out = table(MESSAGE, "00", "00", MESSAGE, name="m.txt"), tmp_path / "out.json"
    for options, judged in ((["--only", "F"], 1), (["--only", "E"], 0)):
        assert run("check", path, "--messages", radio, *options, "--json", out, "--force")[0] == 2
        account = json.loads(out.read_text("utf-8"))["account"]
        for each, rows in ((account, [5, 6]), (account["messages"], [4])):
            assert (each["judged"], each["refused"]) == (judged, 2)
            assert (each["not_judged"][0]["rows"], each["not_judged"][0]["asked"]) == (rows, False)
            assert [one["asked"] for one in each["not_judged"][1:]] == [True] * (1 - judged)


def test_a_heading_that_is_not_there(run: Run, table: Write) -> None:
    """--skip-column with a mistyped heading leaves nothing out, and is noted."""
    status, said, _ = run("check", table(*OLD), "--skip-column", "odl")
    assert status == 2 and "note: --skip-column odl: there is no such column" in said


NO_TELEGRAMS = [
    " ".join(f"{12 + number / 8:.3f}" for number in range(10)),
    " ".join(str(number) for number in range(10_001, 10_009)),
    ", ".join(f"B{number}" for number in range(101, 110)),
    "d41d8cd98f00b204e9800998ecf8427e 9e107d9d372bb6826bd81d3542a419d6 1a2b3c4d",
    "00:1b:44:11:3a:b7, 00:1b:44:11:3a:b8 and 00:1b:44:11:3a:b9",
    "97bc4c0976698b7a13531ab778525bb2ff68eb3c91c95f4f887488360abdbe8d",
    "changement de la direction de voie, plan de pose de balises de 2024",
    "+49 30 1234567 / +49 40 1234567 / +49 89 1234567 / +49 221 123456",
    "030c8000-0000-4b00-8081-e81c501ff805 130c8000-0aa0-4b00-8081-e81c501ff806",
    "12.345 (A), 12.400 (B), 13.500 (C), 13.700 (D), 14.900 (A), 15.300 (B), 15.800 (C)",
    "24-05-01 24-05-02 24-05-03 24-05-04 24-05-05 24-05-06 24-05-07",
    "made by the commit 94197054c0950af5adb77da36675a30ab0567caf of the tool",
    "from a file with the SHA-256 97bc4c0976698b7a13531ab778525bb2ff68eb3c91c95f4f887488360abdbe8d",
    "1e45",
]


NO_BYTES = [
    ", ".join(f"B{number}" for number in range(101, 112)),
    "; ".join(f"{number}a" for number in range(11, 30)),
    "00:1b:44:11:3a:b7 00:1b:44:11:3a:b8 00:1b:44:11:3a:b9 00:1b:44:11:3a:ba",
]
"""Texts that have as many hexadecimal digits as a telegram, by chance."""


@pytest.mark.parametrize("remark", NO_BYTES)
def test_digits_by_chance(run: Run, table: Write, remark: str) -> None:
    """The answer names them and says how many there are, which is true; the option that it names leaves them out."""
    path = table("group;telegram;old", f"A;{ALONE};{remark.replace(';', ',')}")
    count = sum(len(group) for group in re.findall(r"\b[0-9A-Fa-f]+\b", remark))
    status, said, _ = run("check", path, "--only", "F")
    named = f'not judged: 1 possible telegram in column "old", row 2: row 2 has {count} hexadecimal digits there: '
    assert status == 2 and any(line.startswith(named) for line in said)
    assert run("check", path, "--only", "F", "--skip-column", "old")[0] == 0


@pytest.mark.parametrize("remark", NO_TELEGRAMS)
def test_a_list_in_a_remark(run: Run, table: Write, remark: str) -> None:
    """Numbers, names and UUIDs are no telegram, although they have more than 40 hexadecimal digits."""
    status, said, _ = run("check", table("group;telegram;old", f"A;{ALONE};{remark.replace(';', ',')}"), "--only", "F")
    assert status == 0 and any("1 telegram in the file; 1 judged" in line for line in said)


@pytest.mark.parametrize("name", [MESSAGE * 2, MESSAGE, f"to train 7;{MESSAGE}", f" 0x{MESSAGE.upper()}h"])
def test_a_message_as_a_name(name: str, run: Run, table: Write) -> None:
    """A line of a file of messages has one message."""
    radio = table(f"{MESSAGE};{name}", name="m.txt")
    err = [f"balisekit: {radio}: line 1: after the semicolon are digits as a message has: write one message per line"]
    assert run("check", table(*OLD), "--messages", radio) == (2, [], err)


@pytest.mark.parametrize("name", ["report 1{};authority 2", "1{}", "x {} y", "a:{}", "b={}", "c({})", "of 4711 {};2"])
def test_a_message_in_a_name(table: Write, name: str) -> None:
    """A lost line end puts a message behind the name of another one, in plain digits or in groups."""
    pairs, fours = ([MESSAGE[at : at + size] for at in range(0, len(MESSAGE), size)] for size in (2, 4))
    between = [
        ":",
        "-",
        " ",
        " 0x",
        ".",
        "_",
        "/",
        ", ",
        "\u00b7",
        "\u200d",
        "0x",
        "\\x",
        ",0x",
        "h ",
        "' '",
        '","',
        "][",
    ]
    for text in (MESSAGE, *(each.join(groups) for each in between for groups in (pairs, fours))):
        with pytest.raises(
            TableErrors, match="line 1: after the semicolon are digits as a message has: write one message per line"
        ):
            messages.read(str(table(f"{MESSAGE};{name.format(text)}", name="m.txt")))


def test_a_name_of_digits(table: Write) -> None:
    """A time to the microsecond, the checksum of something or a UUID is no message."""
    names = ["20261130190405123456", "d41d8cd98f00b204e9800998ecf8427e", MESSAGE[:12], ""]
    names += ["2026-11-30 19:04:05 123456", "030c8000-0000-4b00-8081-e81c501ff805", f"1{' ' * 5000}x"]
    names += ["km 12.345-13.400, 14.500-15.600", "192.168.100.101 to 192.168.100.102"]
    names += ["+49 30 1234567 / +49 40 1234567"]
    read = messages.read(str(table(*(f"{MESSAGE};{name}" for name in names), name="m.txt")))
    assert [one.name for one in read.messages] == names


@pytest.mark.skipif(not find_spec("jinja2"), reason="jinja2")
def test_the_report_names_what_is_not_judged(run: Run, table: Write, tmp_path: Path) -> None:
    """The account is on the cover, and no sentence says that all was checked. The command repeats --skip-column."""
    path, page = table(*OLD), tmp_path / "r.html"
    asked: List[str] = ["--skip-column", "old"]
    for options in (asked[:0], asked):
        run("report", path, "--html", page, "--force", *options)
        text = page.read_text("utf-8")
        assert "account: 3 telegrams in the file; 2 judged, 0 refused, 1 not judged" in text
        assert "handed in have been checked" not in text and "names the telegrams and messages" in text
        assert f"check {path.name}{' '.join(['', *options])} --document" in text

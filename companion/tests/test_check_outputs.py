"""What `check` writes for other tools: JSON and SARIF by their schemas, JUnit and a workbook, of all families."""
from __future__ import annotations

import csv
import io
import json
import os
import subprocess
import sys
import time
import zipfile
import xml.etree.ElementTree as ElementTree
from functools import lru_cache
from pathlib import Path
from typing import Any, Callable, Iterator, List, Tuple

import pytest
from cases_of_program import TOP
from conftest import Run
from link_tables import without_orientations
from telegrams import ALONE, MESSAGE, OTHER, SPARE

from balisekit.io import csv_writing
from balisekit.rules import meaning
from balisekit.rules.accepted import COLUMNS

Write = Callable[..., Path]
EXAMPLES = TOP / "examples"
LINKS = EXAMPLES / "links" / "distance-differs.csv"
TABLES = [EXAMPLES / "table" / "line.csv", *sorted((EXAMPLES / "links").glob("*.csv"))]
SCHEMAS = sorted((TOP / "schemas").glob("*.json"))
SIGNED = {"reason": "=by design", "who": "J. Doe", "date": "2026-01-02"}


@lru_cache(maxsize=None)
def schema(name: str) -> Any:
    """A validator of a schema of the repository."""
    jsonschema = pytest.importorskip("jsonschema")
    return jsonschema.Draft202012Validator(json.loads((TOP / "schemas" / f"{name}.json").read_text("utf-8")))


@pytest.mark.parametrize("path", SCHEMAS, ids=[path.stem for path in SCHEMAS])
def test_each_schema_is_one(path: Path) -> None:
    """It is valid by the schema of schemas. That takes long, so only this test checks it."""
    validator = schema(path.stem)
    validator.check_schema(validator.schema)


def signed(file: Path) -> Path:
    """The entries that were proposed for a table, signed."""
    rows = list(csv.DictReader(io.StringIO(file.read_text("utf-8"))))
    cells = [[{**row, **SIGNED}[name] for name in COLUMNS] for row in rows]
    file.write_text(csv_writing.text(COLUMNS, cells), "utf-8")
    return file


def documents() -> Iterator[Tuple[str, List[str], List[str]]]:
    """The lines of examples/check as tables, and their messages."""
    for path in sorted((EXAMPLES / "check").glob("*.json")):
        document = json.loads(path.read_text("utf-8"))
        lines = ["group,aspect,telegram"]
        for number, group in enumerate(document["groups"]):
            for place, aspect in enumerate(group.get("aspects", [group])):
                lines += [f"G{number},{place if 'aspects' in group else ''},{one}" for one in aspect["balises"]]
        yield path.stem, lines, [f"{text};m{place}" for place, text in enumerate(document["messages"])]


def written(run: Run, tmp_path: Path, *words: object) -> Tuple[Any, Any]:
    """The JSON and the SARIF of a run. Both are valid, and their entries are the findings and remarks."""
    out, sarif = tmp_path / "out.json", tmp_path / "out.sarif"
    status = run("check", *words, "--json", out, "--sarif", sarif, "--force")[0]
    answer, log = json.loads(out.read_text("utf-8")), json.loads(sarif.read_text("utf-8"))
    for name, value in (("kit-check", answer), ("kit-sarif", log)):
        assert [error.message for error in schema(name).iter_errors(value)] == []
    assert status == answer["status"] == log["runs"][0]["invocations"][0]["exitCode"]
    return answer, log["runs"][0]


@pytest.mark.parametrize("path", TABLES, ids=[path.stem for path in TABLES])
def test_each_example_is_as_the_schemas_say(run: Run, tmp_path: Path, path: Path) -> None:
    answer, log = written(run, tmp_path, path)
    assert sorted(line for entry in answer["entries"] for line in entry["program"]) == sorted(
        finding["line"] for finding in answer["findings"]
    )
    results = [result for result in log["results"] if result["ruleId"] != "refused"]
    assert [result["ruleId"] for result in results] == [entry["rule"] for entry in answer["entries"]]
    regions = [result["locations"][0]["physicalLocation"]["region"] for result in results]
    rows = [(entry["rows"][0], entry["rows"][-1]) for entry in answer["entries"]]
    assert [(region["startLine"], region["endLine"]) for region in regions] == rows
    rules = log["tool"]["driver"]["rules"]
    assert all(rules[result["ruleIndex"]]["id"] == result["ruleId"] for result in log["results"])
    names = [*(f"F{number}" for number in range(1, 17)), *(f"L{number}" for number in range(1, 10))]
    names += [rule.name for rule in meaning.RULES if rule.is_default]
    assert [rule["id"] for rule in rules] == ["refused", "not-judged", "not-compared", "entry-at-fault", *names]
    pages = {rule["id"]: TOP / "docs" / "rules" / f"{rule['id']}.md" for rule in rules[4:]}
    assert {rule["id"]: rule.get("helpUri") for rule in rules[4:]} == {it: pages[it].as_uri() for it in pages}
    assert all(path.is_file() for path in pages.values()) and not any("helpUri" in rule for rule in rules[:4])


@pytest.mark.uncovered
def test_documents_are_as_the_schemas_say(run: Run, table: Write, tmp_path: Path) -> None:
    """Each line of examples/check, with its messages, and with all of its findings accepted."""
    for name, lines, messages in documents():
        path = table(*lines, name=f"{name}.csv")
        words = ["--messages", table(*messages, name=f"{name}.txt")] if messages else []
        file = tmp_path / f"{name}.accepted.csv"
        answer, _ = written(run, tmp_path, path, *words, "--propose", file)
        accepted, log = written(run, tmp_path, path, *words, "--accepted", signed(file))
        assert len(accepted["entries"]) == sum(len(entry["folded"]) or 1 for entry in answer["entries"])
        assert all(entry["state"] == "accepted" for entry in accepted["entries"]) and accepted["status"] == 0
        assert all(result["suppressions"][0]["status"] == "accepted" for result in log["results"])


def test_forms_in_json_are_as_their_schemas_say(run: Run, tmp_path: Path) -> None:
    answer, _ = written(run, tmp_path, LINKS)
    telegram = schema("telegram")
    assert answer["telegrams"] and all(telegram.is_valid(item["form"]) for item in answer["telegrams"])


def test_refused_messages_and_files_elsewhere(
    run: Run, table: Write, tmp_path: Path, monkeypatch: pytest.MonkeyPatch
) -> None:
    """A path is a URI: relative to the folder of the command, or absolute."""
    (tmp_path / "a b#c").mkdir()
    path = table("group,telegram", f"A,{ALONE}", f"B,{SPARE}", name="a b#c/ü.csv")
    radio = table("0400c0;bad", f"{MESSAGE};x", name="m.txt")
    answer, log = written(run, tmp_path, path, "--messages", radio)
    assert answer["status"] == 2 and [result["ruleId"] for result in log["results"][:2]] == ["refused"] * 2
    uris = [result["locations"][0]["physicalLocation"]["artifactLocation"] for result in log["results"]]
    assert uris[0] == {"uri": path.as_uri()} and uris[1] == uris[-1] == {"uri": radio.as_uri()}
    monkeypatch.chdir(tmp_path)
    _, log = written(run, tmp_path, "a b#c/ü.csv")
    uri = log["results"][0]["locations"][0]["physicalLocation"]["artifactLocation"]
    assert uri == {"uri": "a%20b%23c/%C3%BC.csv", "uriBaseId": "%SRCROOT%"}


def test_a_fingerprint_survives_new_rows(run: Run, table: Write, tmp_path: Path) -> None:
    """Findings, links and remarks: a group is put in before them, and only the rows of their places change."""

    def prints(path: Path) -> List[Tuple[str, str]]:
        _, log = written(run, tmp_path, path)
        return sorted((one["ruleId"], one["partialFingerprints"]["balisekit/v1"]) for one in log["results"])

    heading, *lines = LINKS.read_text("utf-8").splitlines()
    lines += [lines[-1].replace("D,D1,12.500", f"{name},,13.6") for name in "EF"]
    known = prints(table(heading, *lines))
    assert len(known) == 3 and len(set(known)) == 3
    assert prints(table(heading, f"N,N1,9.000,rising,{ALONE}", *lines, name="new.csv")) == known


@pytest.mark.parametrize("first, lines", [("", (4, 4)), ("sep=;\n", (5, 5))])
def test_a_place_is_a_line_of_the_file(
    run: Run, table: Write, tmp_path: Path, first: str, lines: Tuple[int, int]
) -> None:
    """Row 3, after a cell with a line end, with and without a line that names the separator."""
    text = f'{first}group;telegram;remark\nA;{ALONE};"two\nlines"\nB;{ALONE};\n'
    answer, log = written(run, tmp_path, table(content=text.encode("utf-8")))
    region = log["results"][0]["locations"][0]["physicalLocation"]["region"]
    assert answer["entries"][0]["rows"] == [3] and (region["startLine"], region["endLine"]) == lines


@pytest.mark.parametrize("first", ["", "sep=;\n"])
def test_an_entry_at_fault_is_a_result(run: Run, table: Write, tmp_path: Path, first: str) -> None:
    """It has its line in the file of entries, whatever rows are above it. Status 1 has a result, as in JUnit."""
    path = table("group,telegram", f"A,{ALONE}", f"B,{OTHER}")
    unused = {"rule": "F14", "nid_c": "1", "nid_bg": "1", **SIGNED}
    rows = [unused, {**unused, "nid_bg": "2", "until": "2026-02-03"}]
    lines = [";".join(row.get(name, "") for name in COLUMNS) for row in rows]
    prints: List[List[str]] = []
    blank: List[List[str]] = [[], [""]]
    for between in blank:
        file = table(content=(first + "\n".join([";".join(COLUMNS), *between, *lines])).encode(), name="a.csv")
        answer, log = written(run, tmp_path, path, "--accepted", file)
        faults, results = answer["accepted"]["at_fault"], log["results"]
        assert answer["status"] == 1 and {result["ruleId"] for result in results} == {"entry-at-fault"}
        texts = [result["message"]["text"] for result in results]
        assert texts == [f"a.csv: row {fault['row']}: {fault['why']}" for fault in faults] and len(texts) == 2
        places = [result["locations"][0]["physicalLocation"] for result in results]
        begin = 2 + len(between) + bool(first)
        assert [place["region"]["startLine"] for place in places] == [begin, begin + 1]
        assert {place["artifactLocation"]["uri"] for place in places} == {file.as_uri()}
        prints.append([result["partialFingerprints"]["balisekit/v1"] for result in results])
    assert prints[0] == prints[1]


def test_help_of_rules_is_that_of_the_pages(run: Run, tmp_path: Path) -> None:
    _, log = written(run, tmp_path, LINKS)
    rules = {rule["id"]: rule for rule in log["tool"]["driver"]["rules"]}
    assert "How to correct it. Set N_TOTAL to the number of balises less one" in rules["F2"]["help"]["text"]
    assert "**How to correct it.** Correct D_LINK" in rules["L2"]["help"]["markdown"]
    assert rules["F2"]["properties"]["tags"] != rules["L2"]["properties"]["tags"] == ["balisekit's own, not proved"]


def test_junit_has_a_suite_for_each_family(run: Run, table: Write, tmp_path: Path) -> None:
    """Its time was measured: the suites together take no longer than the test."""
    out = tmp_path / "out.xml"
    assert run("check", LINKS, "--junit", out)[0] == 1
    top = ElementTree.parse(out).getroot()
    proved, links, remarks = top
    assert proved.get("name") == f"balisecheck {LINKS.name}" and links.get("name") == f"balisekit links {LINKS.name}"
    assert (proved.get("failures"), links.get("failures"), top.get("failures")) == ("0", "1", "1")
    assert remarks.get("name") == f"balisekit remarks {LINKS.name}" and remarks.get("failures") == "0"
    *times, total = [float(each.get("time") or "") for each in (*top, top)]
    assert 0 < times[0] < 60 and 0 < times[1] and abs(sum(times) - total) < 0.003
    failed = [case for case in links if case.find("failure") is not None]
    assert [case.get("name") for case in failed] == ["A"] and "first link: B (km 11.000) is 1010 m" in str(
        failed[0][0].text
    )
    assert not any("time" in case.attrib for case in top.iter("testcase"))
    file = tmp_path / "accepted.csv"
    assert run("check", LINKS, "--propose", file)[0] == 1
    assert run("check", LINKS, "--accepted", signed(file), "--junit", out, "--force")[0] == 0
    top = ElementTree.parse(out).getroot()
    assert [suite.get("skipped") for suite in top] == ["0", "1", "1"] and top.get("skipped") == "2"
    assert [case.get("name") for case in top[2] if case.find("skipped") is not None] == ["D"]  # (it has Q_LINK 0)
    assert "no open findings, links or remarks" in str(top[0].findtext("system-out"))


def test_junit_of_a_rule_that_looked_at_nothing(run: Run, table: Write, tmp_path: Path) -> None:
    path = table("group,km,telegram", *without_orientations())
    status, out, _ = run("check", path, "--junit", tmp_path / "out.xml")
    assert status == 2 and out[-1].startswith("INCOMPLETE: L3 compared none of ")
    case = next(ElementTree.parse(tmp_path / "out.xml").iter("error"))
    assert str(case.get("message")).startswith("L3 compared none of ")


def test_a_sheet_for_each_entry(run: Run, table: Write, tmp_path: Path) -> None:
    """Each cell is a text, also one that begins as a formula does, and reads back as it was."""
    openpyxl = pytest.importorskip("openpyxl")
    path = table("group,telegram", f"=1+1,{ALONE}", f"+B,{ALONE}", f"C\x1b,{OTHER}", f"D,{OTHER}")
    file = tmp_path / "accepted.csv"
    assert run("check", path, "--propose", file)[0] == 1
    signed(file)
    file.write_text("\n".join(file.read_text("utf-8").splitlines()[:2]) + "\n", "utf-8")
    assert run("check", path, "--accepted", file, "--xlsx", tmp_path / "out.xlsx")[0] == 1
    rows = list(openpyxl.load_workbook(tmp_path / "out.xlsx").active.iter_rows())
    heading = "rule urgency identity group rows values sentence owner state reason"
    assert [cell.value for cell in rows[0]] == heading.split()
    assert all(cell.data_type == ("n" if cell.value is None else "s") for row in rows for cell in row)
    by_group = {row[3].value: {head.value: cell.value for head, cell in zip(rows[0], row)} for row in rows[1:]}
    assert by_group["+B"]["rule"] == "F14" and by_group["+B"]["identity"] == "1/1"
    signature = [by_group["+B"][name] for name in ("owner", "state", "reason")]
    assert signature == ["J. Doe", "accepted", "=by design"]
    assert (by_group["D"]["owner"], by_group["D"]["state"]) == (None, "open")
    assert run("check", LINKS, "--xlsx", tmp_path / "links.xlsx")[0] == 1
    (_, row) = openpyxl.load_workbook(tmp_path / "links.xlsx").active.iter_rows(values_only=True)
    assert row[:5] == ("L2", "wrong place", "352/1", "A", "2") and "metres_by_d_link 1010" in row[5]


def test_workbooks_have_the_verdict(run: Run, table: Write, tmp_path: Path) -> None:
    """Without it a sheet that lacks what was not judged looks like one of a sound table. A spreadsheet shows it first.

    A sheet of variables with it can still be compared.
    """
    openpyxl = pytest.importorskip("openpyxl")
    heads, row = "group,telegram,old", f"A,{ALONE}"
    for status, line in ((0, row), (2, f"{row},{OTHER}"), (2, f"{row}\nB,{ALONE[:-2]}")):
        path, entries, sheet = table(heads, line), tmp_path / "entries.xlsx", tmp_path / "table.xlsx"
        said = run("check", path, "--xlsx", entries, "--force")
        assert said[0] == run("table", path, "--xlsx", sheet, "--force")[0] == status
        last = [
            each for each in said[1] if each.startswith(("account: ", "not judged: ", "INCOMPLETE", 'program: "yes'))
        ]
        for file in (entries, sheet):
            book = openpyxl.load_workbook(file)
            lines = [cell for (cell,) in book["answer"].iter_rows(values_only=True)]
            assert book.active.title == ("answer" if status else book.sheetnames[0])
            assert sum(bool(each.sheet_view.tabSelected) for each in book.worksheets) < 2
            begin = 1 if file == entries else 0
            assert lines[begin].startswith("balisecheck") and lines[begin + 1].startswith("settings: ")
            assert (
                lines[-len(last) :] == last if file == entries else lines[-1].startswith("INCOMPLETE") == (status == 2)
            )
        assert run("table", path, "--expect", sheet)[0] == status


def test_two_runs_write_the_same_workbook(run: Run, tmp_path: Path, monkeypatch: pytest.MonkeyPatch) -> None:
    """No time is in its bytes: neither that of the run nor that of its parts."""
    openpyxl = pytest.importorskip("openpyxl")
    found = []
    for second in range(2):
        now = time.time() + 3600 * second
        monkeypatch.setattr(time, "time", lambda: now)
        monkeypatch.setattr(time, "localtime", lambda _=None: time.gmtime(now))
        made = [tmp_path / f"{second}{name}.xlsx" for name in ("entries", "table")]
        assert run("check", LINKS, "--xlsx", made[0])[0] == 1 and run("table", LINKS, "--xlsx", made[1])[0] == 0
        found.append([path.read_bytes() for path in made])
        assert openpyxl.load_workbook(made[0]).active.title == "entries"
        with zipfile.ZipFile(made[0]) as parts:
            assert {part.date_time for part in parts.infolist()} == {(1980, 1, 1, 0, 0, 0)}
            assert b"<dcterms:" not in parts.read("docProps/core.xml")
    assert found[0] == found[1]


def test_a_sheet_needs_a_package(run: Run, tmp_path: Path, monkeypatch: pytest.MonkeyPatch) -> None:
    monkeypatch.setitem(sys.modules, "openpyxl", None)  # type: ignore[misc]
    status, _, err = run("check", LINKS, "--xlsx", tmp_path / "out.xlsx")
    assert status == 3 and "an .xlsx needs openpyxl" in err[-1] and not (tmp_path / "out.xlsx").exists()


def test_outputs_never_replace_inputs(run: Run, table: Write) -> None:
    path = table("group,telegram", f"A,{ALONE}")
    for option in ("--sarif", "--xlsx", "--junit", "--json"):
        status, _, err = run("check", path, option, path, "--force")
        assert status == 2 and "an output never replaces one" in err[0], option
    assert run("check", path, "--sarif", "-", "--json", "-")[0] == 2


def test_outputs_never_replace_inputs_through_a_folder_that_is_not_there(run: Run, table: Write) -> None:
    path = table("group,telegram", f"A,{ALONE}")
    before = path.read_bytes()
    around = path.parent / "missing" / ".." / path.name
    for words in (("check", path, "--json"), ("table", path, "--csv"), ("report", path, "--html")):
        status, _, err = run(*words, around, "--force")
        assert status == 2 and "an output never replaces one" in err[0] and path.read_bytes() == before, words
    other = table("group,telegram", f"B,{ALONE}", name="other.csv")
    status, _, err = run("table", path, "--csv", other.parent / "missing" / ".." / "other.csv")
    assert status == 2 and "it exists already" in err[0]


def test_packages_are_imported_only_when_needed() -> None:
    """Neither jinja2 nor openpyxl nor jsonschema."""
    code = (
        "import sys; sys.argv = ['balisekit', 'check', sys.argv[1]]; from balisekit.cli.main import main; main(); "
        "print([name for name in ('jinja2', 'openpyxl', 'jsonschema') if name in sys.modules])"
    )
    known = {**os.environ, "PYTHONPATH": str(TOP / "companion" / "src")}
    words = [sys.executable, "-c", code, str(LINKS)]
    done = subprocess.run(words, env=known, stdout=subprocess.PIPE, check=True)
    assert done.stdout.decode().splitlines()[-1] == "[]"

"""What rules of balisekit pass over is named in each output, and no family that compared nothing ends with a green."""

from __future__ import annotations

import csv
import json
import xml.etree.ElementTree as ElementTree
from pathlib import Path
from typing import Any, Callable, Dict, List, Sequence, Tuple

import pytest
from cases_of_program import TOP
from conftest import Run, set_day
from telegrams import ALONE, MESSAGE, OTHER

EXAMPLE = TOP / "examples/meaning/mistakes/E13.csv"
"""Signal 3 has wrong gradients, which only its place shows: without it E13 finds nothing."""
GROUPS = [f"Signal {number}" for number in range(1, 7)]
with open(Path(__file__).parent / "passed_over.csv", encoding="utf-8", newline="") as _file:
    CASES = list(csv.DictReader(_file))
Write = Callable[..., Path]
Outputs = Tuple[int, List[str], Dict[str, Any], ElementTree.Element, Dict[str, Any]]


def changed(case: Dict[str, str]) -> List[str]:
    """The lines of the example with another cell in these rows."""
    with open(EXAMPLE, encoding="utf-8", newline="") as file:
        rows = list(csv.DictReader(file))
    for number, row in enumerate(rows, 2):
        is_meant = {"all": True, "all but row 2": number != 2, "second balises": row["balise"] == "1"}
        if is_meant.get(case["rows"], row["group"] == case["rows"]):
            row[case["column"]] = row["group"] if case["value"] == "one each" else case["value"]
    return [",".join(rows[0]), *(",".join(row.values()) for row in rows)]


def outputs(run: Run, path: Path, *words: object) -> Outputs:
    """Status, text, JSON, JUnit and the invocation of SARIF."""
    files = [path.with_suffix(suffix) for suffix in (".json", ".xml", ".sarif")]
    options = [word for pair in zip(("--json", "--junit", "--sarif"), files) for word in pair]
    status, out, _ = run("check", path, *words, *options)
    answer, sarif = (json.loads(file.read_text("utf-8")) for file in (files[0], files[2]))
    return status, out, answer, ElementTree.parse(files[1]).getroot(), sarif["runs"][0]["invocations"][0]


def skipped(suite: ElementTree.Element) -> Dict[str, str]:
    """The cases of a suite that are skipped, with their reasons."""
    found = ((case.get("name", ""), case.find("skipped")) for case in suite.findall("testcase"))
    return {name: result.get("message", "") for name, result in found if result is not None}


@pytest.mark.parametrize("case", CASES, ids=[f"{case['column']} {case['rows']} {case['only']}" for case in CASES])
def test_what_rules_e_pass_over(case: Dict[str, str], run: Run, table: Write) -> None:
    wanted = GROUPS if case["groups"] == "all" else case["groups"].split(",")
    status, out, answer, junit, sarif = outputs(run, table(*changed(case)), "--only", case["only"])
    assert status == int(case["status"]) and out[-1].startswith(case["last"])
    assert any(line.startswith(case["text"]) for line in out)
    assert [each["group"] for each in answer["passed_over"] if each["family"] == "E"] == wanted
    suite = junit.findall("testsuite")[-1]
    reasons = {each["group"]: f"passed over: {each['why']}" for each in answer["passed_over"] if each["family"] == "E"}
    assert skipped(suite) == reasons
    assert case["text"] in (suite.findtext("system-out") or "")
    notes = [each["message"]["text"] for each in sarif["toolExecutionNotifications"]]
    assert any(note.startswith(case["text"]) for note in notes)
    assert sarif["executionSuccessful"] == (status != 2)


def test_a_page_names_them(run: Run, table: Write, tmp_path: Path) -> None:
    pytest.importorskip("jinja2")
    page = tmp_path / "page.html"
    run("report", table(*changed(CASES[0])), "--html", page)
    text = page.read_text("utf-8")
    assert CASES[0]["text"] in text and "Signal 3: no kilometre, so E12 to E19 and E22" in text


LINKS: Sequence[Tuple[Sequence[str], Sequence[str], str]] = (
    (
        changed({"column": "km", "rows": "Signal 3", "value": ""}),
        ["Signal 3"],
        "it has no kilometre: L2 and L9 do not look at it",
    ),
    (
        ["group,km,telegram", f"A,1.000,{ALONE}", f"B,2.000,{OTHER}"],
        ["A", "B"],
        "its direction along the kilometres is not known: L3",
    ),
)


@pytest.mark.parametrize("lines, wanted, why", LINKS, ids=["no km", "no direction"])
def test_what_rules_l_pass_over(lines: Sequence[str], wanted: Sequence[str], why: str, run: Run, table: Write) -> None:
    """A case that L looks at only in part is none that passed."""
    _, out, answer, junit, sarif = outputs(run, table(*lines), "--only", "F,L")
    assert [each["group"] for each in answer["passed_over"]] == wanted
    reasons = skipped(junit.findall("testsuite")[-1])
    assert list(reasons) == wanted and all(f"passed over: {why}" in reason for reason in reasons.values())
    notes = [each["message"]["text"] for each in sarif["toolExecutionNotifications"]]
    assert [note for note in notes if why in note] == [line for line in out if why in line] != []


def test_a_message_whose_group_is_not_in_the_table(run: Run, table: Write) -> None:
    """Its NID_LRBG is the group of ALONE. E31 reports that, so JUnit has a failure and not a case that is skipped."""
    path = table("group,km,nominal,telegram", f"B,2.000,rising,{OTHER}")
    messages = table(f"{MESSAGE};far away", name="messages.txt")
    _, out, answer, junit, _ = outputs(run, path, "--messages", messages, "--only", "F,E")
    assert [(each["message"], each["group"]) for each in answer["passed_over"]] == [(1, None)]
    why = "its group is not in the table, so E12 to E19 and E22 compare no place of it"
    (case,) = (each for each in junit.findall("testsuite")[-1] if each.get("name") == "line 1  far away")
    assert "E31" in (getattr(case.find("failure"), "text", None) or "")
    assert f"note: line 1  far away: {why}" in out


def test_the_last_line_is_that_of_the_text(run: Run, table: Write, monkeypatch: pytest.MonkeyPatch) -> None:
    """With a file of entries the text ends with what is open of them."""
    set_day(monkeypatch, 1780000000)
    path = table("group,km,nominal,telegram", f"A,1.000,rising,{ALONE}", f"B,2.000,rising,{OTHER}")
    entries = table("rule,nid_c,nid_bg,message,aspect,balise,packet,direction,reason,who,date,until", name="a.csv")
    choices: Sequence[Sequence[object]] = ([], ["--accepted", entries], ["--accepted", entries, "--only", "F"])
    for words in choices:
        out, answer = outputs(run, path, "--force", *words)[1:3]
        assert answer["last_line"] == out[-1]


def test_a_kilometre_in_a_jump(run: Run, table: Write) -> None:
    """The group has a kilometre, but the jump shows that no place of the track has it."""
    path = table(*EXAMPLE.read_text("utf-8").splitlines())
    jumps = table("km,km_after", "12.900,13.100", name="jumps.csv")
    out, answer = outputs(run, path, "--only", "L,E", "--jumps", jumps)[1:3]
    why = "a kilometre that a jump leaves out or repeats"
    assert f"note: Signal 3: {why}, so E12 to E19 and E22 compare no place of the group" in out
    assert [(each["family"], each["group"]) for each in answer["passed_over"]] == [("L", "Signal 3"), ("E", "Signal 3")]
    beyond = "beyond the last group that gives an authority"
    assert f"not compared by E12: 5 of 12 ends of authority ({why}: 2, {beyond}: 3)" in out


PLACED = [
    ("km", {"Signal 2": ""}, ["Signal 2: no kilometre, so the design has no place of the group"]),
    (
        "track",
        {f"Signal {number}": "Up" for number in range(3, 99)},
        ["Signal 1, Signal 2: no track, although other groups have one: its rows of the design have none either"],
    ),
]


@pytest.mark.parametrize("column, cells, wanted", PLACED)
def test_groups_that_a_plan_does_not_place_are_named(
    run: Run, table: Write, column: str, cells: Dict[str, str], wanted: List[str]
) -> None:
    """The plan that is written lacks places of groups without kilometre, and has no track for those without one."""
    rows = list(csv.DictReader((TOP / "examples/meaning/line.csv").read_text("utf-8").splitlines()))
    rows = [{**row, column: cells.get(row["group"], row[column])} for row in rows if row["group"].startswith("Signal")]
    lines = [",".join(row.values()) for row in rows]
    notes = [line for line in run("plan", table(",".join(rows[0]), *lines))[2] if line.startswith("note: Signal")]
    assert notes == [f"note: {each}" for each in wanted]


def test_a_single_balise_without_direction_is_named_by_plan(run: Run, table: Write) -> None:
    """Its packets are not in the plan. So are those of each group of a table without kilometres, which has one note."""
    text = (TOP / "examples/links/direction-not-known.csv").read_text("utf-8").replace("rising", "").splitlines()
    why = "direction along the kilometres not known, so the design has no place ahead of the group"
    assert any(line.startswith(f"note: D: {why}") for line in run("plan", table(*text))[2])
    without = [",".join(cell for place, cell in enumerate(line.split(",")) if place != 2) for line in text]
    assert "note: no row has a kilometre: the design has only aspects" in run("plan", table(*without))[2]


OTHER_NAMES: Dict[str, Callable[[Dict[str, str]], str]] = {
    "case": lambda row: row["aspect"].upper() if row["group"] == "Signal 3" else row["aspect"],
    "prefix": lambda row: f"S3 {row['aspect']}" if row["group"] == "Signal 3" else row["aspect"],
    "prefixes": lambda row: f"{row['group'][-1]} {row['aspect']}",
}


@pytest.mark.parametrize("kind", OTHER_NAMES)
def test_e9_names_what_it_does_not_compare(run: Run, table: Write, kind: str) -> None:
    """Two aspects of Signal 3 are exchanged, and have names that no other signal has: E9 finds nothing."""
    with open(EXAMPLE.with_name("E9.csv"), encoding="utf-8", newline="") as file:
        rows = list(csv.DictReader(file))
    for row in rows:
        row["aspect"] = OTHER_NAMES[kind](row) if row["aspect"] != "*" else "*"
    _, out, _ = run("check", table(",".join(rows[0]), *(",".join(row.values()) for row in rows)))
    assert not any(line.startswith("E9 ") for line in out)
    count = 6 if kind == "prefixes" else 1
    why = f"no aspect with a name that three cases have: {count}"
    assert f"not compared by E9: {count} of 6 groups with several aspects ({why})" in out
    looks = [line for line in out if line.startswith("look: Signal 3 has the aspects ")]
    assert len(looks) == (kind != "prefixes") and all('5 groups have "green", "red", "yellow"' in it for it in looks)

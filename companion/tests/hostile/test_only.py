"""Hostile uses of `--only` and of rules that compare nothing: what an answer without some rules may not state."""
from __future__ import annotations

import csv
import json
from pathlib import Path
from typing import Callable, List

import pytest
from cases_of_program import TOP
from conftest import Run

from balisekit.rules.accepted import COLUMNS

Write = Callable[..., Path]
EXAMPLES = TOP / "examples"


def rows_of(path: Path) -> List[List[str]]:
    """The rows of a table."""
    with open(path, encoding="utf-8", newline="") as file:
        return list(csv.reader(file))


def without(path: Path, *groups: str) -> List[str]:
    """The lines of a table without these groups."""
    return [",".join(row) for row in rows_of(path) if row[0] not in groups]


@pytest.fixture
def with_findings(table: Write, run: Run, tmp_path: Path) -> Path:
    """The table of examples/table with findings F, without the group that the program refuses."""
    line = EXAMPLES / "table" / "line.csv"
    run("check", line, "--json", tmp_path / "all.json")
    refused = {each["group"] for each in json.loads((tmp_path / "all.json").read_text("utf-8"))["refused"]}
    return table(*without(line, *refused), name="line.csv")


def test_json_without_the_rules_of_the_program(run: Run, with_findings: Path, tmp_path: Path) -> None:
    """It has neither a verdict of the program nor findings, because none of its rules was applied."""
    file = tmp_path / "check.json"
    for only, has_findings in (("F,L", True), ("L", False)):
        run("check", with_findings, "--only", only, "--json", file, "--force")
        answer = json.loads(file.read_text("utf-8"))
        assert bool(answer["findings"]) == has_findings and (answer["verdict"] is not None) == has_findings
        assert bool(answer["account"]["judged"]) == has_findings
    run("check", EXAMPLES / "links" / "line.csv", "--only", "L", "--json", file, "--force")
    assert json.loads(file.read_text("utf-8"))["verdict"] is None
    accepted = tmp_path / "accepted.csv"
    accepted.write_text(f"{','.join(COLUMNS)}\n", "utf-8")
    run("check", with_findings, "--only", "L", "--accepted", accepted, "--json", file, "--force")
    assert json.loads(file.read_text("utf-8"))["accepted"]["findings"] == []


def test_report_without_the_rules_of_the_program(run: Run, with_findings: Path, tmp_path: Path) -> None:
    """The page repeats no verdict of the program, and no picture marks a finding."""
    pytest.importorskip("jinja2")
    page = tmp_path / "report.html"
    for only, has_findings in (("F,L", True), ("L", False)):
        run("report", with_findings, "--only", only, "--html", page, "--force")
        text = page.read_text("utf-8")
        assert ("repeat the verdict of the program. It answers" in text) == has_findings
        assert ("this report has no verdict of the program to repeat" in text) != has_findings
        assert (">F11" in text) == has_findings


def test_sarif_of_rules_that_compared_nothing(run: Run, table: Write, tmp_path: Path) -> None:
    """A result for each of them, as for all else that makes an answer INCOMPLETE."""
    rows = rows_of(EXAMPLES / "meaning" / "line.csv")
    km = rows[0].index("km")
    rows = [row[:km] + row[km + 1 :] for row in rows]
    path = table(*(",".join(row) for row in rows), name="line.csv")
    plan = EXAMPLES / "meaning" / "plan.csv"
    status, out, _ = run("check", path, "--plan", plan, "--sarif", tmp_path / "line.sarif")
    (log,) = json.loads((tmp_path / "line.sarif").read_text("utf-8"))["runs"]
    found = [result for result in log["results"] if result["ruleId"] == "not-compared"]
    said = [
        part for part in out[-1].replace("INCOMPLETE: ", "").replace("; ", ", ").split(", ") if "compared none" in part
    ]
    assert status == 2 and len(found) == len(said) > 0, out[-1]
    for result in found:
        assert result["level"] == "error" and result["message"]["text"] in out[-1]
        region = result["locations"][0]["physicalLocation"]["region"]
        assert region == {"startLine": 2, "endLine": len(rows)}


RULE = '''\
"""ACME-7: a test.

What it says. x.

Why it matters. x.

Example. x.

When it is a false alarm. x.

How to correct it. x.
"""
from balisekit import AddedRule
def find(line):
    yield from (None for each in line.telegrams)
RULE = AddedRule("ACME-7", __doc__, "telegrams", "x", find, "braking", is_default=IS_DEFAULT)
'''
OFF, OUTSIDE = "off until --rules names them", "rules that are not applied because --only leaves out their families: "


@pytest.mark.parametrize("is_default", [True, False])
def test_rules_that_are_asked_for_outside_of_only(run: Run, table: Write, is_default: bool) -> None:
    """They are named with the reason. Only a rule that is off, and that nobody has named, is off."""
    rule = table(content=RULE.replace("IS_DEFAULT", str(is_default)).encode(), name="rule.py")
    table('[check]\nrules_from = ["rule.py"]', name="x.toml")
    line, columns = EXAMPLES / "links" / "line.csv", rule.with_name("x.toml")

    def said(*words: object) -> List[str]:
        return [text for text in run("check", line, *words)[1] if OFF in text or OUTSIDE in text]

    assert said("--only", "U", "--rules", "E2,ACME-7", "--rules-from", rule) == [f"{OUTSIDE}E2"]
    assert said("--only", "E", "--rules", "E2,ACME-7", "--columns", columns) == [f"{OUTSIDE}ACME-7"]
    assert said("--rules", "E2,ACME-7", "--rules-from", rule) == said("--rules", "all", "--rules-from", rule) == []
    off = [] if is_default else [f"added rules that are {OFF}: ACME-7"]
    assert said("--rules-from", rule) == said("--only", "E", "--columns", columns) == off

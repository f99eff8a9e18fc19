"""The public interface: what `balisekit.__all__` names, its page, and the scripts of examples/python."""
from __future__ import annotations

import csv
import inspect
import io
import json
import os
import subprocess
import sys
import typing
from dataclasses import replace
from decimal import Decimal
from pathlib import Path
from typing import Any, Callable, List

import api_page
import pytest
from cases_of_program import TOP
from conftest import Run, set_day, without_usual_opening
from telegrams import ALONE, OTHER
from test_check_outputs import schema

import balisekit
from balisekit.engine.program import Program
from balisekit.io import csv_writing
from balisekit.rules.accepted import COLUMNS

LINE = TOP / "examples" / "table" / "line.csv"
ANY: Any = balisekit
"""The package for calls with arguments of other types."""
PLAN = TOP / "examples" / "meaning"
FUNCTIONS = """\
check(table, *, messages, only, accepted, plan, design, jumps, tolerance, line_speed, release_speed, rules, \
rules_from, columns, by_position, everything, program)
diff(old, new)
read_messages(path)
read_table(path, sheet, by_position, columns, fill_merged, skip_columns)"""
MEMBERS = {
    "AddedRule": "name page looks_at sentence find urgency needs_kilometres is_default",
    "Call": "status fault text",
    "Difference": "status last_line lines unchanged whole to_json()",
    "Finding": "rule family rows group aspect direction km sentence values urgency expected accepted "
    "message program folded",
    "GroupView": "name km track identity unread telegrams remark()",
    "KitError": "lines() status",
    "Library": "path find() version check() findings() decode() decode_radio() encode() encode_radio() "
    "telegram() message()",
    "LineView": "groups telegrams messages",
    "MessageView": "line name form packets() remark()",
    "Messages": "path sha256",
    "PacketView": "form number metres() remark()",
    "Program": "find() path sha256",
    "Result": "findings status last_line lines open of() to_records() to_json()",
    "Table": "path sha256",
    "TelegramView": "row group aspect name km form packets() remark()",
}
"""What callers may rely on: a change that fails here is announced in the CHANGELOG, as docs/formats.md says."""


def _names(name: str) -> str:
    """A function and the names of its arguments."""
    shown: List[str] = []
    for argument in inspect.signature(getattr(balisekit, name)).parameters.values():
        is_first = argument.kind is argument.KEYWORD_ONLY and "*" not in shown
        shown += [*(["*"] if is_first else []), argument.name]
    return f"{name}({', '.join(shown)})"


def test_the_interface_stays() -> None:
    """No name, argument or member changes unnoticed."""
    functions = [name for name in balisekit.__all__ if inspect.isfunction(getattr(balisekit, name))]
    assert "\n".join(map(_names, functions)) == FUNCTIONS
    classes = set(balisekit.__all__) - {*functions, "AddedRemark", "Answer"}
    assert {name: " ".join(one for one, _ in api_page.members(getattr(balisekit, name))) for name in classes} == MEMBERS
    assert sorted(balisekit.__all__) == balisekit.__all__ and set(balisekit.__all__) <= set(dir(balisekit))


def test_the_page_is_made_of_the_docstrings() -> None:
    """`python3 companion/tests/api_page.py` makes it, with each name."""
    page = api_page.PAGE.read_text("utf-8")
    assert page == api_page.page() and all(f"### `{name}`\n" in page for name in balisekit.__all__)


@pytest.mark.parametrize("folder", [TOP, TOP / "docs"], ids=["top", "elsewhere"])
def test_the_script_of_the_examples(folder: Path) -> None:
    """In each folder, and with or without pandas, it prints the same."""
    known = {**os.environ, "PYTHONPATH": str(TOP / "companion" / "src")}
    script = str(TOP / "examples" / "python" / "check_line.py")
    done = subprocess.run([sys.executable, script], cwd=folder, env=known, stdout=subprocess.PIPE, check=True)
    said = done.stdout.decode().splitlines()
    assert said[0] == "status 2" and said[1].startswith("F11 18.253 green {'reach_m': '3250', ")
    assert said[2:] == [
        *(f"ACME-7 18.253 {aspect} {{'d_ol_m': '200'}}" for aspect in ("red", "yellow", "green")),
        "{'F10': 1, 'F11': 1, 'E15': 1, 'ACME-7': 24, 'F9': 1}",
    ]


def test_a_line(program: Program) -> None:
    """As the command answers, by a path, a path of pathlib or a table that was read."""
    tables: List[Any] = [LINE, str(LINE), balisekit.read_table(LINE)]
    results = [balisekit.check(table, program=program) for table in tables]
    first = results[0]
    assert first.status == 2 and first.last_line.startswith("INCOMPLETE: 1 of 34 telegrams refused")
    assert all(each.findings == first.findings and each.lines == first.lines for each in results)
    assert [finding.rule for finding in first.findings] == ["F10", "F11", "E15", "F9"]
    assert first.of("E", "F9") == tuple(first.findings[index] for index in (2, 3)) and first.open == first.findings
    found = first.findings[1]
    assert (found.family, found.rows, found.group, found.aspect) == ("F", (23,), "Signal E", "green")
    assert (found.direction, found.km, found.urgency) == ("nominal", Decimal("18.253"), "wrong_information")
    assert found.program == ("F11 group 5 aspect 2 balise 1 packet 1 nominal: gradient short",)
    assert first.findings[3].expected == "infill: expected" and not found.expected


def test_the_answer_is_that_of_the_command(run: Run, tmp_path: Path, program: Program) -> None:
    """In words and as JSON, with all options."""
    words = ["--plan", PLAN / "plan.csv", "--tolerance", "2.5", "--rules", "E20,E21", "--line-speed", "140"]
    status, out, _ = run("check", PLAN / "line.csv", *words, "--json", tmp_path / "j.json")
    more: Any = {"plan": PLAN / "plan.csv", "tolerance": 2.5, "rules": ["E20", "E21"], "line_speed": 140}
    result = balisekit.check(PLAN / "line.csv", program=program, **more)
    without_program = [result.lines[0], *result.lines[2:]]
    assert (status, out) == (result.status, without_program)
    answer = result.to_json()
    assert answer == json.loads((tmp_path / "j.json").read_text("utf-8"))
    assert not [*schema("kit-check").iter_errors(answer)]


def test_messages_and_accepted_entries(
    run: Run, tmp_path: Path, program: Program, monkeypatch: pytest.MonkeyPatch
) -> None:
    """A message that was refused makes the status 2, and entries accept findings."""
    set_day(monkeypatch, 1780000000)
    (tmp_path / "m.txt").write_text("0304\n", "utf-8")
    said: List[Any] = [tmp_path / "m.txt", balisekit.read_messages(tmp_path / "m.txt")]
    assert all(balisekit.check(LINE, messages=messages, program=program).status == 2 for messages in said)
    table, accepted = tmp_path / "t.csv", tmp_path / "a.csv"
    table.write_text(f"group,telegram\nA,{ALONE}\nB,{ALONE}\nC,{OTHER}\n", "utf-8")
    first = balisekit.check(table, only="F", program=program)
    assert (first.status, [finding.accepted for finding in first.findings]) == (1, [False])
    run("check", table, "--only", "F", "--propose", accepted)
    (row,) = csv.DictReader(io.StringIO(accepted.read_text("utf-8")))
    signed = {**row, "reason": "by design", "who": "J. Doe", "date": "2026-01-02"}
    accepted.write_text(csv_writing.text(COLUMNS, [[signed[name] for name in COLUMNS]]), "utf-8")
    second = balisekit.check(table, only="F", accepted=accepted, program=program)
    assert (second.status, second.open, second.findings[0].accepted) == (0, (), True)


def test_records_have_plain_values(program: Program) -> None:
    """As pandas, csv and others take them."""
    records = balisekit.check(LINE, program=program).to_records()
    assert all(set(record) == set(balisekit.Finding._fields) for record in records)
    plain = (str, int, float, bool, type(None))
    assert all(isinstance(value, plain) for record in records for value in record.values())
    assert records[1]["rows"] == "23" and records[1]["km"] == 18.253 and json.dumps(records)


def test_a_rule_of_a_script(program: Program) -> None:
    """An AddedRule that a script defines needs no file of its own. The settings name that of the script."""

    def find(line: balisekit.LineView) -> typing.Iterator[balisekit.Answer]:
        """Looks at the names of groups."""
        yield from (group.remark(name=group.name) if " " in group.name else None for group in line.groups)

    page = "U1: a blank.\n\n" + "\n\n".join(
        f"{head}. Text."
        for head in ("What it says", "Why it matters", "Example", "When it is a false alarm", "How to correct it")
    )
    rule = balisekit.AddedRule("U1", page, "groups", "{name} has a blank", find)
    result = balisekit.check(LINE, only="U", rules_from=[rule], program=program)
    assert len(result.findings) == 9 and result.findings[0].sentence == "Signal A has a blank"
    assert any(line.startswith(f"settings: --only U, --rules-from {__file__} (SHA-256 ") for line in result.lines)


def test_errors_are_kit_errors(program: Program) -> None:
    """Of files that cannot be read, and of values that no option takes."""
    with pytest.raises(balisekit.KitError, match="No such file"):
        balisekit.read_table("/nowhere")
    more: Any
    for more, said in (
        ({"tolerance": 99}, "tolerance: 99 is no number of metres from 0 to 20"),
        ({"line_speed": 900}, "line_speed: 900 is no speed in km/h"),
        ({"rules": "E99"}, "rules: E99 is no rule"),
        ({"only": "Q"}, "only: Q is no list of F, L, E, X, U"),
        ({"only": "F", "line_speed": 160}, "--line-speed is not used with --only F"),
        ({"only": "X"}, "--only X needs a design of the line"),
    ):
        with pytest.raises(balisekit.KitError, match=said) as raised:
            balisekit.check(LINE, program=program, **more)
        assert raised.value.status == 2


def test_diff(run: Run, tmp_path: Path, program: Program) -> None:
    """As the command answers, in words and as JSON."""
    paths = [tmp_path / name for name in ("old.csv", "new.csv")]
    for path, telegram in zip(paths, (ALONE, OTHER)):
        path.write_text(f"group,telegram\nA,{telegram}\nB,{ALONE}\nC,00\n", "utf-8")
    status, out, _ = run("diff", *paths, "--json", tmp_path / "d.json")
    found = balisekit.diff(*(balisekit.check(path, only="F", program=program) for path in paths))
    assert status == found.status == 2 and out == without_usual_opening(found.lines)
    assert not found.whole and found.unchanged == 1 and found.last_line == out[-1]
    written, answer = json.loads((tmp_path / "d.json").read_text("utf-8")), found.to_json()
    for each in (written, answer):
        for side in (each, each["old"], each["new"]):
            del side["settings"]
    assert answer == written and answer["groups_renumbered"]


def test_diff_names_both_sides(tmp_path: Path, program: Program) -> None:
    """Results that were made with other settings or another program name these, as text, page and JSON."""
    paths = [tmp_path / name for name in ("old.csv", "new.csv")]
    for path in paths:
        path.write_text(f"group,telegram\nA,{ALONE}\n", "utf-8")
    old = balisekit.check(paths[0], only="F", program=program)
    new = balisekit.check(paths[1], program=program)
    found, same = balisekit.diff(old, new), balisekit.diff(new, new)
    assert "in old: settings: --only F" in found.lines
    assert not [line for line in same.lines if line.startswith("in old: settings")]
    sides = found.to_json()
    assert [each["name"] for each in sides["old"]["settings"][0]["values"]] == ["--only"]
    assert sides["new"]["settings"] == [] and sides["old"]["program"]["sha256"] == program.sha256
    other = balisekit.check(paths[0], only="F", program=replace(program, sha256="0" * 64))
    lines = balisekit.diff(other, new).lines
    assert any(line.startswith("in old: balisecheck") and f"SHA-256 {'0' * 64}" in line for line in lines)


def test_representations_are_short(program: Program) -> None:
    """None of an object in a notebook fills its pages."""
    result = balisekit.check(LINE, program=program)
    table = balisekit.read_table(LINE)
    some = [result, table, result._outcome.checked, table.groups[0], balisekit.diff(result, result), result._outcome]
    assert all(len(repr(each)) < 300 for each in some), [repr(each)[:300] for each in some]


@pytest.mark.parametrize(
    "value", [-5, 21, 10**9, Decimal("inf"), Decimal("nan"), Decimal("-0.5"), float("nan"), True]
)
def test_a_tolerance_is_that_of_the_command(program: Program, value: Any) -> None:
    """A value that the command refuses is refused here too."""
    with pytest.raises(balisekit.KitError, match="is no number of metres from 0 to 20: write 5 or 2.5"):
        balisekit.check(LINE, tolerance=value, program=program)


@pytest.mark.parametrize("value", [Decimal(), Decimal(20), Decimal("2.5"), Decimal("2.50"), 5, "2,5"])
def test_a_tolerance(program: Program, value: Any) -> None:
    assert balisekit.check(LINE, only="L", tolerance=value, program=program).status == 2


@pytest.mark.parametrize("name", ["accepted", "columns", "only", "plan", "program", "rules"])
def test_no_option_is_empty(program: Program, name: str) -> None:
    """As an unset variable of a script is: the command refuses such a value."""
    given: Any = {"program": program, name: ""}
    with pytest.raises(balisekit.KitError):
        balisekit.check(balisekit.read_table(LINE), **given)


def test_a_table_keeps_its_file_of_settings(program: Program, tmp_path: Path) -> None:
    """Its plan is compared as by the command, although only the reading of the table named the file."""
    settings = tmp_path / "project.toml"
    settings.write_text(f"[check]\nplan = '{PLAN / 'plan.csv'}'\n", "utf-8")
    table = balisekit.read_table(PLAN / "level-border.csv", columns=settings)
    assert len(balisekit.check(table, program=program).of("X")) == 11


def test_a_table_keeps_its_headings(program: Program, tmp_path: Path) -> None:
    """Another file of settings may state limits, but other headings than those that were read are not passed over."""
    limits, headings, same = (tmp_path / f"{name}.toml" for name in ("limits", "headings", "same"))
    limits.write_text("[check]\nline_speed = 160\n", "utf-8")
    headings.write_text('[columns]\nkm = "chainage"\n', "utf-8")
    same.write_text('[columns]\nkm = "km"\n[check]\nline_speed = 120\n', "utf-8")
    table = balisekit.read_table(LINE)
    for file, speed in ((limits, 160), (same, 120)):
        said = balisekit.check(table, columns=file, program=program).lines
        assert any(f"check.line_speed = {speed}" in line for line in said)
    why = f"{headings} states other headings than the usual ones, with which the table was read: give this file to"
    with pytest.raises(balisekit.KitError, match=f"^{why} read_table too, as columns$") as raised:
        balisekit.check(table, columns=headings, program=program)
    assert raised.value.status == 2
    own = balisekit.read_table(LINE, columns=same)
    with pytest.raises(balisekit.KitError, match=f"{headings} states other headings than {same}, with which"):
        balisekit.check(own, columns=headings, program=program)


def test_the_settings_name_how_a_table_was_read(program: Program, tmp_path: Path) -> None:
    """Each option of read_table that differs from its default is in text and JSON, as by the command."""
    book = pytest.importorskip("openpyxl").Workbook()
    book.active.title = "Line"
    for row in (["group", "telegram", "old", "new"], ["A", ALONE, OTHER, OTHER]):
        book.active.append(row)
    book.save(tmp_path / "t.xlsx")
    (tmp_path / "own.toml").write_text('telegram = "telegram"\n', "utf-8")
    options: Any = {"sheet": "Line", "by_position": True, "fill_merged": True, "skip_columns": ["old", "new"]}
    table = balisekit.read_table(tmp_path / "t.xlsx", columns=tmp_path / "own.toml", **options)
    result = balisekit.check(table, program=program)
    (line,) = (line for line in result.lines if line.startswith("settings: "))
    given = "--sheet Line, --skip-column old, --skip-column new, --by-position, --fill-merged; "
    assert line.startswith(f"settings: {given}{tmp_path / 'own.toml'} (SHA-256 ")
    stated = result.to_json()["settings"][0]["values"]
    names = "--sheet --skip-column --skip-column --by-position --fill-merged"
    assert " ".join(each["name"] for each in stated) == names
    plain = balisekit.check(balisekit.read_table(LINE), program=program)
    assert "settings: all have their defaults" in plain.lines


def test_links_need_kilometres(program: Program, tmp_path: Path) -> None:
    (tmp_path / "t.csv").write_text(f"group,telegram\nA,{ALONE}\n", "utf-8")
    with pytest.raises(balisekit.KitError, match="no row has a kilometre: links needs the column km"):
        balisekit.check(tmp_path / "t.csv", only="L", program=program)


@pytest.mark.parametrize(
    "options, why",
    [
        ({"sheet": ""}, "the name is empty"),
        ({"columns": ""}, "the name is empty"),
        ({"skip_columns": ["old", ""]}, "the name is empty"),
        ({"skip_columns": "km"}, "skip_columns is one text: write"),
    ],
)
def test_names_are_those_of_the_command(options: Any, why: str) -> None:
    """An empty one is refused. The letters of a text are no headings."""
    with pytest.raises(balisekit.KitError, match=why):
        balisekit.read_table(LINE, **options)


def test_another_name() -> None:
    with pytest.raises(AttributeError, match="has no attribute 'nothing'"):
        getattr(balisekit, "nothing")


def test_types_are_stated() -> None:
    """Each argument and each answer has one."""
    assert (Path(balisekit.__file__).parent / "py.typed").is_file()
    for name in balisekit.__all__:
        found = getattr(balisekit, name)
        if inspect.isfunction(found):
            assert set(found.__annotations__) == {*inspect.signature(found).parameters, "return"}


@pytest.mark.parametrize(
    "call, why",
    [
        (lambda: ANY.check(None), "None is no path"),
        (lambda: ANY.check(5), "5 is no path"),
        (lambda: ANY.check(LINE, only=["L"]), "only is .'L'., and no text"),
        (lambda: ANY.check(LINE, rules=[""]), "rules: nothing is no rule"),
        (lambda: ANY.check(LINE, rules=5), "rules is 5, and no list"),
        (lambda: ANY.check(LINE, rules_from="rule.py"), "rules_from is one text: write .'rule.py'."),
        (lambda: ANY.check(LINE, rules_from=5), "rules_from is 5, and no list"),
        (lambda: ANY.check(LINE, by_position="no"), "by_position is 'no': write True or False"),
        (lambda: ANY.check(LINE, everything=1), "everything is '1': write True or False"),
        (lambda: ANY.check(LINE, accepted=5), "5 is no path"),
        (lambda: ANY.check(LINE, columns=5), "5 is no path"),
        (lambda: ANY.check(LINE, messages=5), "5 is no path"),
        (lambda: ANY.check(LINE, program=5), "5 is no path"),
        (lambda: ANY.check(LINE, plan=5), "No such file"),
        (lambda: ANY.read_table(None), "None is no path"),
        (lambda: ANY.read_table(LINE, skip_columns=5), "skip_columns is 5, and no list"),
        (lambda: ANY.read_table(LINE, fill_merged="no"), "fill_merged is 'no': write True or False"),
        (lambda: ANY.read_messages(b"radio.txt"), "b'radio.txt' is no path"),
        (lambda: ANY.diff(None, None), "diff compares two results of check"),
    ],
)
def test_values_of_wrong_types(call: Callable[[], object], why: str) -> None:
    """They are refused with their argument, and none is taken for another value."""
    with pytest.raises(balisekit.KitError, match=why) as raised:
        call()
    assert raised.value.status == 2

"""Rules that a user adds work in all outputs as other rules do, are named as not balisekit's, and hide nothing."""
from __future__ import annotations

import csv
import io
import json
import sys
import xml.etree.ElementTree as ElementTree
from hashlib import sha256
from pathlib import Path
from typing import Callable, Dict, List

import pytest
from cases_of_program import TOP
from conftest import Run, set_day
from telegrams import ALONE, OTHER
from test_check_outputs import written

from balisekit.io import csv_writing
from balisekit.rules import meaning
from balisekit.rules.accepted import COLUMNS
from balisekit.rules.discovery import first_to_last, letter_of
from balisekit.rules.template import Template

Write = Callable[..., Path]
PAGE = '''"""{name}: a counter for tests.

What it says. M_MCOUNT is 255.

Why it matters. It is a test.

Example. Before: it is 255. After: it is 0.

When it is a false alarm. {alarm}

How to correct it. Send 0.
"""
'''
CODE = """from balisekit import AddedRule


def find(line):
    for telegram in line.telegrams:
        {answer}


RULE = AddedRule("{name}", __doc__, "telegrams", {sentence!r}, find{more})
"""
ANSWER = 'counter = telegram.form["m_mcount"]; yield telegram.remark(counter=counter) if counter > 254 else None'
LINE_OF_FIND = 18
SIGNED = {"reason": "looked at", "who": "J. Doe", "date": "2026-01-02"}
MARK = "    added rule, not balisekit's: "


def rule(folder: Path, name: str = "U1", answer: str = ANSWER, **words: str) -> Path:
    """A file with a rule."""
    path = folder / words.get("file", f"{name}.py")
    sentence, more = words.get("sentence", "M_MCOUNT is {counter}"), words.get("more", "")
    code = CODE.format(name=words.get("called", name), answer=answer, sentence=sentence, more=more)
    page = words.get("page", PAGE).replace("{name}", name)
    path.write_text(page.replace("{alarm}", words.get("alarm", "Never: ACME says so.")) + code, "utf-8")
    return path


def page_of(name: str) -> str:
    """The docstring of a rule."""
    return PAGE.replace("{name}", name).replace("{alarm}", "Never: ACME says so.")


@pytest.fixture
def path(table: Write) -> Path:
    """A table with two groups that send counter 255."""
    return table("group,km,telegram", f"A,1,{ALONE}", f"B,2,{OTHER}")


def test_in_words(run: Run, path: Path, tmp_path: Path) -> None:
    """Each remark says that it is not balisekit's, the settings name the file, and the status is 1."""
    file = rule(tmp_path)
    status, out, _ = run("check", path, "--only", "F,U", "--rules-from", file)
    assert f"settings: --only F,U, --rules-from {file} (SHA-256 {sha256(file.read_bytes()).hexdigest()})" in out
    at = out.index("added rules, not balisekit's, and not proved:")
    assert out[at + 1] == "a rule only:" and out[at + 2].endswith(": U1: M_MCOUNT is 255")
    assert out[at + 3] == f"{MARK}{file}" and "compared: 2 telegrams (U1)" in out
    assert status == 1 and out[-1] == 'program: "yes: groups 2, messages 0"; added rules: 2 found (U1 2)'
    assert run("check", path, "--only", "F")[0] == 0


@pytest.mark.parametrize("name", ["U1", "ACME-7", "FX1", "LINKS-3"])
def test_json_and_sarif(run: Run, path: Path, tmp_path: Path, name: str) -> None:
    """By the schemas. The template, its arguments and the values of JSON and SARIF have one source."""
    file = rule(tmp_path, name, more=', "wrong_place"')
    answer, log = written(run, tmp_path, path, "--rules-from", file)
    assert answer["families"] == ["F", "L", "E", "U"]
    entries = [entry for entry in answer["entries"] if entry["rule"] == name]
    origin = {"path": file.name, "sha256": sha256(file.read_bytes()).hexdigest(), "package": None, "version": None}
    assert len(entries) == 2 and all(entry["added"] == origin and not entry["proved"] for entry in entries)
    assert all(entry["values"] == {"counter": "255"} and entry["urgency"] == "wrong_place" for entry in entries)
    results = [result for result in log["results"] if result["ruleId"] == name]
    (about,) = [each for each in log["tool"]["driver"]["rules"] if each["id"] == name]
    assert about["messageStrings"] == {"sentence": {"text": "M_MCOUNT is {0}"}}
    assert about["properties"]["tags"] == ["added, not balisekit's, not proved"]
    assert all(result["message"]["arguments"] == ["255"] and result["level"] == "error" for result in results)
    assert letter_of(name) == "U"


def test_junit_report_and_sheet(run: Run, path: Path, tmp_path: Path) -> None:
    file = rule(tmp_path, "ACME-7")
    words = ["--rules-from", file, "--junit", tmp_path / "j.xml", "--xlsx", tmp_path / "e.xlsx"]
    assert run("check", path, *words)[0] == 1
    names = [suite.get("name", "") for suite in ElementTree.parse(tmp_path / "j.xml").getroot()]
    assert [name.rsplit(" ", 1)[0] for name in names][-1] == "added rules"
    pytest.importorskip("jinja2")
    assert run("report", path, "--html", tmp_path / "r.html", "--rules-from", file)[0] == 1
    page = (tmp_path / "r.html").read_text("utf-8")
    assert "Added rules, not balisekit" in page and "added rule, not balisekit" in page and 'id="ACME-7"' in page
    openpyxl = pytest.importorskip("openpyxl")
    rows = [[cell.value for cell in row] for row in openpyxl.load_workbook(tmp_path / "e.xlsx").worksheets[0].rows]
    assert [row[0] for row in rows].count("ACME-7") == 2 and f"added rule, not balisekit's: {file}" in str(rows)


def test_a_remark_is_accepted(run: Run, path: Path, tmp_path: Path, monkeypatch: pytest.MonkeyPatch) -> None:
    """Proposed, signed and accepted. Without the rule its entries are named, and another value opens it again."""
    set_day(monkeypatch, 1780000000)
    file, proposed, signed = rule(tmp_path, "ACME-7"), tmp_path / "p.csv", tmp_path / "a.csv"
    words = ["check", path, "--only", "F,U", "--rules-from", file]
    run(*words, "--propose", proposed)
    rows: List[Dict[str, str]] = list(csv.DictReader(io.StringIO(proposed.read_text("utf-8"))))
    assert [row["rule"] for row in rows] == ["ACME-7", "ACME-7"]
    cells = [[{**row, **SIGNED}.get(name, "") for name in COLUMNS] for row in rows]
    signed.write_text(csv_writing.text(COLUMNS, cells), "utf-8")
    status, out, _ = run(*words, "--accepted", signed)
    against = "accepted though no case of correct data has them: ACME-7 2"
    assert status == 0 and out[-1] == f"no open findings or added rules; {against}"
    status, out, _ = run("check", path, "--only", "F", "--accepted", signed)
    assert status == 0 and any("ACME-7" in line and line.startswith("note: 2 entries") for line in out)
    for sentence in ("M_MCOUNT is {counter}, and not 12", "The counter {counter} fits no message"):
        rule(tmp_path, "ACME-7", sentence=sentence)
        assert run(*words, "--accepted", signed)[0] == 1
    other = rule(tmp_path, "ACME-8")
    assert run("check", path, "--only", "F,U", "--rules-from", other, "--accepted", signed)[0] == 1


def test_an_entry_for_all_aspects(run: Run, path: Path, tmp_path: Path) -> None:
    """It is refused unless the page of the rule names correct data, as for any rule."""
    cells = {"rule": "ACME-7", "nid_c": "1", "nid_bg": "1", "aspect": "*", "sha256": "0" * 64, **SIGNED}
    signed = tmp_path / "a.csv"
    signed.write_text(csv_writing.text(COLUMNS, [[cells.get(name, "") for name in COLUMNS]]), "utf-8")
    words = ["check", path, "--accepted", signed, "--rules-from"]
    status, _, err = run(*words, rule(tmp_path, "ACME-7"))
    assert status == 2 and "ACME-7 is not accepted by * as aspect" in err[0]
    assert run(*words, rule(tmp_path, "ACME-7", alarm="The rule assumes that no test is wanted."))[0] == 1


def test_explain_and_rules(run: Run, path: Path, tmp_path: Path) -> None:
    """The page of the rule, beside its remarks and by itself; and a rule that is off until it is named."""
    file = rule(tmp_path, "ACME-7", more=", is_default=False")
    status, out, _ = run("check", "acme-7", "--explain", "--rules-from", file)
    assert status == 0 and out[0] == "ACME-7: a counter for tests" and "    What it says. M_MCOUNT is 255." in out
    words = ["check", path, "--only", "F,U", "--rules-from", file]
    assert run(*words)[::2] == (
        2,
        ["balisekit: --only U needs rules: give --rules-from, and --rules for those that are off"],
    )
    status, out, _ = run("check", path, "--rules-from", file)
    assert "added rules that are off until --rules names them: ACME-7" in out
    for asked in ("acme-7", "all"):
        status, out, _ = run(*words, "--rules", asked, "--explain")
        assert status == 1 and "ACME-7: a counter for tests" in out
    assert run(*words, "--rules", "ACME-8")[2] == [
        f"balisekit: ACME-8 is no rule: --rules names rules {first_to_last(meaning.RULES)} and those of --rules-from"
    ]


@pytest.mark.parametrize(
    "words, said",
    [
        ({"called": "E24"}, "E24: its name has the letter of a family of balisekit, or is none: "),
        ({"called": "L-3"}, "L-3: its name has the letter of a family of balisekit, or is none: "),
        ({"called": "acme"}, "acme: its name has the letter of a family of balisekit, or is none: "),
        ({"called": "U2"}, "U2: its page begins with no title: write a docstring that begins with U2: and the title"),
        ({"more": ', "grave"'}, "U1: urgency is grave: write one of wrong_information, "),
        ({"sentence": "M_MCOUNT is {counter.real}"}, "U1: its sentence is no template: {counter.real} is no field"),
        ({"sentence": "M_MCOUNT is {counter"}, "U1: its sentence is no template: "),
        ({"sentence": "a\nb"}, "U1: it needs find, a function, and looks_at and sentence, each a text of one line"),
        (
            {"page": PAGE.replace("Example. ", "For example, ")},
            "U1: its page has no paragraph that begins with Example.",
        ),
        ({"page": PAGE.replace("a test.", "a {test}.")}, "U1: its page has a brace"),
        ({"more": ")\nRULE = (1"}, "it has no AddedRule called RULE"),
    ],
)
def test_a_rule_that_is_none(run: Run, path: Path, tmp_path: Path, words: Dict[str, str], said: str) -> None:
    """It is refused before anything is checked, with its file."""
    file = rule(tmp_path, **words)
    status, out, err = run("check", path, "--rules-from", file)
    assert (status, out) == (2, []) and err[0].startswith(f"balisekit: {file}: {said}")


def test_two_rules_of_one_name(run: Run, path: Path, tmp_path: Path) -> None:
    one, other = rule(tmp_path), rule(tmp_path, file="other.py")
    status, out, err = run("check", path, "--rules-from", one, "--rules-from", other)
    assert (status, out) == (2, [])
    assert err == [f"balisekit: {other}: there are two rules U1: the other one is of {one}"]


@pytest.mark.parametrize(
    "answer, said",
    [
        ("yield 1 / 0", "U1 fails with ZeroDivisionError: division by zero"),
        ("raise SystemExit(0)", "U1 fails with SystemExit: 0"),
        ("import balisekit; raise balisekit.KitError('no')", "U1 fails with KitError: no"),
        ("yield telegram.remark()", "U1 fails with ValueError: the sentence has counter, and the remark has no values"),
        ("yield telegram.remark(counter=1.5)", "U1 fails with ValueError: counter is a float: give an int, "),
        ("yield True", "U1 fails with TypeError: find yields a bool: yield a remark, None or a str"),
    ],
)
def test_a_rule_that_fails(run: Run, path: Path, tmp_path: Path, answer: str, said: str) -> None:
    """There is no answer: status 3, with the file and the line of the rule."""
    file = rule(tmp_path, answer=answer)
    assert file.read_text("utf-8").splitlines()[LINE_OF_FIND - 1].endswith(answer)
    status, out, err = run("check", path, "--rules-from", file)
    assert (status, out) == (3, []) and err[0].startswith(f"balisekit: {file}, line {LINE_OF_FIND}: {said}")


@pytest.mark.parametrize(
    "text, line, said",
    [
        ("import nothing_at_all\n", 1, "its import fails with ModuleNotFoundError: No module named 'nothing_at_all'"),
        ("\nRULE = (\n", 2, "its import fails with SyntaxError: "),
        ("import sys\nsys.exit()\n", 2, "its import fails with SystemExit: "),
    ],
)
def test_a_file_that_fails(run: Run, path: Path, tmp_path: Path, text: str, line: int, said: str) -> None:
    file = tmp_path / "u.py"
    file.write_text(text, "utf-8")
    status, out, err = run("check", path, "--rules-from", file)
    assert (status, out) == (3, []) and err[0].startswith(f"balisekit: {file}, line {line}: {said}")


def test_a_rule_that_looks_at_nothing_is_no_success(run: Run, path: Path, tmp_path: Path) -> None:
    """What it passes over is counted by its reason. If nothing is left, the answer is incomplete."""
    status, out, _ = run("check", path, "--only", "F,U", "--rules-from", rule(tmp_path, answer="yield 'no driver'"))
    assert status == 2 and out[-1].startswith("INCOMPLETE: U1 compared none of 2 telegrams (no driver: 2); program: ")


def test_what_a_rule_prints_is_no_answer(run: Run, path: Path, tmp_path: Path) -> None:
    file = rule(tmp_path, answer="yield print('hello')")
    status, out, err = run("check", path, "--only", "U", "--rules-from", file, "--json", "-")
    assert status == 0 and json.loads("\n".join(out))["status"] == 0 and err.count("hello") == 2


def test_a_rule_changes_no_data(run: Run, path: Path, tmp_path: Path) -> None:
    """What it is given is its own: the other rules see what they see without it."""
    file = rule(tmp_path, answer="telegram.form.clear(); line.groups.clear() if False else None; yield None")
    without = run("check", path)[1]
    assert [line for line in run("check", path, "--rules-from", file)[1] if line in without][3:] == without[3:]


@pytest.mark.parametrize("by", ["--columns", "found", "overruled"])
def test_settings_name_code_only_if_somebody_names_them(run: Run, path: Path, tmp_path: Path, by: str) -> None:
    """A balisekit.toml that is only found beside a table, as one that came with it, runs nothing."""
    file = rule(path.parent)
    ran = path.parent / "ran"
    file.write_text(f"open({str(ran)!r}, 'w').close()\n{file.read_text('utf-8')}".replace('"""U1', '__doc__ = """U1'))
    settings = path.parent / "balisekit.toml"
    settings.write_text("[check]\nrules_from = ['U1.py']\n", "utf-8")
    if by == "found":
        status, out, err = run("check", path)
        assert (status, out, ran.exists()) == (2, [], False)
        why = "[check] rules_from names code that would run, and nobody has named this file"
        assert err == [f"balisekit: {settings}: {why}: give --columns {settings}, or --rules-from"]
        assert run("links", path)[0] == 0 and not ran.exists()
    elif by == "--columns":
        status, out, _ = run("check", path, "--columns", settings)
        assert status == 1 and ran.exists()
        digest = sha256(file.read_bytes()).hexdigest()
        assert any(f"check.rules_from = {file} (SHA-256 {digest})" in line for line in out)
    else:
        other = rule(tmp_path, "ACME-7")
        status, out, _ = run("check", path, "--rules-from", other)
        assert status == 1 and not ran.exists() and any(": ACME-7: " in line for line in out)


@pytest.mark.parametrize("option", ["found", "--columns"])
def test_rules_that_an_option_replaces_are_named(run: Run, path: Path, tmp_path: Path, option: str) -> None:
    """--rules-from takes the place of [check] rules_from, and a line of text and JSON names what is not applied."""
    own, other = rule(path.parent), rule(tmp_path, "ACME-7")
    settings = path.parent / "balisekit.toml"
    settings.write_text("[check]\nrules_from = ['U1.py', 'acme-rules']\n", "utf-8")
    words = ["--columns", settings] if option == "--columns" else []
    line = f"not applied: {own}, acme-rules, which [check] rules_from names, because --rules-from replaces it"
    assert line in run("check", path, *words, "--rules-from", other)[1]
    answer = json.loads("\n".join(run("check", path, *words, "--rules-from", other, "--json", "-")[1]))
    assert answer["not_applied"] == [line.replace(str(own), "U1.py")]
    settings.write_text("[check]\nrules_from = ['U1.py']\n", "utf-8")
    assert not any("not applied: " in line for line in run("check", path, *words, "--rules-from", own)[1])


def test_a_rule_that_needs_kilometres(run: Run, table: Write, tmp_path: Path, monkeypatch: pytest.MonkeyPatch) -> None:
    """It is named for a table without them, and the answer is incomplete: somebody has asked for this rule."""
    set_day(monkeypatch, 1780000000)
    without = table("group,telegram", f"A,{ALONE}", f"B,{OTHER}")
    rules = ["--rules-from", rule(tmp_path, more=", needs_kilometres=True")]
    junit, sarif = tmp_path / "junit.xml", tmp_path / "check.sarif"
    status, out, _ = run("check", without, *rules, "--junit", junit, "--sarif", sarif)
    assert status == 2 and out[-1].startswith("INCOMPLETE: U1 compared none of 1 table (no row has a kilometre: 1); ")
    assert "no kilometres: rules over the line are not applied" in out
    assert any("U1 compared none" in (case.get("message") or "") for case in ElementTree.parse(junit).iter("error"))
    assert not json.loads(sarif.read_text("utf-8"))["runs"][0]["invocations"][0]["executionSuccessful"]
    status, out, _ = run("check", without, *rules, "--rules-from", rule(tmp_path, "ACME-7"))
    assert status == 2 and any(": ACME-7: " in line for line in out)
    entry = f"U1,1,1,,,,,,looked at,J. Doe,2026-01-02,,{'0' * 64}"
    entries = table(",".join(COLUMNS), entry, name="a.csv")
    out = run("check", without, *rules, "--accepted", entries)[1]
    assert any(line.startswith("note: ") and "U1" in line for line in out), out


def package(
    folder: Path, monkeypatch: pytest.MonkeyPatch, points: str = "[balisekit.rules]\nu1 = acme_rules.u1:RULE\n"
) -> Path:
    """An installed package with a rule."""
    (folder / "acme_rules").mkdir()
    (folder / "acme_rules" / "__init__.py").write_text("", "utf-8")
    about = folder / "acme_rules-1.2.dist-info"
    about.mkdir()
    (about / "METADATA").write_text("Metadata-Version: 2.1\nName: acme-rules\nVersion: 1.2\n", "utf-8")
    (about / "entry_points.txt").write_text(points, "utf-8")
    monkeypatch.syspath_prepend(folder)
    for name in [name for name in sys.modules if name.startswith("acme_rules")]:
        monkeypatch.delitem(sys.modules, name)
    return rule(folder / "acme_rules", file="u1.py")


def test_the_rules_of_a_package(run: Run, path: Path, tmp_path: Path, monkeypatch: pytest.MonkeyPatch) -> None:
    """The settings name package, version and module. Nothing of it runs unless it is named."""
    file = package(tmp_path, monkeypatch)
    assert "acme_rules.u1" not in sys.modules and run("check", path)[0] == 0 and "acme_rules.u1" not in sys.modules
    status, out, _ = run("check", path, "--only", "U", "--rules-from", "acme-rules")
    digest = sha256(file.read_bytes()).hexdigest()
    assert status == 1 and any(
        f'--rules-from "acme-rules 1.2: acme_rules.u1" (SHA-256 {digest})' in line for line in out
    )
    assert out.count(f"{MARK}acme-rules 1.2: acme_rules.u1") == 2
    answer, _ = written(run, tmp_path, path, "--rules-from", "acme-rules")
    origin = {"path": "acme_rules.u1", "sha256": digest, "package": "acme-rules", "version": "1.2"}
    assert [entry["added"] for entry in answer["entries"] if entry["rule"] == "U1"] == [origin, origin]


def test_a_package_without_rules(run: Run, path: Path, tmp_path: Path, monkeypatch: pytest.MonkeyPatch) -> None:
    assert run("check", path, "--rules-from", "acme-rulez")[::2] == (
        2,
        [
            "balisekit: --rules-from: acme-rulez is no installed package, and no file of Python: write rule.py or the "
            "name of a package"
        ],
    )
    package(tmp_path, monkeypatch, "[console_scripts]\n")
    status, _, err = run("check", path, "--rules-from", "acme-rules")
    assert (status, err) == (2, ["balisekit: --rules-from: the package acme-rules has no entry point balisekit.rules"])


def test_a_package_that_fails(run: Run, path: Path, tmp_path: Path, monkeypatch: pytest.MonkeyPatch) -> None:
    file = package(tmp_path, monkeypatch)
    file.write_text("1 / 0\n", "utf-8")
    status, out, err = run("check", path, "--rules-from", "acme-rules")
    assert (status, out) == (3, [])
    assert err[0].startswith(f"balisekit: acme-rules 1.2: acme_rules.u1, {file}, line 1: its import fails with Zero")


def test_no_output_replaces_a_rule(run: Run, path: Path, tmp_path: Path) -> None:
    file = rule(tmp_path)
    status, _, err = run("check", path, "--rules-from", file, "--json", file, "--force")
    assert status == 2 and "an output never replaces one" in err[0]


def test_an_option_that_is_not_used(run: Run, path: Path, tmp_path: Path) -> None:
    words = ["--rules-from", rule(tmp_path)]
    assert run("check", path, "--only", "F,L", *words)[2] == ["balisekit: --rules-from is not used with --only F,L"]
    assert run("check", path, "--only", "U")[0] == 2


def test_a_template() -> None:
    """Braces that are doubled are braces, and a text is escaped as all names are."""
    made = Template("{{{a}}} and {b}, {a}")
    assert made.fields == ("a", "b") and made.numbered == "{{{0}}} and {1}, {0}"
    values = made.values({"b": "x\ny", "a": 3})
    assert made.words(values) == "{3} and x\\ny, 3" and made.arguments(values) == ("3", "x\\ny")


def test_the_example(run: Run) -> None:
    """examples/python/acme_7.py is what its page says, and short."""
    file = TOP / "examples" / "python" / "acme_7.py"
    line = TOP / "examples" / "table" / "line.csv"
    _, out, _ = run("check", line, "--rules-from", file)
    assert any(said.startswith("row 22 ") and ": D_OL is 200 m, and less than 250 m" in said for said in out)
    code = file.read_text("utf-8").split('"""\n', 1)[1].strip().splitlines()
    assert len([text for text in code if text]) <= 20


CATCHES = """
def find(line):
    for telegram in line.telegrams:
        try:
            yield telegram.remark(counter=1.5)
        except (TypeError, ValueError):
            yield "strange"


RULE = AddedRule("U1", __doc__, "telegrams", "M_MCOUNT is {counter}", find)
"""
CHANGES = """
def find(line):
    for telegram in line.telegrams:
        telegram.form["m_mcount"] = 0
        yield None


RULE = AddedRule("A1", __doc__, "telegrams", "M_MCOUNT is {counter}", find)
"""


def test_no_rule_hides_its_own_error(run: Run, path: Path, tmp_path: Path) -> None:
    """A value that no sentence can have ends the answer, although the rule catches the error."""
    file = tmp_path / "u.py"
    file.write_text(page_of("U1") + "from balisekit import AddedRule\n" + CATCHES, "utf-8")
    status, out, err = run("check", path, "--only", "F,U", "--rules-from", file)
    assert (status, out) == (3, []) and "counter is a float: give an int, a Decimal or a str" in err[0]


def test_no_rule_changes_what_the_next_one_sees(run: Run, path: Path, tmp_path: Path) -> None:
    """Each rule is given objects of its own."""
    first = tmp_path / "a.py"
    first.write_text(page_of("A1") + "from balisekit import AddedRule\n" + CHANGES, "utf-8")
    words = ["check", path, "--only", "F,U", "--rules-from", first, "--rules-from", rule(tmp_path)]
    assert run(*words)[1][-1].endswith("added rules: 2 found (U1 2)")

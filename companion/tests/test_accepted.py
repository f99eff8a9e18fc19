"""Accepted findings: which entry is about which finding, and that only such an entry accepts it."""
from __future__ import annotations

import csv
import io
import json
import re
from hashlib import sha256
from pathlib import Path
from typing import Any, Callable, Dict, List

import pytest
from cases_of_program import TOP
from conftest import Run, set_day
from telegrams import ALONE, MESSAGE, OTHER, SPARE, account, digest

from balisekit.engine.program import Program, Text
from balisekit.io import csv_writing
from balisekit.rules import accepted
from balisekit.rules.accepted import COLUMNS, FIELDS, OF_FAMILIES, RULES, VALUES
from balisekit.rules.discovery import ADDED, ADDED_NAME
from balisekit.rules.families import FAMILIES
from balisekit.rules.location import Location
from balisekit.rules.rule import Remark

Write = Callable[..., Path]
LINE = TOP / "examples" / "table" / "line.csv"
HEADING = ",".join(COLUMNS)
NO_RULE = f"none of F1 to F16, {OF_FAMILIES}"
DAY = 1780000000
"""2026-05-28."""


@pytest.fixture(autouse=True)
def day(monkeypatch: pytest.MonkeyPatch) -> None:
    """A day that does not move."""
    set_day(monkeypatch, DAY)


def twice(table: Write, *first: str) -> Path:
    """A table with one finding, F14 of group B."""
    return table("group,telegram", *first, f"A,{ALONE}", f"B,{ALONE}")


def entry(**fields: str) -> str:
    """A row of the file."""
    values = {
        "rule": "F14",
        "nid_c": "1",
        "nid_bg": "1",
        "reason": "by design",
        "who": "J. Doe",
        "date": "2026-01-02",
        "sha256": digest([ALONE, ALONE]),
        **fields,
    }
    return csv_writing.text([values.get(name, "") for name in COLUMNS], []).rstrip("\n")


def test_entries_know_each_rule() -> None:
    """And not the rule after the last one of a family. An added rule can have any number."""
    assert all(re.fullmatch(VALUES["rule"][0], name) for name in ("U1", "ACME-7"))
    for letter, family in FAMILIES.items():
        if letter == ADDED:
            continue
        names = [rule.name for rule in family.rules] or [f"F{number}" for number in range(1, 17)]
        assert all(re.fullmatch(VALUES["rule"][0], name) for name in names)
        assert not re.fullmatch(VALUES["rule"][0], f"{letter}{len(names) + 1}")


@pytest.mark.parametrize("name", ["check", "sarif"])
def test_schemas_know_each_rule(name: str) -> None:
    """Of balisekit's own rules also those of later versions: the findings of the program are F1 to F16.

    A name of another family is that of an added rule, which has the same form in the entries.
    """
    source = (TOP / f"schemas/kit-{name}.json").read_text("utf-8")
    (pattern,) = re.findall(r'"pattern": "(\^\([^"]*F\([^"]*)"', source)
    assert all(re.search(pattern, name) for name in [*RULES, "F1", "F16", "L10", "E24", "X99", "U1", "ACME-7"])
    assert not [name for name in ("F0", "F17", "L0", "L-1", "E", "1", "acme-7", "U0") if re.search(pattern, name)]
    assert ADDED_NAME.replace("\\", "\\\\") in source


def test_nothing_open(run: Run, table: Write) -> None:
    path, file = twice(table), table(HEADING, entry(), name="accepted.csv")
    status, out, _ = run("check", "--only", "F", path, "--accepted", file)
    of_file = f"1 entry of {file} (SHA-256 {sha256(file.read_bytes()).hexdigest()})"
    assert status == 0 and out[1:] == [
        f"entries: {of_file}, judged on 2026-05-28 by the clock",
        "accepted:",
        "row 3  B: the identity 1/1 (NID_C/NID_BG) is also that of A, row 2",
        "    program: F14 group 1: identity used before",
        "    accepted: by design (J. Doe, 2026-01-02)",
        "aspects found: 1 in 2 groups",
        account(2),
        'program: "no: findings 1"',
        "findings 1: accepted 1, open 0",
        "no open findings",
    ]
    assert not any("yes" in line for line in out)


def test_one_is_open(run: Run, table: Write) -> None:
    path = table("group,telegram", f"A,{ALONE}", f"B,{ALONE}", f"C,{OTHER}", f"D,{OTHER}")
    status, out, _ = run("check", path, "--accepted", table(HEADING, entry(), name="accepted.csv"))
    assert status == 1 and out[-2:] == ['program: "no: findings 2"', "findings 2: accepted 1, open 1"]


@pytest.mark.parametrize(
    "fields, why",
    [
        ({"reason": ""}, "no reason"),
        ({"who": ""}, "no who"),
        ({"date": ""}, "no date"),
        ({"until": "2026-05-27"}, "expired: until 2026-05-27 is past"),
        (
            {"reason": "", "who": "", "until": "2020-01-01"},
            "no reason, no who, until 2020-01-01 is before date 2026-01-02",
        ),
    ],
)
def test_an_entry_that_is_not_in_order_accepts_nothing(
    run: Run, table: Write, fields: Dict[str, str], why: str
) -> None:
    file = table(HEADING, entry(**fields), name="accepted.csv")
    status, out, _ = run("check", twice(table), "--accepted", file)
    assert status == 1 and f"{file}: row 2: {why}" in out
    assert out[-1] == "findings 1: accepted 0, open 1; entries at fault 1"


def test_the_last_day_counts(run: Run, table: Write) -> None:
    file = table(HEADING, entry(until="2026-05-28"), name="accepted.csv")
    status, out, _ = run("check", twice(table), "--accepted", file)
    assert status == 0 and "    accepted: by design (J. Doe, 2026-01-02, until 2026-05-28)" in out


def test_an_unused_entry_is_no_success(run: Run, table: Write) -> None:
    file = table(HEADING, entry(), entry(rule="F1", balise="0"), name="accepted.csv")
    status, out, _ = run("check", twice(table), "--accepted", file)
    assert status == 1 and out[-4:] == [
        f"{file}: row 3: unused: it matches no finding",
        account(2),
        'program: "no: findings 1"',
        "findings 1: accepted 1, open 0; entries at fault 1",
    ]


def test_a_yes_and_no_entry(run: Run, table: Write) -> None:
    status, out, _ = run(
        "check", table("group,telegram", f"A,{ALONE}"), "--accepted", table(HEADING, name="accepted.csv")
    )
    assert status == 0 and out[-3:] == [
        'program: "yes: groups 1, messages 0"',
        "findings 0: accepted 0, open 0",
        "no open findings or remarks",
    ]


def test_incomplete_stays_incomplete(run: Run, table: Write) -> None:
    path = twice(table, f"X,{SPARE}")
    status, out, _ = run("check", path, "--accepted", table(HEADING, entry(), name="accepted.csv"))
    assert status == 2 and out[-2:] == [
        "findings 1: accepted 1, open 0",
        "INCOMPLETE: 1 of 3 telegrams refused, 1 of 3 groups left out; " "findings in the rest: 1",
    ]


def test_a_group_that_is_put_in_before_moves_nothing(run: Run, table: Write) -> None:
    file = table(HEADING, entry(), name="accepted.csv")
    assert run("check", twice(table, f"New,{OTHER}"), "--accepted", file)[0] == 0


@pytest.mark.parametrize(
    "fields, status",
    [
        ({"aspect": "*", "balise": "*", "packet": "*", "direction": "*", "message": "*"}, 2),
        ({name: "*" for name in FIELDS if name not in ("rule", "nid_c", "nid_bg")}, 2),
        ({"nid_c": "*"}, 2),
        ({"nid_c": "", "nid_bg": ""}, 2),
        ({"rule": "*"}, 2),
        ({"balise": "0"}, 1),
        ({"direction": "nominal"}, 1),
        ({"aspect": "x"}, 1),
        ({"nid_c": ""}, 2),
        ({"nid_bg": "01"}, 0),
        ({"nid_bg": "2"}, 1),
        ({"rule": "f14"}, 0),
        ({"message": "B"}, 1),
    ],
)
def test_fields(run: Run, table: Write, fields: Dict[str, str], status: int) -> None:
    file = table(HEADING, entry(**fields), name="accepted.csv")
    assert run("check", twice(table), "--accepted", file)[0] == status


def test_an_empty_field_matches_where_the_finding_has_none(run: Run, table: Write) -> None:
    """F9 has a balise and a packet: an entry that leaves one of them empty is about another finding."""
    text = (TOP / "examples" / "check" / "packet-not-modelled.json").read_text("utf-8")
    telegram = json.loads(text)["groups"][0]["balises"][0]
    path = table("group,aspect,telegram", f"A,red,{telegram}")
    whole = {"rule": "F9", "aspect": "red", "balise": "0", "packet": "0", "sha256": digest([telegram])}
    for left_out in ("", "aspect", "balise", "packet"):
        file = table(HEADING, entry(**{**whole, **({left_out: ""} if left_out else {})}), name="accepted.csv")
        assert run("check", path, "--accepted", file)[0] == (1 if left_out else 0), left_out


def test_messages_are_named(run: Run, table: Write) -> None:
    path = table("group,telegram", f"A,{ALONE}")
    named = {"nid_c": "", "nid_bg": "", "message": "to train 7", "direction": "nominal", "sha256": digest([MESSAGE])}
    file = table(HEADING, entry(**named, rule="F10"), entry(**named, rule="F12"), name="accepted.csv")
    one = table(f"{MESSAGE};to train 7", name="one.txt")
    assert run("check", path, "--messages", one, "--accepted", file)[0] == 0
    two = table(f"{MESSAGE};to train 7", f"{MESSAGE};to train 7", name="two.txt")
    status, out, _ = run("check", path, "--messages", two, "--accepted", file)
    assert status == 1 and out[-1] == "findings 4: accepted 0, open 4; entries at fault 2"
    assert sum(line.startswith("no entry can name message of line ") for line in out) == 4
    bare = table(MESSAGE, name="bare.txt")
    for name in ("", "*"):
        star = table(HEADING, entry(**{**named, "message": name}, rule="F10"), name="star.csv")
        assert run("check", path, "--messages", bare, "--accepted", star)[0] == 2


@pytest.mark.parametrize(
    "lines, why",
    [
        ([], "row 1: no column rule"),
        (["rule,reason"], "row 1: no column nid_c"),
        ([HEADING + ",untill"], "row 1: there is no column untill"),
        ([HEADING + ",who"], "row 1: two columns have the heading who"),
        ([HEADING, entry(rule="F17")], f"row 2, column rule: F17 is {NO_RULE}"),
        ([HEADING, entry(rule="")], f"row 2, column rule: nothing is {NO_RULE}"),
        ([HEADING, entry(nid_bg="x")], "row 2, column nid_bg: x is no whole number"),
        ([HEADING, entry(direction="up")], "row 2, column direction: up is neither nominal nor reverse"),
        (
            [HEADING, entry(date="26.11.2026")],
            "row 2, column date: 26.11.2026 is no date: write it as 2026-11-26; a spreadsheet changes it unless the "
            "column is text",
        ),
        ([HEADING, entry(until="2026-02-30")], "row 2, column until: 2026-02-30 is no date"),
        ([HEADING, entry() + ",more,still"], "row 2: it has 15 cells, and the heading 13"),
        ([HEADING, entry(reason="a\nb")], "row 2, column reason: the cell contains a line end"),
        (
            [HEADING, entry(reason="#N/A")],
            "row 2, column reason: #N/A is an error of the spreadsheet: its formula failed",
        ),
        ([HEADING, entry(who="#REF!")], "row 2, column who: #REF! is an error of the spreadsheet"),
        ([HEADING, entry(until="#NAME?")], "row 2, column until: #NAME? is an error of the spreadsheet"),
        ([HEADING, '"open'], "row 2: a quote is not closed"),
    ],
)
def test_bad_input(run: Run, table: Write, lines: List[str], why: str) -> None:
    file = table(*lines, name="accepted.csv")
    status, out, err = run("check", twice(table), "--accepted", file)
    assert (status, out) == (2, []) and err[0].startswith(f"balisekit: {file}: {why}")


def test_files_that_cannot_be_read_or_written(run: Run, table: Write, tmp_path: Path) -> None:
    path = twice(table)
    assert run("check", path, "--accepted", tmp_path / "none.csv")[0] == 2
    assert run("check", path, "--accepted", tmp_path)[0] == 2
    kept = table("signed", name="kept.csv")
    status, _, err = run("check", path, "--propose", kept)
    assert status == 2 and "it exists already" in err[0] and kept.read_text("utf-8") == "signed\n"
    assert run("check", path, "--propose", tmp_path / "none" / "x.csv")[0] == 3
    assert run("check", path, "--propose", "-", "--json", "-")[0] == 2


def test_what_is_proposed_has_to_be_signed(run: Run, table: Write, tmp_path: Path) -> None:
    path, file = twice(table), tmp_path / "accepted.csv"
    assert run("check", path, "--propose", file)[0] == 1
    rows = list(csv.DictReader(io.StringIO(file.read_text("utf-8"))))
    sha256 = digest([ALONE, ALONE])
    assert rows == [{**{name: "" for name in COLUMNS}, "rule": "F14", "nid_c": "1", "nid_bg": "1", "sha256": sha256}]
    status, out, _ = run("check", path, "--accepted", file)
    assert status == 1 and out[-1] == "findings 1: accepted 0, open 1; entries at fault 1"
    file.write_text(file.read_text("utf-8").replace(f",,,,,{sha256}", f",checked,J. Doe,2026-05-28,,{sha256}"), "utf-8")
    assert run("check", path, "--accepted", file, "--propose", tmp_path / "more.csv")[0] == 0
    assert (tmp_path / "more.csv").read_text("utf-8") == HEADING + "\n"


def test_proposed_entries_are_about_their_findings(run: Run, tmp_path: Path) -> None:
    """Once signed, those of the example accept what correct data get. Without a reason an entry is at fault."""
    file = tmp_path / "accepted.csv"
    assert run("check", LINE, "--propose", file)[0] == 2
    rows = list(csv.reader(io.StringIO(file.read_text("utf-8"))))
    assert [(row[0], row[8].split(":")[0]) for row in rows[1:]] == [
        ("F10", ""),
        ("F12", ""),
        ("F9", "Infill, packet 136"),
        ("F9", ""),
        ("F11", ""),
        ("E24", ""),
        ("E15", ""),
    ]
    signed = [[*row[:9], "J. Doe", "2026-05-28", *row[11:]] for row in rows[1:]]
    file.write_text(csv_writing.text(rows[0], signed), "utf-8")
    out = run("check", LINE, "--accepted", file)[1]
    assert out[-2] == "findings 5, remarks 2: accepted 1, open 6; entries at fault 6"


def test_correct_data_is_recognized(run: Run, table: Write, tmp_path: Path) -> None:
    """The document of correct data: a row of the table for each finding."""
    document = json.loads((TOP / "examples" / "check" / "correct-data.json").read_text("utf-8"))
    lines = ["group,aspect,telegram"]
    for number, group in enumerate(document["groups"]):
        for place, aspect in enumerate(group.get("aspects", [group])):
            lines += [f"G{number},{place if 'aspects' in group else ''},{one}" for one in aspect["balises"]]
    radio = table(*[f"{one};m{place}" for place, one in enumerate(document["messages"])], name="m.txt")
    file = tmp_path / "accepted.csv"
    assert run("check", table(*lines), "--messages", radio, "--propose", file)[0] == 1
    rows = list(csv.DictReader(io.StringIO(file.read_text("utf-8"))))
    assert [(row["rule"], row["reason"].split(":")[0][:28]) for row in rows] == [
        ("F10", "Stop aspect of level 1 witho"),
        ("F12", "Stop aspect of level 1 witho"),
        ("F16", "One controlled balise, one c"),
        ("F6", "Default telegram as an aspec"),
        ("F9", "Default telegram as an aspec"),
        ("F16", "Default telegram as an aspec"),
        ("F9", "Infill, packet 136"),
        ("F9", "Virtual balise cover marker"),
        ("F10", "Message 3 whose profiles wer"),
        ("F12", "Message 3 whose profiles wer"),
    ]


def test_a_controlled_pair_has_no_reason(run: Run, table: Write, tmp_path: Path, program: Program) -> None:
    def telegram(place: int, level: int) -> Any:
        packet = {
            "nid_packet": 41,
            "q_dir": 2,
            "q_scale": 1,
            "d_leveltr": 32_767,
            "transitions": [{"m_leveltr": level, "l_ackleveltr": 0}],
        }
        return {
            "m_version": 33,
            "n_pig": place,
            "n_total": 1,
            "m_dup": place + 1,
            "m_mcount": 7,
            "nid_c": 1,
            "nid_bg": 1,
            "q_link": 1,
            "user_bits": 210,
            "packets": [packet],
        }

    forms = [telegram(place, level) for level in (2, 3) for place in (0, 1)]
    texts = [one.line for one in program.encode(forms) if isinstance(one, Text)]
    lines = [f"A,{'xxyy'[number]},{text}" for number, text in enumerate(texts)]
    file = tmp_path / "accepted.csv"
    assert run("check", table("group,aspect,telegram", *lines), "--propose", file)[0] == 1
    rows = list(csv.DictReader(io.StringIO(file.read_text("utf-8"))))
    assert [(row["rule"], row["reason"]) for row in rows] == [("F16", ""), ("F16", "")]


@pytest.mark.parametrize("begin", csv_writing.FORMULAS[:4])
def test_formulas_are_never_written_as_such(run: Run, table: Write, tmp_path: Path, begin: str) -> None:
    """Names that begin as a formula, of an aspect and of a message, and whoever signs; read again they are the same."""
    text = (TOP / "examples" / "check" / "packet-not-modelled.json").read_text("utf-8")
    telegram = json.loads(text)["groups"][0]["balises"][0]
    file, radio = tmp_path / "accepted.csv", table(f"{MESSAGE};{begin}2+3", name="m.txt")
    words = ["check", table("group,aspect,telegram", f"A,{begin}1+1,{telegram}"), "--messages", radio]
    run(*words, "--propose", file)
    rows = list(csv.reader(io.StringIO(file.read_text("utf-8"))))
    assert [(row[4], row[3]) for row in rows[1:]] == [(f"'{begin}1+1", ""), *[("", f"'{begin}2+3")] * 2]
    assert not any(cell.startswith(csv_writing.FORMULAS) for row in rows for cell in row)
    signed = [[csv_writing.plain(cell) for cell in row] for row in rows[1:]]
    signed = [[*row[:8], row[8] or "looked at", f"{begin}J", "2026-05-28", *row[11:]] for row in signed]
    file.write_text(csv_writing.text(rows[0], signed), "utf-8")
    status, out, _ = run(*words, "--accepted", file)
    assert status == 0 and sum(f"({begin}J, 2026-05-28)" in line for line in out) == 3


def test_csv_is_written_in_one_place() -> None:
    """Nothing else in the package makes a CSV file, so that each cell of one is made safe."""
    package = TOP / "companion" / "src" / "balisekit"
    assert [
        path.name
        for path in sorted(package.rglob("*.py"))
        if re.search(r"csv\.(writer|DictWriter)", path.read_text("utf-8"))
    ] == ["csv_writing.py"]


@pytest.mark.uncovered
def test_cells_come_back() -> None:
    hypothesis = pytest.importorskip("hypothesis")

    def tried(cell: str) -> None:
        assert csv_writing.plain(csv_writing.safe(cell)) == cell
        assert not csv_writing.safe(cell).startswith(csv_writing.FORMULAS)

    hypothesis.given(hypothesis.strategies.text("'=+-@ab\t\r", max_size=6))(tried)()


def test_json(run: Run, table: Write, tmp_path: Path) -> None:
    file = table(HEADING, entry(), entry(rule="F2"), name="accepted.csv")
    assert run("check", twice(table), "--accepted", file, "--json", tmp_path / "out.json")[0] == 1
    answer: Any = json.loads((tmp_path / "out.json").read_text("utf-8"))
    assert answer["status"] == 1
    assert answer["accepted"]["counts"] == "findings 1: accepted 1, open 0; entries at fault 1"
    assert answer["accepted"]["findings"][0]["who"] == "J. Doe" and len(answer["accepted"]["sha256"]) == 64
    assert answer["accepted"]["at_fault"][0]["row"] == 3


def test_an_entry_is_of_the_kilometres_that_a_rule_compares(run: Run, table: Write, tmp_path: Path) -> None:
    """L9 is accepted until the group that is passed over stands elsewhere."""
    text = (TOP / "examples" / "links" / "group-passed-over.csv").read_text("utf-8")
    moved = text.replace("B1,11.000", "B1,10.500").replace("B2,10.997", "B2,10.497")
    file = tmp_path / "accepted.csv"
    run("check", table(*text.splitlines()), "--only", "L", "--propose", file)
    rows = list(csv.reader(io.StringIO(file.read_text("utf-8"))))
    signed = [[*row[:8], "looked at", "J. Doe", "2026-05-28", *row[11:]] for row in rows[1:] if row[0] == "L9"]
    file.write_text(csv_writing.text(rows[0], signed), "utf-8")
    assert moved != text and len(signed) == 1
    for lines, fault in ((text, False), (moved, True)):
        _, out, _ = run("check", table(*lines.splitlines()), "--only", "L", "--accepted", file)
        assert any("the telegrams or values have changed since 2026-05-28" in line for line in out) == fault


SENTENCE = "G_A is +8 per mille from km 10.300 to km 10.600 (300 m), and by Signal R, rows 2, 5 and 7, +9 per mille"


@pytest.mark.parametrize(
    "old, new, is_same",
    [
        ("10.600", "11.900", False),
        ("+9", "-9", False),
        ("(300 m)", "(1900 m)", False),
        ("rows 2, 5 and 7", "row 4", True),
        ("rows 2, 5 and 7", "rows 3 to 9", True),
        ("and by", "but by", True),
    ],
)
def test_an_entry_is_of_the_numbers_of_the_sentence(
    monkeypatch: pytest.MonkeyPatch, old: str, new: str, is_same: bool
) -> None:
    """A row that is added elsewhere, and other words, change nothing."""
    monkeypatch.setattr(accepted, "_texts", lambda item: [ALONE])
    remarks = [Remark("E19", Location(), each) for each in (SENTENCE, SENTENCE.replace(old, new))]
    assert old in SENTENCE and (len({accepted.checksum([each]) for each in remarks}) == 1) == is_same

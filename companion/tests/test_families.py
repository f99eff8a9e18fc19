"""`check` with the findings of the program and the rules over the line: one list, one verdict, one status."""
from __future__ import annotations

import csv
import io
import json
import re
from pathlib import Path
from typing import Any, Callable, Dict, List

import link_tables
import pytest
from cases_of_program import TOP
from conftest import Run, set_day
from link_tables import authority, telegram
from meaning_line import Line
from telegrams import ALONE, OTHER, SPARE, account, digest
from test_links import FOLDER
from test_meaning import written

from balisekit.engine.program import Program, Text
from balisekit.io import csv_writing
from balisekit.present import headings
from balisekit.rules import families
from balisekit.rules.accepted import COLUMNS, OF_FAMILIES, ON_CORRECT_DATA
from balisekit.rules.links import RULES
from balisekit.rules.rule import Rule, Urgency

pytestmark = pytest.mark.uncovered
Write = Callable[..., Path]
Form = Any
SIGNED = {"reason": "looked at", "who": "J. Doe", "date": "2026-01-02"}
PROVED, OWN = "findings of the program, proved:", "links, by balisekit's own rules L1 to L9, not proved:"
MEANT = "remarks on what the data mean, by balisekit's own rules, not proved:"


@pytest.fixture(autouse=True)
def day(monkeypatch: pytest.MonkeyPatch) -> None:
    """2026-05-28."""
    set_day(monkeypatch, 1780000000)


def line(program: Program, path: Path, *changes: Callable[[List[Any]], None]) -> Path:
    """The line of examples/links with these changes."""
    rows = link_tables.rows_of()
    for change in changes:
        change(rows)
    path.write_text(link_tables.table(program, rows), "utf-8")
    return path


def fault(name: str) -> Callable[[List[Any]], None]:
    """The change of an example with a fault."""
    return link_tables.FAULTS[name][1]


def proposed(run: Run, path: Path, file: Path, *words: object) -> List[Dict[str, str]]:
    """The entries that are proposed."""
    file.unlink(missing_ok=True)
    run("check", path, *words, "--propose", file)
    return list(csv.DictReader(io.StringIO(file.read_text("utf-8"))))


def entries(file: Path, *rows: Dict[str, str]) -> Path:
    """A file of entries."""
    cells = [[row.get(name, "") for name in COLUMNS] for row in rows]
    file.write_text(csv_writing.text(COLUMNS, cells), "utf-8")
    return file


def _no_gradient(rows: List[Any]) -> None:
    del rows[1][4]["packets"][1]


def test_two_parts_one_verdict(run: Run, program: Program, tmp_path: Path) -> None:
    """F10 in the first part, L2 in the second one, and both in the last line."""
    path = line(program, tmp_path / "t.csv", fault("distance-differs"), _no_gradient)
    status, out, _ = run("check", path)
    assert status == 1 and out[-1] == 'program: "no: findings 1"; links: 1 found (L2 1)'
    first, second = out.index(PROVED), out.index(OWN)
    assert first < out.index("    program: F10 group 0 nominal: no gradient") < second
    assert out[second + 1] == "at worst a wrong position of the train:" and out[second + 2].startswith(
        'row 2  A  km 10.000  balise "A1" (N_PIG 0)  nominal: L2: packet 5 (linking), first in the telegram, '
    )
    assert out[second + 3].startswith("compared: 3 links (L1, L2), ")


def test_only(run: Run, program: Program, tmp_path: Path) -> None:
    path = line(program, tmp_path / "t.csv", fault("distance-differs"))
    assert run("check", path, "--only", "F")[::2] == (0, [])
    status, out, _ = run("check", path, "--only", "F")
    assert out[1:] == ["aspects found: 1 in 4 groups", account(6), 'program: "yes: groups 4, messages 0"']
    status, out, _ = run("check", path, "--only", "L")
    assert status == 1 and PROVED not in out and OWN in out and out[-1] == "links: 1 found (L2 1)"
    assert run("check", path, "--only", "l,f") == run("check", path, "--only", "F,L")
    assert run("check", path, "--only", "e,l,f") == run("check", path)
    status, out, _ = run("check", path, "--only", "E")
    assert status == 0 and out[1:] == [
        f"{MEANT} none",
        "note: D: Q_LINK 0, so L9 and E17 look for no link to the group",
        "aspects found: 1 in 4 groups",
        "not judged: 6 telegrams in rows 2 to 7: --only E leaves out the program's findings F",
        "account: 6 telegrams in the file; 0 judged, 0 refused, 6 not judged; rows 2 to 7",
        "remarks: none found",
    ]
    assert run("check", path, "--only", "F,L", "--tolerance", "5")[0] == 0
    assert run("check", path, "--tolerance", "8")[0] == 0
    assert run("check", path, "--only", "F", "--tolerance", "5")[2] == [
        "balisekit: --tolerance is not used with --only F"
    ]
    for wrong in ("G", "F,,L", "", "FL"):
        assert run("check", path, "--only", wrong)[0] == 2


def test_the_program_says_yes_and_a_rule_does_not(run: Run, program: Program, tmp_path: Path) -> None:
    status, out, _ = run("check", line(program, tmp_path / "t.csv", fault("distance-differs")))
    assert status == 1 and out[-1] == 'program: "yes: groups 4, messages 0"; links: 1 found (L2 1)'
    assert f"{PROVED} none" in out
    status, out, _ = run("check", line(program, tmp_path / "t.csv"))
    assert status == 0 and out[-1] == 'program: "yes: groups 4, messages 0"' and f"{OWN} none" in out


def test_no_kilometres(run: Run, table: Write) -> None:
    """The status comes from the other rules. If there are no others, the table is refused."""
    path = table("group,telegram", f"A,{ALONE}", f"B,{OTHER}")
    status, out, _ = run("check", path)
    assert status == 0 and out[-3:] == [
        "no kilometres: rules over the line are not applied",
        account(2),
        'program: "yes: groups 2, messages 0"',
    ]
    assert not any("not applied" in line for line in run("check", path, "--only", "F")[1])
    for only in ("L", "L,X"):
        status, out, err = run("check", path, "--only", only)
        assert (status, out) == (2, []) and err[0].endswith("no row has a kilometre: links needs the column km")


def test_a_rule_that_looks_at_nothing_is_no_success(run: Run, table: Write, program: Program, tmp_path: Path) -> None:
    """Without a direction along the kilometres L3 compares no link, beside a yes, and beside a refused telegram."""
    rows = csv.DictReader((FOLDER / "line.csv").read_text("utf-8").splitlines())
    lines = [f"{row['group']},10,{row['telegram']}" for row in rows if row["group"] in "AB"]
    status, out, _ = run("check", table("group,km,telegram", *lines))
    assert status == 2 and out[-1].startswith("INCOMPLETE: L3 compared none of ")
    assert '; program: "yes: groups 2, messages 0"; ' in out[-1]
    status, out, _ = run("check", table("group,km,telegram", *lines, f"X,20,{SPARE}"))
    said = "INCOMPLETE: 1 of 5 telegrams refused, 1 of 3 groups left out; L3 compared none of "
    assert status == 2 and out[-1].startswith(said)


def test_one_file_accepts_both(run: Run, program: Program, tmp_path: Path) -> None:
    """Proposed, signed and accepted; for one family the entries of the other one are named, and are not at fault."""
    path = line(program, tmp_path / "t.csv", fault("orientation-differs"), _no_gradient)
    rows = proposed(run, path, tmp_path / "p.csv")
    assert [(row["rule"], row["balise"], row["packet"], row["direction"]) for row in rows] == [
        ("F10", "", "", "nominal"),
        ("L3", "0", "0", "nominal"),
    ]
    file = entries(tmp_path / "a.csv", *({**row, **SIGNED} for row in rows))
    status, out, _ = run("check", path, "--accepted", file)
    assert status == 0 and out[-3:] == [
        'program: "no: findings 1"; links: 1 found (L3 1)',
        "findings 1, links 1: accepted 2, open 0; accepted though no case of correct data has them: L3 1",
        "no open findings, links or remarks; accepted though no case of correct data has them: L3 1",
    ]
    assert out.count("    accepted: looked at (J. Doe, 2026-01-02)") == 2
    status, out, _ = run("check", path, "--accepted", file, "--only", "F")
    assert status == 0 and "note: 1 entry is for rules that were not applied, or not in full: L3" in out
    entries(file, {**rows[0], **SIGNED})
    status, out, _ = run("check", path, "--accepted", file)
    assert status == 1 and out[-1] == "findings 1, links 1: accepted 1, open 1"
    entries(file, *({**row, **SIGNED} for row in rows), {**rows[1], **SIGNED, "rule": "L2"})
    status, out, _ = run("check", path, "--accepted", file)
    assert status == 1 and f"{file}: row 4: unused: it matches no finding" in out


@pytest.mark.parametrize("name", sorted(link_tables.FAULTS))
def test_each_remark_can_be_accepted(run: Run, program: Program, tmp_path: Path, name: str) -> None:
    """And other telegrams of its location open it again."""
    path = line(program, tmp_path / "t.csv", fault(name))
    rows = proposed(run, path, tmp_path / "p.csv")
    file = entries(tmp_path / "a.csv", *({**row, **SIGNED} for row in rows))
    assert len(rows) == 1 and run("check", path, "--accepted", file)[0] == 0

    def changed(items: List[Any]) -> None:
        for item in items:
            item[4]["m_mcount"] = 7

    other = line(program, tmp_path / "other.csv", fault(name), changed)
    status, out, _ = run("check", other, "--accepted", file)
    assert status == 1 and f"{file}: row 2: the telegrams or values have changed since 2026-01-02" in out


def test_other_kilometres_open_a_remark(run: Run, program: Program, tmp_path: Path) -> None:
    """10 m were looked at, and the same telegrams are 990 m apart from the kilometres of the next table."""
    path = line(program, tmp_path / "t.csv", fault("distance-differs"))
    (row,) = proposed(run, path, tmp_path / "p.csv")
    file = entries(tmp_path / "a.csv", {**row, **SIGNED})
    assert run("check", path, "--accepted", file)[0] == 0
    text = path.read_text("utf-8")
    for old, new in (("B1,11.000", "B1,10.020"), ("B2,10.997", "B2,10.017")):
        assert old in text
        text = text.replace(old, new)
    path.write_text(text, "utf-8")
    status, out, _ = run("check", path, "--accepted", file)
    assert status == 1 and f"{file}: row 2: the telegrams or values have changed since 2026-01-02" in out


def test_another_group_that_is_passed_over_opens_a_remark(run: Run, program: Program, tmp_path: Path) -> None:
    path = line(program, tmp_path / "t.csv", fault("group-passed-over"))
    (row,) = proposed(run, path, tmp_path / "p.csv")
    file = entries(tmp_path / "a.csv", {**row, **SIGNED})
    assert row["rule"] == "L9" and run("check", path, "--accepted", file)[0] == 0
    (new,) = program.encode([telegram(9, 0, 0, 1, {"nid_packet": 44, "q_dir": 2, "l_packet": 23, "body": ""})])
    with open(path, "a", encoding="utf-8") as table:
        table.write(f"N,N1,11.500,rising,{new.line}\n")
    assert run("check", path, "--accepted", file)[0] == 1


ENTRY = {"nid_c": "1", "nid_bg": "1", **SIGNED, "sha256": "0" * 64}


@pytest.mark.parametrize(
    "fields, column, why",
    [
        ({"rule": "F14", "aspect": "*"}, "aspect", "F14 is not accepted by *"),
        ({"rule": "F14", "until": "2026-12-31", "direction": "*"}, "direction", "F14 is not accepted by *"),
        ({"rule": "F8", "aspect": "*", "balise": "0"}, "aspect", "F8 is not accepted by * as aspect"),
        ({"rule": "L3", "aspect": "*", "until": "2026-12-31"}, "aspect", "L3 is not accepted by * as aspect"),
        ({"rule": "F10", "nid_c": "", "nid_bg": "", "message": "m", "direction": "*"}, "until", "an entry with * that"),
        ({"rule": "L10"}, "rule", f"L10 is none of F1 to F16, {OF_FAMILIES}"),
        ({"rule": "L0"}, "rule", f"L0 is none of F1 to F16, {OF_FAMILIES}"),
    ],
)
def test_entries_that_are_too_broad(
    run: Run, table: Write, tmp_path: Path, fields: Dict[str, str], column: str, why: str
) -> None:
    """They are refused with their row."""
    path = table("group,telegram", f"A,{ALONE}", f"B,{ALONE}")
    file = entries(tmp_path / "a.csv", {**ENTRY, "rule": "F14"}, {**ENTRY, **fields})
    status, out, err = run("check", path, "--accepted", file)
    assert (status, out) == (2, []) and err[0].startswith(f"balisekit: {file}: row 3, column {column}: {why}")


def test_rules_of_the_table_of_correct_data() -> None:
    """Those that findings.md lists there, and no others."""
    page = (TOP / "docs" / "findings.md").read_text("utf-8").split("## Findings on correct data")[1].split("\n## ")[0]
    rows = [line.split(" | ") for line in page.splitlines() if line.startswith("| ")][1:]
    rules = {word for row in rows for word in re.findall(r"\bF[0-9]+\b", row[1])}
    assert len(rows) == 9 and rules == {rule for rule in ON_CORRECT_DATA if rule[0] == "F"}


def switched(program: Program, counters: str, speeds: List[int]) -> List[str]:
    """A fixed balise, and one with these counters and speeds in aspects a, b and c."""
    lines = ["group,aspect,telegram"]
    for aspect, counter, speed in zip("abc", counters, speeds):
        packets: List[Form] = authority()
        packets[0]["v_main"] = speed
        forms = [telegram(1, 0, 1, 1), {**telegram(1, 1, 1, 1, *packets, size=830), "m_mcount": int(counter)}]
        lines += [f"A,{aspect},{one.line}" for one in program.encode(forms) if isinstance(one, Text)]
    return lines


@pytest.mark.parametrize(
    "counters, speeds, has_reason",
    [("777", [10, 20, 30], True), ("778", [10, 20, 30], False), ("777", [10, 20, 20], False)],
    ids=["one counter", "two counters", "two equal aspects"],
)
def test_a_reason_is_true_of_the_data(
    run: Run, table: Write, program: Program, tmp_path: Path, counters: str, speeds: List[int], has_reason: bool
) -> None:
    rows = proposed(run, table(*switched(program, counters, speeds)), tmp_path / "p.csv")
    assert rows and {row["rule"] for row in rows} - {"E7"} == {"F16"}
    assert has_reason or ("E7" in {row["rule"] for row in rows}) == (speeds[1] == speeds[2])
    assert all(("one counter in all aspects" in row["reason"]) == has_reason for row in rows)
    assert has_reason or not any(row["reason"] for row in rows)


def test_a_reason_of_the_table_is_not_kept_for_other_data(
    run: Run, table: Write, program: Program, tmp_path: Path
) -> None:
    """The reason of an entry goes into the next proposal, unless it is of the table and no longer true."""
    path = table(*switched(program, "777", [10, 20, 30]))
    rows = proposed(run, path, tmp_path / "p.csv")
    new = table(*switched(program, "777", [10, 20, 20]), name="new.csv")
    file = entries(tmp_path / "a.csv", *({**row, **SIGNED, "reason": row["reason"]} for row in rows))
    assert all(not row["reason"] for row in proposed(run, new, tmp_path / "q.csv", "--accepted", file))
    entries(file, *({**row, **SIGNED} for row in rows))
    assert any(row["reason"] == "looked at" for row in proposed(run, new, tmp_path / "q.csv", "--accepted", file))


def test_what_no_entry_can_name(run: Run, table: Write, program: Program, tmp_path: Path) -> None:
    """A remark at a group of which no telegram was read, and a remark of a message without a name."""
    form = {**link_tables.items()[0][4]}
    message: Form = {
        "nid_message": 3,
        "t_train": 1,
        "m_ack": 0,
        "nid_c": 352,
        "nid_bg": 1,
        "packets": [
            {**authority()[0], "nid_packet": 15, "v_main": None},
            link_tables.linking(1, link_tables.link(5, 77, 1)),
        ],
    }
    del message["packets"][0]["v_main"]
    (text,) = program.encode([message], radio=True)
    (own,) = program.encode([form])
    path = table("group,km,nominal,telegram", f"A,10,rising,{own.line}")
    radio = table(text.line, name="m.txt")
    file = tmp_path / "p.csv"
    _, out, _ = run("check", path, "--messages", radio, "--propose", file)
    assert any(
        one.startswith("no entry can name message of line 1  nominal: L1: packet 5 (linking), second in the message, ")
        for one in out
    )
    rows = list(csv.DictReader(io.StringIO(file.read_text("utf-8"))))
    assert not any(row["rule"] == "L1" and not row["nid_bg"] for row in rows)


def test_every_rule_has_an_urgency() -> None:
    """As its page says."""
    words = {
        Urgency.WRONG_INFORMATION: ("wrong information", "old profile"),
        Urgency.WRONG_PLACE: ("wrong position",),
        Urgency.BRAKING: ("brakes",),
        Urgency.RULE_ONLY: ("To be looked at",),
    }
    for rule in RULES:
        assert any(word in rule.parts["Why it matters"] for word in words[rule.urgency]), rule.name


def test_a_family_can_be_added(run: Run, program: Program, tmp_path: Path, monkeypatch: pytest.MonkeyPatch) -> None:
    """Its rules are applied in its own part, by its letter."""
    rule = Rule("E1", "groups", "E1: nothing.\n", lambda line, options: RULES[0].find(line, options))
    family = families.Family("E", "remarks, by balisekit's own rules E1 to E1, not proved", "remarks", [rule])
    monkeypatch.setitem(families.FAMILIES, "E", family)  # type: ignore[arg-type]
    path = line(program, tmp_path / "t.csv")
    status, out, _ = run("check", path, "--only", "F,L,E")
    assert status == 0 and out.count("remarks, by balisekit's own rules E1 to E1, not proved: none") == 1
    assert json.dumps(out).count("compared: ") == 1


def test_checksums_of_remarks(run: Run, program: Program, tmp_path: Path) -> None:
    """The telegram of the packet, then the values that the rule compared, and the numbers of the sentence."""
    path = line(program, tmp_path / "t.csv", fault("distance-differs"))
    (row,) = proposed(run, path, tmp_path / "p.csv")
    (digits,) = [one.split(",")[-1] for one in path.read_text("utf-8").splitlines() if one.startswith("A,A1")]
    numbers = ["11.000", "1010", "10.000", "1000", "10", "5"]
    assert row["sha256"] == digest([digits, "metres_by_d_link 1010", "metres_by_kilometres 1000", *numbers])


def test_findings_of_correct_data_come_last(run: Run, tmp_path: Path) -> None:
    """A packet 136 of a sound infill is F9: a remark that needs action comes before it, and the counts are apart.

    F9 of the aspect that the remark is about is not expected, and is folded below the remark.
    """
    status, out, _ = run("check", TOP / "examples/meaning/mistakes/E15.csv", "--json", tmp_path / "j.json")
    places = [next(at for at, said in enumerate(out) if words in said) for words in (": E15: ", "infill: expected")]
    assert status == 1 and places == sorted(places) and out[places[1] - 1] == headings.CORRECT
    assert (
        "3 findings of 2 causes, 1 to correct, 2 expected of correct data: F9 3; 6 of 7 groups without finding" in out
    )
    made = json.loads((tmp_path / "j.json").read_text("utf-8"))["entries"]
    assert [(entry["rule"], entry["rows"], entry["rules"]) for entry in made] == [
        ("E15", [16], ["F9", "E15"]),
        ("F9", [15, 17], ["F9"]),
    ]


def test_a_rule_that_compared_nothing_is_not_as_of_most_lines(program: Program, run: Run, tmp_path: Path) -> None:
    """E24 needs five signals. Of four it says why it compared none of their aspects."""
    path = written(program, tmp_path / "t.csv", Line(signals=4))
    short = [line for line in run("check", path)[1] if "(E24)" in line or "by E24" in line]
    why = "aspects with a name that fewer than five signals have"
    assert short == [f"not compared by E24: 12 of 12 aspects of signals ({why}: 12)"]


def test_what_sound_lines_pass_over_is_one_line(run: Run, tmp_path: Path) -> None:
    """With --all, and in JSON, each rule has its reasons. A rule with another reason always has its own line."""
    path = TOP / "examples/meaning/line.csv"
    short = [line for line in run("check", path)[1] if line.startswith("not compared")]
    counts = "3 of 30 ends of authority (E12), 3 of 30 authorities (E17), 3 of 30 ends of authority (E25)"
    assert short == [f"not compared, as of most lines: {counts}; --all lists the reasons"]
    status, out, _ = run("check", path, "--all", "--json", tmp_path / "j.json")
    assert status == 0 and [line for line in out if line.startswith("not compared")] == [
        "not compared by E12: 3 of 30 ends of authority (beyond the last group that gives an authority: 3)",
        "not compared by E17: 3 of 30 authorities (beyond the last linked group of the track: 3)",
        "not compared by E25: 3 of 30 ends of authority (beyond the last group of the track: 3)",
    ]
    rules = json.loads((tmp_path / "j.json").read_text("utf-8"))["rules"]
    assert rules["E25"]["not_looked_at"] == {"beyond the last group of the track": 3}
    cut = TOP / "examples/meaning/mistakes/E30.csv"
    lines = [line for line in run("check", cut)[1] if line.startswith("not compared by")]
    assert lines == [
        "not compared by E25: 5 of 12 ends of authority (not at a group that packets 5 of its message name: 2, beyond "
        "the last group of the track: 3)"
    ]

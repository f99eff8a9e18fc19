"""Accepted findings: an entry accepts the telegrams that somebody has looked at, and no others."""
from __future__ import annotations

import csv
import io
import re
from pathlib import Path
from typing import Any, Callable, Dict, List

import pytest
from conftest import Run, set_day
from link_tables import authority, telegram
from telegrams import ALONE, DEFAULT, MESSAGE, OTHER, digest

from balisekit.engine.program import Program
from balisekit.rules.accepted import COLUMNS

Write = Callable[..., Path]
SIGNED = {"reason": "harmless at the buffer stop", "who": "J. Doe", "date": "2026-01-01"}


@pytest.fixture(autouse=True)
def day(monkeypatch: pytest.MonkeyPatch) -> None:
    """2026-05-28."""
    set_day(monkeypatch, 1780000000)


def signed(run: Run, path: Path, *words: object, **fields: str) -> Path:
    """The entries that are proposed for a table, signed by this reason, name and date."""
    file = path.with_suffix(".accepted.csv")
    run("check", path, *words, "--propose", file)
    rows = list(csv.DictReader(io.StringIO(file.read_text("utf-8"))))
    return entries(file, *({**row, **SIGNED, **fields} for row in rows))


def entries(file: Path, *rows: Dict[str, str], columns: Any = COLUMNS) -> Path:
    """A file of entries."""
    out = io.StringIO(newline="")
    writer = csv.DictWriter(out, columns, restval="", extrasaction="ignore", lineterminator="\n")
    writer.writeheader()
    writer.writerows(rows)
    file.write_text(out.getvalue(), "utf-8")
    return file


def short_gradients(program: Program, missing: int) -> List[str]:
    """A group whose gradients end before its authority does (F11)."""
    packets = authority()
    packets[1]["elements"][-1]["d_gradient"] -= missing
    (answer,) = program.encode([telegram(1, 0, 0, 1, *packets, size=830)])
    return ["group,telegram", f"A,{answer.line}"]


def test_other_data_are_open_again(program: Program, run: Run, table: Write) -> None:
    """10 m were looked at, and 990 m are missing in the next release."""
    path = table(*short_gradients(program, 10))
    file = signed(run, path)
    assert run("check", path, "--accepted", file)[0] == 0
    status, out, _ = run("check", table(*short_gradients(program, 990), name="new.csv"), "--accepted", file)
    assert status == 1 and out[-1] == "findings 1: accepted 0, open 1; entries at fault 1"
    assert f"{file}: row 2: the telegram has changed since 2026-01-01" in out


def test_proposed_names_have_no_control_characters(program: Program, run: Run, table: Write) -> None:
    """They are escaped as in all outputs, and entries with either form are about the same finding."""
    name, shown = "\x1b[2J\u202ered", "\\x1b[2J\\u202ered"
    text = short_gradients(program, 10)[1].partition(",")[2]
    path = table("group,aspect,telegram", f"A,{name},{text}")
    radio = table(f"{MESSAGE};{name}", name="m.txt")
    file = signed(run, path, "--messages", radio, reason=name)
    rows = list(csv.DictReader(io.StringIO(file.read_text("utf-8"))))
    assert {row["aspect"] for row in rows} == {"", shown} and {row["message"] for row in rows} == {"", shown}
    for written in (shown, name):
        renamed = [{**row, **{it: written for it in ("aspect", "message") if row[it]}} for row in rows]
        words = ("--accepted", entries(file, *renamed), "--messages", radio)
        assert run("check", path, *words)[0] == 0
    proposed = path.with_name("again.csv")
    run("check", path, "--accepted", entries(file, {**rows[0], "sha256": ""}), "--propose", proposed)
    assert proposed.read_text("utf-8").replace("\n", "").isprintable() and shown in proposed.read_text("utf-8")


def test_the_reason_goes_into_the_next_proposal(program: Program, run: Run, table: Write, tmp_path: Path) -> None:
    path, new = table(*short_gradients(program, 10)), table(*short_gradients(program, 990), name="new.csv")
    file, proposed = signed(run, path), tmp_path / "proposed.csv"
    assert run("check", new, "--accepted", file, "--propose", proposed)[0] == 1
    (row,) = csv.DictReader(io.StringIO(proposed.read_text("utf-8")))
    assert (row["reason"], row["who"], row["date"]) == (SIGNED["reason"], "", "")
    assert row["sha256"] == digest([short_gradients(program, 990)[1].split(",")[1]])


def test_a_message_is_that_text(run: Run, table: Write) -> None:
    path = table("group,telegram", f"A,{ALONE}")
    first = table(f"{MESSAGE};to train 7", name="m.txt")
    file = signed(run, path, "--messages", first)
    assert run("check", path, "--messages", first, "--accepted", file)[0] == 0
    second = table(f"{MESSAGE[:10]}2{MESSAGE[11:]};to train 7", name="n.txt")
    status, out, _ = run("check", path, "--messages", second, "--accepted", file)
    assert status == 1 and f"{file}: row 2: the message has changed since 2026-01-01" in out


def test_both_groups_of_an_identity_are_looked_at(run: Run, table: Write) -> None:
    """F14 is accepted for two groups. Fill bits of the first one change, then the case of its digits only."""
    path = table("group,telegram", f"A,{ALONE}", f"B,{ALONE}")
    file = signed(run, path)
    assert run("check", path, "--accepted", file)[0] == 0
    for text, status in ((ALONE[:-4] + "7fc0", 1), (ALONE.upper(), 0), (OTHER, 1)):
        new = table("group,telegram", f"A,{text}", f"B,{ALONE}", name="new.csv")
        assert run("check", new, "--accepted", file)[0] == status, text


def test_entries_without_a_checksum_accept_nothing(run: Run, table: Write, tmp_path: Path) -> None:
    """A file of an earlier release is read; each entry is at fault, and its reason goes into the proposal."""
    path = table("group,telegram", f"A,{ALONE}", f"B,{ALONE}")
    old = entries(tmp_path / "old.csv", {"rule": "F14", "nid_c": "1", "nid_bg": "1", **SIGNED}, columns=COLUMNS[:-1])
    status, out, _ = run("check", path, "--accepted", old, "--propose", tmp_path / "new.csv")
    assert status == 1 and f"{old}: row 2: no sha256" in out
    assert any(line.startswith("note: entries without a sha256: 1. They accept nothing") for line in out)
    (row,) = csv.DictReader(io.StringIO((tmp_path / "new.csv").read_text("utf-8")))
    entries(old, {**row, **SIGNED})
    assert row["reason"] == SIGNED["reason"] and run("check", path, "--accepted", old)[0] == 0


def test_a_cell_without_a_heading(run: Run, table: Write) -> None:
    """Its heading may have been deleted by mistake. Without its last day the entry would accept for ever."""
    path = table("group,telegram", f"A,{ALONE}", f"B,{ALONE}")
    heading, row = signed(run, path, until="2026-01-02").read_text("utf-8").splitlines()
    for lines in ((heading.replace("until", ""), row), (f"{heading},", f"{row},withdrawn")):
        file, number = table(*lines, name="without.csv"), lines[0].split(",").index("") + 1
        err = [f"balisekit: {file}: row 2: cell {number} is not empty, and has no heading"]
        assert run("check", path, "--accepted", file) == (2, [], err)


STAR = {"nid_c": "1", "nid_bg": "1", **SIGNED}


@pytest.mark.parametrize(
    "fields, column",
    [
        ({name: "*" for name in COLUMNS[:8]}, "rule"),
        ({**STAR, "rule": "*"}, "rule"),
        ({**STAR, "rule": "F14", "nid_bg": "*"}, "nid_c"),
        ({**STAR, "rule": "F14", "nid_c": "*"}, "nid_c"),
        ({**STAR, "rule": "F10", "nid_c": "", "nid_bg": "", "message": "*"}, "message"),
        ({**STAR, "rule": "F10", "nid_c": "*", "nid_bg": "*", "message": "*"}, "nid_c"),
        ({**SIGNED, "rule": "F10"}, "message"),
    ],
)
def test_a_rule_and_an_identity_or_a_message_are_needed(
    run: Run, table: Write, tmp_path: Path, fields: Dict[str, str], column: str
) -> None:
    path = table("group,telegram", f"A,{ALONE}", f"B,{ALONE}")
    file = entries(tmp_path / "a.csv", {**SIGNED, **fields})
    status, out, err = run("check", path, "--accepted", file)
    assert (status, out) == (2, []) and err[0].startswith(f"balisekit: {file}: row 2, column {column}: ")


def test_what_a_star_accepts_is_counted(run: Run, table: Write, tmp_path: Path) -> None:
    path = table("group,telegram", f"A,{DEFAULT}", f"B,{ALONE}", f"C,{ALONE}")
    file = signed(run, path)
    one, *others = csv.DictReader(io.StringIO(file.read_text("utf-8")))
    assert one["rule"] == "F6"
    entries(file, {**one, "balise": "*", "sha256": ""}, *others)
    said = "\n".join(run("check", path, "--accepted", file)[1])
    found = re.search("row 2: no sha256: the sha256 of the finding that it fits is ([0-9a-f]{64})", said)
    assert found and found[1] != one["sha256"]
    entries(file, {**one, "balise": "*", "sha256": found[1]}, *others)
    status, out, _ = run("check", path, "--accepted", file)
    assert status == 0
    assert out[-2:] == ["findings 2: accepted 2 (1 by *), open 0", "no open findings or remarks; accepted by *: 1"]


def test_a_message_with_the_name_star_has_none(run: Run, table: Write, tmp_path: Path) -> None:
    path, radio = table("group,telegram", f"A,{ALONE}"), table(f"{MESSAGE};*", name="m.txt")
    proposed = tmp_path / "p.csv"
    status, out, _ = run("check", path, "--messages", radio, "--propose", proposed)
    notes = [line for line in out if line.startswith("no entry can name message of line 1  *  nominal: no packet ")]
    assert status == 1 and len(notes) == 2 and out[-1].startswith('program: "no')
    assert all(note.endswith(" (its message has no name of its own)") for note in notes)
    assert proposed.read_text("utf-8") == ",".join(COLUMNS) + "\n"
    out = run("check", path, "--messages", radio, "--accepted", proposed, "--propose", tmp_path / "q.csv")[1]
    assert all(out.count(note) == 1 for note in notes)
    assert not set(notes) & set(run("check", path, "--messages", radio)[1])


@pytest.mark.parametrize(
    "fields, why",
    [
        ({"reason": "\u200b"}, "no reason"),
        ({"reason": "\u3164 \u00ad"}, "no reason"),
        ({"reason": "---"}, "no reason"),
        *[({"reason": reason}, "no reason") for reason in ("n/a", "N.A.", "-", "tbd", "T.B.C.", "?", "none", "xxx")],
        ({"who": "\u2060"}, "no who"),
        ({"date": "2999-01-01"}, "date 2999-01-01 is after the day of the run, 2026-05-28"),
        ({"date": "2026-05-30"}, "date 2026-05-30 is after the day of the run, 2026-05-28"),
        ({"date": "0001-01-01"}, "date 0001-01-01 is before 2000"),
        ({"until": "2025-12-31"}, "until 2025-12-31 is before date 2026-01-01"),
        ({"sha256": "0" * 64}, "the telegrams have changed since 2026-01-01"),
        ({"sha256": "", "date": ""}, "no sha256, no date"),
    ],
)
def test_entries_that_are_not_in_order(run: Run, table: Write, fields: Dict[str, str], why: str) -> None:
    path = table("group,telegram", f"A,{ALONE}", f"B,{ALONE}")
    file = signed(run, path, **fields)
    status, out, _ = run("check", path, "--accepted", file)
    assert status == 1 and f"{file}: row 2: {why}" in out
    assert out[-1] == "findings 1: accepted 0, open 1; entries at fault 1"


def test_the_day_after_the_run_counts(run: Run, table: Write) -> None:
    """Whoever signs may live east of Greenwich."""
    path = table("group,telegram", f"A,{ALONE}", f"B,{ALONE}")
    assert run("check", path, "--accepted", signed(run, path, date="2026-05-29"))[0] == 0

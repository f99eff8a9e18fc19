"""What is expected on correct data: never said of an aspect that another rule calls wrong, and of one kilometre."""
from __future__ import annotations

import csv
import json
from pathlib import Path
from typing import Any, Dict, List

from conftest import Run
from meaning_line import Line, Row
from meaning_mistakes import INFILL, all_of, movement_authority, set_in
from test_corrections import moved
from test_meaning import written

from balisekit.engine.program import Program

PROFILES = (21, 27)
END_MARK = {"d_gradient": 100, "q_gdir": 1, "g_a": 255}


def without_profiles(rows: List[Row]) -> None:
    """Stop aspects have no profiles, as many designs do."""
    for row in rows:
        if row.aspect == "red":
            row.form["packets"] = [each for each in row.form["packets"] if each["nid_packet"] not in PROFILES]


def exchanged(rows: List[Row]) -> None:
    """Red and green of signal 9 have the packets of each other."""
    red, green = (
        next(row for row in rows if (row.group, row.aspect) == ("Signal 9", each)).form for each in ("red", "green")
    )
    red["packets"], green["packets"] = green["packets"], red["packets"]


def entries(run: Run, path: Path) -> List[Dict[str, Any]]:
    """The entries of the JSON, and of each those that are folded below it."""
    output = path.with_suffix(".json")
    assert run("check", path, "--json", output, "--force")[0] == 1
    found: List[Dict[str, Any]] = json.loads(output.read_text("utf-8"))["entries"]
    return [each for entry in found for each in (*entry["folded"], entry)]


def test_no_aspect_that_is_wrong_is_expected(run: Run, program: Program, tmp_path: Path) -> None:
    """F10 and F12 of the aspect "green" with the packets of a stop are to be corrected, and no reason is proposed."""
    path = written(program, tmp_path / "t.csv", Line(), without_profiles, exchanged)
    found = [each for each in entries(run, path) if "F10" in each["rules"]]
    green = [each for each in found if each["group"] == "Signal 9"]
    assert green and not any(each["expected"] for each in green)
    assert sum(bool(each["expected"]) for each in found) >= 1
    proposal = tmp_path / "proposal.csv"
    run("check", path, "--propose", proposal)
    with proposal.open(encoding="utf-8", newline="") as file:
        reasons = {
            (row["nid_bg"], row["aspect"]): row["reason"] for row in csv.DictReader(file) if row["rule"] == "F10"
        }
    assert reasons["9", "green"] == "" and reasons["8", "red"].startswith("Stop aspect")


def test_no_infill_that_is_wrong_is_expected(run: Run, program: Program, tmp_path: Path) -> None:
    """Neither F9 nor F11 and F13 of an infill that E15 names. Those of the other aspects of the group are expected."""
    change_all = all_of(
        set_in("Infill of Signal 4", "yellow", 12, l_endsection=2500),
        set_in("Infill of Signal 4", "green", 21, elements=[{"d_gradient": 0, "q_gdir": 1, "g_a": 3}, END_MARK]),
    )
    path = written(program, tmp_path / "t.csv", INFILL, change_all)
    found = entries(run, path)
    doubted = {row for each in found if each["rule"] == "E15" for row in each["rows"]}
    assert len(doubted) == 2 and {"F9", "F11", "F13"} <= {rule for each in found for rule in each["rules"]}
    assert not [each for each in found if each["expected"] and not doubted.isdisjoint(each["rows"])]
    assert [each["rows"] for each in found if each["expected"]] == [[15]]
    proposal = tmp_path / "proposal.csv"
    run("check", path, "--propose", proposal)
    with proposal.open(encoding="utf-8", newline="") as file:
        reasons = {row["aspect"]: row["reason"] for row in csv.DictReader(file) if row["rule"] == "F9"}
    assert reasons["yellow"] == reasons["green"] == "" != reasons["red"]


def test_no_message_that_is_wrong_is_expected(run: Run, program: Program, tmp_path: Path) -> None:
    """F10 and F12 of a message without profiles, whose group the table does not have."""
    path, messages = written(program, tmp_path / "t.csv", Line()), tmp_path / "m.txt"
    for group, is_expected in ((3, True), (77, False)):
        form = movement_authority(group)
        form["packets"] = form["packets"][:1]
        (text,) = program.encode([form], radio=True)
        messages.write_text(f"{text.line}\n", "utf-8")
        output = tmp_path / "t.json"
        run("check", path, "--messages", messages, "--json", output, "--force")
        found = json.loads(output.read_text("utf-8"))["entries"]
        own = [each for entry in found for each in (entry, *entry["folded"]) if each["rule"] == "F10"]
        assert own and {bool(each["expected"]) for each in own} == {is_expected}, own


def test_a_counter_without_packet_254_is_no_default_telegram(run: Run, program: Program, tmp_path: Path) -> None:
    def counter(rows: List[Row]) -> None:
        row = next(row for row in rows if (row.group, row.aspect) == ("Signal 9", "green"))
        row.form["m_mcount"] = 254

    found = entries(run, written(program, tmp_path / "t.csv", Line(), counter))
    assert any("F6" in each["rules"] for each in found) and not any(each["expected"] for each in found)


def one_kilometre(rows: List[Row]) -> None:
    """Both balises of each group have the kilometre of the first one."""
    places: Dict[str, int] = {}
    for row in rows:
        row.place = places.setdefault(row.group, row.place)


def test_one_kilometre_for_a_group(run: Run, program: Program, tmp_path: Path) -> None:
    """Links show the direction of each group, so rules over the line compare what they had to."""
    path = written(program, tmp_path / "t.csv", Line(), one_kilometre)
    status, out, _ = run("check", path)
    assert status == 0 and not any("INCOMPLETE" in line for line in out), out
    (note,) = (line for line in out if line.startswith("note:"))
    assert note.endswith("one kilometre for all balises, so the direction along the kilometres is taken from links")
    assert any("39 links (L1, L2)" in line for line in out)
    wrong = written(program, tmp_path / "w.csv", Line(), one_kilometre, moved("Signal 9", 270))
    assert entries(run, wrong)[-1]["sentence"].endswith("at km 22.000 they would agree")


def test_an_orientation_is_compared_with_the_own_links(run: Run, program: Program, tmp_path: Path) -> None:
    def turned(rows: List[Row]) -> None:
        row = next(row for row in rows if row.group == "Signal 5" and row.balise == 0)
        link = next(each for each in row.form["packets"] if each["nid_packet"] == 5)["links"][0]
        link["q_linkorientation"] = 1 - link["q_linkorientation"]

    path = written(program, tmp_path / "t.csv", Line(), one_kilometre, turned)
    (entry,) = entries(run, path)
    assert entry["rule"] == "L3" and "by the links of its own it is passed in nominal direction" in entry["sentence"]


def test_stop_aspects_are_one_entry(run: Run, program: Program, tmp_path: Path) -> None:
    """With their number, and each of them on demand, in JSON and among the entries that are proposed."""
    path = written(program, tmp_path / "t.csv", Line(), without_profiles)
    output = tmp_path / "t.json"
    status, out, _ = run("check", path, "--json", output)
    (entry,) = json.loads(output.read_text("utf-8"))["entries"]
    assert status == 1 and len(entry["folded"]) == 15 and len(entry["program"]) == 30
    assert entry["expected"] == "stop aspect: expected" and entry["sentence"].startswith("15 stop aspects of 15 groups")
    assert "    folded below it: 15 entries (F10 15, F12 15); --folded lists them" in out
    assert not any(line.startswith("    program:") for line in out)
    listed = run("check", path, "--folded")[1]
    assert sum(line.startswith("    program:") for line in listed) == 30
    assert sum("; stop aspect: expected" in line for line in listed) == 16
    proposal = tmp_path / "proposal.csv"
    run("check", path, "--propose", proposal)
    assert len(proposal.read_text("utf-8").splitlines()) == 31

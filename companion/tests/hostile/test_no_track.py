"""A group without a track, beside groups that have one: rules compare it with none of them, and each output says so."""

from __future__ import annotations

import csv
import json
import xml.etree.ElementTree as ElementTree
from pathlib import Path
from typing import Any, Callable, Dict, List, Tuple

import pytest
from cases_of_program import TOP
from conftest import Run

EXAMPLE = TOP / "examples/meaning/mistakes/E13.csv"
OF_LINKS = "no track, although other groups have one: L2, L3 and L9 compare no link between it and these"
OF_PLACES = "no track, although other groups have one, so E12 to E19 and E22 compare it with none of these"
Write = Callable[..., Path]


def lines_with(tracks: Dict[str, str]) -> List[str]:
    """The lines of the example, on the track 1 but for these groups."""
    with open(EXAMPLE, encoding="utf-8", newline="") as file:
        rows = [{**row, "track": tracks.get(row["group"], "1")} for row in csv.DictReader(file)]
    return [",".join(rows[0]), *(",".join(row.values()) for row in rows)]


def notes(out: List[str]) -> List[str]:
    """The notes on tracks."""
    return [line for line in out if line.startswith("note: ") and "no track" in line]


def skipped(path: Path) -> List[Tuple[str, str]]:
    """The suite and the name of each case that is skipped for its track."""
    suites = ElementTree.parse(path).getroot().findall("testsuite")
    cases = [(suite.get("name", ""), case) for suite in suites for case in suite.findall("testcase")]
    found = [(suite, case.get("name", ""), case.find("skipped")) for suite, case in cases]
    return [(suite, name) for suite, name, why in found if why is not None and "no track" in why.get("message", "")]


def test_check_names_a_group_without_a_track(run: Run, table: Write, tmp_path: Path) -> None:
    """Text, JSON and JUnit name it, and no reason says that it is on another track, or alone on its own."""
    files = [tmp_path / "a.json", tmp_path / "a.xml"]
    _, out, _ = run("check", table(*lines_with({"Signal 3": ""})), "--json", files[0], "--junit", files[1])
    wanted = [f"Signal 3: {OF_LINKS}", f"Signal 3: {OF_PLACES}"]
    assert notes(out) == [f"note: {each}" for each in wanted]
    answer: Dict[str, Any] = json.loads(files[0].read_text("utf-8"))
    assert [note for note in answer["notes"] if "no track" in note] == wanted
    assert [(each["family"], each["group"]) for each in answer["passed_over"]] == [("L", "Signal 3"), ("E", "Signal 3")]
    assert [name for _, name in skipped(files[1])] == ["Signal 3", "Signal 3"]
    assert "another track" not in json.dumps(answer)
    assert any("not compared: 5 links between a group without a track and one with a track" in line for line in out)
    assert "not compared by E14: 5 of 12 links (no track: 5)" in out
    assert "not compared by E13: 2 of 12 profiles of groups (no track: 2)" in out
    assert not any("another track" in line or "only group" in line for line in out)


def test_links_and_the_page_name_it(run: Run, table: Write, tmp_path: Path) -> None:
    path, page = table(*lines_with({"Signal 3": ""})), tmp_path / "page.html"
    _, out, _ = run("links", path, "--json", tmp_path / "a.json")
    assert notes(out) == [f"note: Signal 3: {OF_LINKS}"]
    assert out[-1].endswith("; not compared: 5 links between a group without a track and one with a track")
    answer = json.loads((tmp_path / "a.json").read_text("utf-8"))
    assert f"Signal 3: {OF_LINKS}" in answer["notes"]
    assert [answer["rules"][rule]["not_looked_at"] for rule in ("L2", "L3", "L9")] == [{"no track": 5}] * 3
    pytest.importorskip("jinja2")
    run("report", path, "--html", page)
    assert f"Signal 3: {OF_LINKS}" in page.read_text("utf-8")


def test_groups_that_are_compared_with_each_other(run: Run, table: Write, tmp_path: Path) -> None:
    """Neighbours without a track have links that are compared: the notes name both, and JUnit skips neither."""
    junit = tmp_path / "a.xml"
    _, out, _ = run("check", table(*lines_with({"Signal 3": "", "Signal 4": ""})), "--junit", junit)
    assert notes(out) == [f"note: Signal 3, Signal 4: {OF_LINKS}", f"note: Signal 3, Signal 4: {OF_PLACES}"]
    assert skipped(junit) == []


def test_groups_far_apart_are_not_compared_with_each_other(run: Run, table: Write, tmp_path: Path) -> None:
    """No packet 5 leads from one to the other one."""
    junit = tmp_path / "a.xml"
    run("check", table(*lines_with({"Signal 1": "", "Signal 6": ""})), "--junit", junit)
    assert [name for _, name in skipped(junit)] == ["Signal 1", "Signal 6"] * 2


@pytest.mark.parametrize("tracks", [{}, {f"Signal {number}": "" for number in range(1, 7)}, {"Signal 3": "2"}])
def test_tables_whose_groups_all_have_a_track_or_none(run: Run, table: Write, tracks: Dict[str, str]) -> None:
    out = run("check", table(*lines_with(tracks)))[1]
    assert notes(out) == [] and not any("(no track" in line or "without a track" in line for line in out)

"""The rules E: sound lines get no remark, and one changed field gets the remark of its rule."""
from __future__ import annotations

import copy
import json
from dataclasses import replace
from decimal import Decimal
from pathlib import Path
from typing import Any, Callable, List

import meaning_line
import pytest
import rules_page
from conftest import Run
from meaning_line import SOUND, Line, Row, change

from balisekit.engine.program import Program
from balisekit.present.explanations import WHOLE
from balisekit.rules import checking, meaning
from balisekit.rules.line import Line as LineOfTable
from balisekit.rules.rule import Options, Remark
from balisekit.tables import reader

pytestmark = pytest.mark.uncovered
Change = Callable[[List[Row]], Any]
NAMES = [rule.name for rule in meaning.RULES]


def written(program: Program, path: Path, line: Line = Line(), *changes: Change) -> Path:
    """The table of a line with these changes of its rows."""
    rows = copy.deepcopy(line.rows)
    for each in changes:
        each(rows)
    path.write_text(meaning_line.table(program, rows), "utf-8")
    return path


def remarks(program: Program, path: Path, options: Options = Options(), names: List[str] = NAMES) -> List[Remark]:
    """What the rules with these names remark on a table, those that are off by default too."""
    line = LineOfTable.of(checking.check(program, reader.read(str(path))), options.jumps)
    return [each for rule in meaning.RULES if rule.name in names for each in rule.find(line, options).found]


@pytest.mark.parametrize("name", SOUND)
def test_sound_lines(run: Run, program: Program, tmp_path: Path, name: str) -> None:
    status, out, _ = run("check", written(program, tmp_path / "t.csv", SOUND[name]), "--only", "E", "--rules", "all")
    assert status == 0 and out[-1] == "remarks: none found", out
    assert (meaning_line.FOLDER / f"{name}.csv").read_text("utf-8") == (tmp_path / "t.csv").read_text("utf-8")


def test_pages() -> None:
    """Each has all paragraphs and how sure the rule is. A rule below 85 % is off."""
    for rule in meaning.RULES:
        assert tuple(rule.parts) == WHOLE, rule.name
        sure = int(rule.parts["How sure"].split(" ", 1)[0])
        assert rule.is_default == (sure >= 85) and "%" in rule.parts["How sure"]


def _copied(rows: List[Row]) -> None:
    """The packets of green at yellow of signal 4."""
    yellow, green = (next(row for row in rows if (row.group, row.aspect) == ("Signal 4", each)) for each in AHEAD)
    yellow.form["packets"] = green.form["packets"]


AHEAD = ("yellow", "green")


def test_e7(run: Run, program: Program, tmp_path: Path) -> None:
    path = written(program, tmp_path / "t.csv", Line(), _copied)
    status, out, _ = run("check", path)
    speed = change(Line().rows, "Signal 4", "green", 12)["v_main"] * 5
    assert status == 1 and out[-1] == 'program: "yes: groups 15, messages 0"; remarks: 1 found (E7 1)'
    assert (
        'rows 16 to 17  Signal 4  km 14.503  aspects "yellow", "green": E7: the aspects "yellow", "green" have the '
        f"same packets in every balise, with V_MAIN {speed} km/h: one of them may be a copy"
    ) in out


def test_e7_of_stop_aspects_is_a_note(run: Run, program: Program, tmp_path: Path) -> None:
    def stop(rows: List[Row]) -> None:
        for row in rows:
            if row.aspect == "yellow" and row.group in ("Signal 4", "Signal 5"):
                row.form["packets"] = next(
                    each for each in rows if (each.group, each.aspect) == (row.group, "red")
                ).form["packets"]

    status, out, _ = run("check", written(program, tmp_path / "t.csv", Line(), stop), "--only", "E")
    assert "aspects found: 3 in 15 groups" in out and out[-1] == "remarks: 2 found (E9 2)" and status == 1
    assert sum('V_MAIN of the aspect "yellow" is 0 km/h [0], and in 13 of 15 cases' in each for each in out) == 2
    note = "E7: in 2 groups aspects without a V_MAIN above 0 have the same packets, such as the aspects "
    assert f'note: {note}"red", "yellow" of Signal 4' in out


def _moved(metres: int) -> Change:
    """The second balise of signal 4 is this far from the first one."""

    def move(rows: List[Row]) -> None:
        for row in rows:
            if row.group == "Signal 4" and row.balise == 1:
                row.place = 14_500 + metres

    return move


@pytest.mark.parametrize(
    "metres, fast, found",
    [(33, 0, 1), (13, 0, 0), (14, 0, 1), (2, 0, 0), (1, 200, 1), (2, 200, 0), (2, 300, 0), (3, 301, 1), (4, 301, 0)],
)
def test_e11(program: Program, tmp_path: Path, metres: int, fast: int, found: int) -> None:
    """12 m and 2.3 m, 3 m above 180 km/h, or 5 m above 300 km/h, with one unit of the last decimal."""
    options = Options(line_speed=fast or None)
    made = remarks(program, written(program, tmp_path / "t.csv", Line(), _moved(metres)), options)
    own = [each for each in made if each.location.group and each.location.group.group.name == "Signal 4"]
    assert [(each.rule, each.values["spacing_m"]) for each in own] == [("E11", Decimal(metres))] * found
    assert own == made or fast > 300  # (the other groups have 3 m)


def test_e11_of_a_balise_without_a_kilometre(program: Program, tmp_path: Path) -> None:
    """The balises on both sides of it are no neighbours, and may be more than 12 m apart."""

    def third(rows: List[Row]) -> None:
        own = [row for row in rows if row.group == "Signal 4"]
        for row in own:
            row.form["n_total"], row.place = 2, 14_500 + 8 * row.balise
        rows.insert(
            rows.index(own[-1]) + 1,
            replace(own[0], name="Signal 4 3", place=14_516, balise=2, form={**own[0].form, "n_pig": 2, "packets": []}),
        )

    path = written(program, tmp_path / "t.csv", Line(), third)
    path.write_text(path.read_text("utf-8").replace(",14.508,", ",,"), "utf-8")
    assert not remarks(program, path)


def test_e11_and_the_column_nominal(run: Run, program: Program, tmp_path: Path) -> None:
    path = written(program, tmp_path / "t.csv")
    head, *rows = path.read_text("utf-8").splitlines()
    lines = [f"{head},nominal", *(f"{row},{'falling' if row.startswith('Signal 4,') else ''}" for row in rows)]
    path.write_text("\n".join(lines), "utf-8")
    (one,) = remarks(program, path)
    assert one.rule == "E11" and one.sentence == (
        "the column nominal says falling, and the kilometres of the balises rise in nominal direction, from km 14.500 "
        "to km 14.503"
    )


def test_e11_needs_kilometres(run: Run, program: Program, tmp_path: Path) -> None:
    """The other rules E are applied to a table without."""
    path = written(program, tmp_path / "t.csv", Line(), _copied, _moved(33))
    head, *rows = [line.split(",") for line in path.read_text("utf-8").splitlines()]
    path.write_text("\n".join(",".join([*row[:2], *row[3:]]) for row in (head, *rows)), "utf-8")
    status, out, _ = run("check", path)
    assert status == 1 and out[-1].endswith("; remarks: 1 found (E7 1)")
    assert "no kilometres: rules over the line are not applied" in out


def test_other_outputs(run: Run, program: Program, tmp_path: Path) -> None:
    """A remark is in the JSON and in a proposal. Once signed, the entry accepts it."""
    path = written(program, tmp_path / "t.csv", Line(), _copied)
    run("check", path, "--json", tmp_path / "a.json")
    answer = json.loads((tmp_path / "a.json").read_text("utf-8"))
    (entry,) = answer["entries"]
    assert (entry["rule"], entry["proved"], entry["rows"], entry["aspects"]) == ("E7", False, [16, 17], list(AHEAD))
    assert answer["rules"]["E7"]["looked_at"] == 15 and not answer["rules"]["E7"]["not_looked_at"]
    signed = _signed(run, path, tmp_path)
    status, out, _ = run("check", path, "--accepted", signed)
    assert status == 0 and out[-1] == "no open findings, links or remarks"
    other = written(program, tmp_path / "t.csv", Line(), _copied, _farther)
    assert run("check", other, "--accepted", signed)[0] == 1


def test_report(run: Run, program: Program, tmp_path: Path) -> None:
    """A remark is in the report, and is accepted there by a signed entry."""
    pytest.importorskip("jinja2")
    path = written(program, tmp_path / "t.csv", Line(), _copied)
    page = tmp_path / "r.html"
    assert run("report", path, "--html", page)[0] == 1
    assert page.read_text("utf-8").count("have the same packets in every balise") == 3  # (its flag has it, too)
    signed = _signed(run, path, tmp_path)
    assert run("report", path, "--html", page, "--force", "--accepted", signed)[0] == 0
    assert "accepted: one aspect (J. Doe, 2026-01-02)" in page.read_text("utf-8")


def _signed(run: Run, path: Path, folder: Path) -> Path:
    """The entry that is proposed for the remark of a table, signed."""
    proposal, signed = folder / "p.csv", folder / "s.csv"
    run("check", path, "--propose", proposal)
    text = proposal.read_text("utf-8")
    assert text.splitlines()[1].startswith("E7,352,4,,,,,,,,,,")
    signed.write_text(text.replace("E7,352,4,,,,,,,,,,", "E7,352,4,,,,,,one aspect,J. Doe,2026-01-02,,"), "utf-8")
    return signed


def _farther(rows: List[Row]) -> None:
    """The authority of yellow and green of signal 4 is 10 m longer."""
    change(rows, "Signal 4", "green", 12)["l_endsection"] += 10


def test_explain(run: Run, program: Program, tmp_path: Path) -> None:
    out = run("check", written(program, tmp_path / "t.csv", Line(), _copied), "--explain")[1]
    assert "E7: aspects that say the same" in out and any("How sure. 93 %, by" in line for line in out)


def test_explain_of_a_rule_in_small_letters(run: Run) -> None:
    page = run("check", "e9", "--explain")
    assert page[0] == 0 and page == run("check", "E9", "--explain")


def test_the_page_is_made_of_the_rules() -> None:
    for document, rules in rules_page.DOCUMENTS.items():
        text = document.read_text("utf-8")
        assert rules_page.page(text, rules) == text

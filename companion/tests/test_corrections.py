"""One cause, one entry: a correction stands for the entries that it removes, and no finding is lost below it."""
from __future__ import annotations

import json
import re
from decimal import Decimal
from pathlib import Path
from typing import Any, Callable, Dict, Iterator, List, Sequence, Tuple, cast

import entries_of_mistakes
import meaning_line
import pytest
from cases_of_program import TOP
from conftest import Run
from meaning_line import Line, Row
from meaning_mistakes import form_of
from test_added_rules import rule as rule_file
from test_meaning import Change, written

from balisekit.engine.program import Program
from balisekit.engine.records import Form
from balisekit.rules import applied, checking, families
from balisekit.rules.corrections import kilometres
from balisekit.rules.corrections.correction import Correction, Evidence, Stage
from balisekit.rules.families import FAMILIES, apply, items_of
from balisekit.rules.line import Line as Railway
from balisekit.rules.rule import Options, Result, Rule
from balisekit.tables import reader

BOTH = meaning_line.SOUND["both-directions"]


def of_signal(name: str, **values: Any) -> Change:
    """Other values in the headers of all telegrams of a group."""

    def change(rows: List[Row]) -> None:
        for row in rows:
            if row.group == name:
                row.form.update(values)

    return change


def moved(name: str, metres: int) -> Change:
    """A group at another kilometre of the table. Its telegrams and the links to it are as they were."""

    def change(rows: List[Row]) -> None:
        for row in rows:
            row.place += metres if row.group == name else 0

    return change


def turned(rows: List[Row]) -> None:
    """The balises of signal 9 have the kilometres of each other."""
    own = [row for row in rows if row.group == "Signal 9"]
    places = {row.balise: row.place for row in own}
    for row in own:
        row.place = places[1 - row.balise]


def exchanged(rows: List[Row]) -> None:
    """Red and green of signal 9 have the telegrams of each other."""
    red, green = ([row for row in rows if (row.group, row.aspect) == ("Signal 9", each)] for each in ("red", "green"))
    for one, other in zip(red, green):
        one.form, other.form = other.form, one.form


def exchanged_with_infill(rows: List[Row]) -> None:
    """Yellow and green of signal 9 have the telegrams of each other, with their counters, and its infill is right."""
    yellow, green = (row for row in rows if row.group == "Signal 9" and row.aspect in ("yellow", "green"))
    yellow.form, green.form = green.form, yellow.form


def answers(run: Run, path: Path, *words: str) -> Tuple[List[str], Dict[str, Any]]:
    """The lines of the answer, and its JSON."""
    output = path.with_suffix(".json")
    status, out, _ = run("check", path, "--json", output, *words)
    assert status == 1
    found: Dict[str, Any] = json.loads(output.read_text("utf-8"))
    return out, found


@pytest.mark.parametrize(
    "change, signals, rows, sentence",
    [
        (
            lambda rows: form_of(rows, "Signal 6", "*").update(m_version=32),
            6,
            [22],
            "M_VERSION is 32 (2.0), and 33 (2.1) in all 5 other groups: with 33 all would agree",
        ),
        (lambda rows: form_of(rows, "Signal 3", "*").update(m_version=32), 5, [11, 12, 13], ""),
        (
            lambda rows: form_of(rows, "Signal 3", "red").update(m_mcount=2),
            6,
            [11],
            'M_MCOUNT is 2, and 1 in each "red" of 5 other groups: with 1 all would agree',
        ),
        (lambda rows: form_of(rows, "Signal 3", "red").update(m_mcount=2), 5, [12], ""),
    ],
)
def test_a_header_that_the_rest_of_the_table_corrects(
    run: Run, program: Program, tmp_path: Path, change: Change, signals: int, rows: List[int], sentence: str
) -> None:
    """It is at its own row, although the program compares another one with it. Four other groups are too few."""
    path = written(program, tmp_path / "t.csv", Line(signals=signals), change)
    out, found = answers(run, path)
    (entry,) = found["entries"]
    assert entry["rows"] == rows and len(entry["folded"]) == bool(sentence)
    assert not sentence or entry["sentence"] == sentence and "folded below it: 1 entry (F" in "\n".join(out)


def test_a_kilometre_with_exchanged_digits(run: Run, program: Program, tmp_path: Path) -> None:
    """It is one entry at the rows of the group, which has all others below it. The counts of rules stay."""
    path = written(program, tmp_path / "t.csv", Line(), moved("Signal 9", 270))
    out, found = answers(run, path)
    (entry,) = found["entries"]
    assert entry["sentence"] == (
        "all links to and from Signal 9 differ by 270 m from its kilometre: at km 22.000 they would agree"
    )
    assert entry["rows"] == [34, 35, 36, 37] and entry["rules"] == ["L2", "E13"]
    assert [each["rule"] for each in entry["folded"]] == ["L2", "L2", "E13"]
    assert "    folded below it: 3 entries (L2 2, E13 1), gone if it is corrected; --folded lists them" in out
    assert out[-1] == 'program: "yes: groups 15, messages 0"; links: 2 found (L2 2); remarks: 1 found (E13 1)'
    listed, _ = answers(run, path, "--folded", "--force")
    assert sum(line.startswith("      ") for line in listed) == 3
    assert "remarks on what the data mean, by balisekit's own rules, not proved: all folded below other entries" in out


def test_links_that_lead_to_nearly_one_place(run: Run, program: Program, tmp_path: Path) -> None:
    """The sentence does not say that they would agree, but how far from that place they lead."""
    path = written(program, tmp_path / "t.csv", Line(), moved("Signal 9", 270), moved("Signal 7", 4))
    _, found = answers(run, path)
    (sentence,) = {each["sentence"] for each in found["entries"] if "from its kilometre" in each["sentence"]}
    assert re.fullmatch(
        r"(all|\d of \d) links to and from Signal 9 differ by about 2\d\d(\.\d)? m from its kilometre: "
        r"at km 2\d\.\d+ they would differ by at most 4(\.\d)? m",
        sentence,
    )


def test_each_folded_remark_still_has_to_be_accepted(run: Run, program: Program, tmp_path: Path) -> None:
    """Entries that are proposed name each of them, and accept them only together with their data."""
    path = written(program, tmp_path / "t.csv", Line(), moved("Signal 9", 270))
    proposal = tmp_path / "accepted.csv"
    assert run("check", path, "--propose", proposal)[0] == 1
    head, *rows = proposal.read_text("utf-8").splitlines()
    assert [row.split(",")[0] for row in rows] == ["L2", "L2", "E13"]
    signed = [row.replace(",,,,", ",reason,me,2026-11-30,", 1) if ",,,," in row else row for row in rows]
    cells = [row.split(",") for row in rows]
    reason = head.split(",").index("reason")
    for each in cells:
        each[reason : reason + 3] = ["by the plan", "me", "2026-11-30"]
    signed = [",".join(each) for each in cells]
    proposal.write_text("\n".join([head, *signed[:2]]) + "\n", "utf-8")
    status, out, _ = run("check", path, "--accepted", proposal)
    assert status == 1 and any("accepted 2, open 1" in line for line in out)
    proposal.write_text("\n".join([head, *signed]) + "\n", "utf-8")
    assert run("check", path, "--accepted", proposal)[0] == 0


@pytest.mark.parametrize("name, km", [("Signal 9", Decimal("22")), ("Signal R9", Decimal("22.6"))])
def test_other_outputs(run: Run, program: Program, tmp_path: Path, name: str, km: Decimal) -> None:
    """The page, SARIF, the workbook and Python have each folded entry."""
    path = written(program, tmp_path / "t.csv", BOTH, moved(name, 270))
    outputs = {each: tmp_path / f"out.{each}" for each in ("sarif", "json")}
    run("check", path, *(word for each, file in outputs.items() for word in (f"--{each}", file)))
    (entry,) = json.loads(outputs["json"].read_text("utf-8"))["entries"]
    (result,) = json.loads(outputs["sarif"].read_text("utf-8"))["runs"][0]["results"]
    assert all(each["sentence"] in result["message"]["text"] for each in entry["folded"]) and entry["folded"]
    assert f"km {km:.3f}" in entry["sentence"]


def test_balises_in_the_other_order(run: Run, program: Program, tmp_path: Path) -> None:
    path = written(program, tmp_path / "t.csv", Line(), turned)
    _, found = answers(run, path)
    (entry,) = found["entries"]
    assert "the kilometres of the balises of Signal 9 look exchanged" in entry["sentence"]
    assert entry["rows"] == [34, 35, 36, 37] and {each["rule"] for each in entry["folded"]} >= {"L3"}


def test_the_program_is_quoted(run: Run, program: Program, tmp_path: Path) -> None:
    """A fixed balise with a counter of its own: three findings F7 at correct rows, and the verdict is the program's."""

    def counter(rows: List[Row]) -> None:
        next(row for row in rows if row.group == "Signal 9").form["m_mcount"] = 0

    out, found = answers(run, written(program, tmp_path / "t.csv", Line(), counter))
    (entry,) = found["entries"]
    assert entry["sentence"].endswith("a fixed balise has 255") and entry["rows"] == [34]
    assert len(found["findings"]) > 1 and entry["program"] == [each["line"] for each in found["findings"]]
    assert all(f"    program: {line}" in out for line in entry["program"])
    assert out[-1].startswith(f'program: "no: findings {len(found["findings"])}"')
    assert entry["values"] == {"M_MCOUNT": "0"} and entry["proved"]


@pytest.mark.parametrize(
    "line, change, rows, words",
    [
        (Line(), of_signal("Signal 9", nid_bg=77), [34, 35, 36, 37], "name group 9 of country or region 352"),
        (Line(), exchanged, [35, 37], 'the aspects "red" and "green" of Signal 9 look exchanged'),
        (
            Line(infill=(8,)),
            exchanged_with_infill,
            [40, 41],
            'the aspects "yellow" and "green" of Signal 9 look exchanged',
        ),
    ],
)
def test_identities_and_aspects(
    run: Run, program: Program, tmp_path: Path, line: Line, change: Change, rows: List[int], words: str
) -> None:
    _, found = answers(run, written(program, tmp_path / "t.csv", line, change))
    first = found["entries"][0]
    assert words in first["sentence"] and first["rows"] == rows, first["sentence"]
    assert len([each for each in found["entries"] if not each["expected"]]) == 1


def test_added_rules_see_no_correction(run: Run, program: Program, tmp_path: Path) -> None:
    """Corrections are tried out with balisekit's own rules: a rule of users is applied once, and cannot fail there."""
    path = written(program, tmp_path / "t.csv", Line(), moved("Signal 9", 270))
    file = rule_file(tmp_path, answer="yield print('seen')")
    status, out, err = run("check", path, "--rules-from", file)
    assert status == 1 and any("at km 22.000 they would agree" in each for each in out)
    assert err.count("seen") == len(path.read_text("utf-8").splitlines()) - 1


@pytest.mark.parametrize("values", [{"nid_c": 353}, {"nid_bg": 77}, {"nid_c": 353, "nid_bg": 77}])
def test_the_identity_of_one_telegram(run: Run, program: Program, tmp_path: Path, values: Dict[str, int]) -> None:
    """NID_C or NID_BG of one telegram may differ, or both: the finding F3 names only what does."""

    def change(rows: List[Row]) -> None:
        next(row for row in rows if row.group == "Signal 9" and row.balise == 1).form.update(values)

    _, found = answers(run, written(program, tmp_path / "t.csv", Line(), change))
    assert any("the telegram has the identity" in each["sentence"] for each in found["entries"]), found["entries"]


def wrong_place(evidence: Evidence) -> Any:
    """A correction that moves the group, but not to the place on which links agree."""
    group = evidence.groups["Signal 9"]
    cells = {row.number: {"km": (row.km or Decimal()) + Decimal("0.5")} for row in group.each_row}
    yield Correction(group, tuple(cells), "guessed", cells)


def without_kilometre(evidence: Evidence) -> Any:
    """A correction that removes the remarks, because rules L then compare less."""
    group = evidence.groups["Signal 9"]
    cells: Dict[int, Dict[str, Any]] = {row.number: {"km": None} for row in group.each_row}
    yield Correction(group, tuple(cells), "silenced", cells)


@pytest.mark.parametrize("suggest", [wrong_place, without_kilometre])
def test_no_correction_is_guessed(
    program: Program, tmp_path: Path, monkeypatch: pytest.MonkeyPatch, suggest: Any
) -> None:
    """A correction after which other entries are there, or less is compared, explains nothing."""
    path = written(program, tmp_path / "t.csv", Line(), moved("Signal 9", 270))
    made = checking.check(program, reader.read(str(path)))
    monkeypatch.setattr(families, "SUGGESTIONS", (Stage((suggest,), 1),))
    assert len(apply(made, tuple(FAMILIES), Options()).entries) == 3
    monkeypatch.setattr(families, "SUGGESTIONS", (Stage((suggest, kilometres.suggest), 1),))
    outcome = apply(made, tuple(FAMILIES), Options())
    (entry,) = outcome.entries
    assert entry.sentence.startswith("all links") and len(items_of(entry)) == len(outcome.items) == 3


def test_a_large_table_is_not_judged_again(program: Program, tmp_path: Path, monkeypatch: pytest.MonkeyPatch) -> None:
    path = written(program, tmp_path / "t.csv", Line(), moved("Signal 9", 270))
    made = checking.check(program, reader.read(str(path)))
    monkeypatch.setattr("balisekit.rules.corrections.trying.JUDGED", 60 + 3)  # (its telegrams and its entries)
    assert len(apply(made, tuple(FAMILIES), Options()).entries) == 1
    monkeypatch.setattr("balisekit.rules.corrections.trying.JUDGED", 60 + 3 - 1)
    assert len(apply(made, tuple(FAMILIES), Options()).entries) == 3


def test_nothing_is_asked_of_a_corrected_table_after_a_new_entry(
    program: Program, tmp_path: Path, monkeypatch: pytest.MonkeyPatch
) -> None:
    """Rules E come first, so that most corrections cost less than all rules."""

    def suggest(evidence: Evidence) -> Iterator[Correction]:
        group = evidence.groups["Signal 9"]
        row = group.aspects[0].rows[1].number
        yield Correction(group, (row,), "", forms={row: cast(Form, {**evidence.forms[row], "packets": []})})

    path = written(program, tmp_path / "t.csv", Line(), moved("Signal 9", 270))
    made = checking.check(program, reader.read(str(path)))
    monkeypatch.setattr(families, "SUGGESTIONS", (Stage((suggest,), 1),))
    asked: List[str] = []
    results_of = applied.results_of

    def noted(line: Railway, options: Options, rules: Sequence[Rule]) -> Iterator[Tuple[Rule, Result]]:
        for rule, result in results_of(line, options, rules):
            asked.append(rule.name)
            yield rule, result

    monkeypatch.setattr(families, "results_of", noted)
    assert len(apply(made, tuple(FAMILIES), Options()).entries) == 3
    assert asked[0] == "E1" and "L1" not in asked


@pytest.mark.slow
def test_entries_of_mistakes() -> None:
    """One mistake of each kind on a line of the examples. Before corrections were tried: mean 3.2, worst 15, 79 %."""
    seen = [each for each in entries_of_mistakes.of_line("meaning/line.csv") if each.entries]
    counts = [len(each.entries) for each in seen]
    assert len(seen) >= 70 and sum(counts) <= 1.3 * len(seen) and max(counts) <= 4
    assert sum(each.is_at_row for each in seen) >= 0.95 * len(seen)


def _changed(path: Path, example: str, change: Callable[[List[List[str]]], None]) -> Path:
    """An example with changed cells. The first list has row 2 of the table."""
    head, *lines = (TOP / "examples" / example).read_text("utf-8").splitlines()
    cells = [line.split(",") for line in lines]
    change(cells)
    path.write_text("\n".join([head, *map(",".join, cells)]) + "\n", "utf-8")
    return path


def _entries_of(run: Run, path: Path) -> List[Dict[str, Any]]:
    """The open entries that are not expected."""
    output = path.with_suffix(".json")
    run("check", path, "--json", output)
    return [each for each in json.loads(output.read_text("utf-8"))["entries"] if not each["expected"]]


def test_a_correction_may_uncover_another_mistake(run: Run, tmp_path: Path) -> None:
    """With the right kilometres E15 compares an infill that it could not: that entry is not due to the correction."""

    def exchange(cells: List[List[str]]) -> None:
        for row in cells:
            row[2] = {"16.900": "16.903", "16.903": "16.900"}.get(row[2], row[2])

    found = _entries_of(run, _changed(tmp_path / "t.csv", "table/line.csv", exchange))
    (entry,) = [each for each in found if "L2" in each["rules"]]
    assert entry["sentence"].startswith("the kilometres of the balises of Signal D look exchanged")
    assert entry["rows"] == [16, 17, 18, 19] and {"L2", "L3", "E14", "E19"} <= set(entry["rules"])


def test_a_telegram_of_another_group_is_one_entry(run: Run, tmp_path: Path) -> None:
    """Its own group lacks what its telegram should say, and aspects give two packets 12: no mistakes of their own."""

    def copy_down(cells: List[List[str]]) -> None:
        cells[12][-1] = cells[11][-1]

    (entry,) = _entries_of(run, _changed(tmp_path / "t.csv", "meaning/both-directions.csv", copy_down))
    assert entry["rows"] == [14] and entry["rule"] == "F3" and len(entry["folded"]) == 17


def test_a_trial_decodes_only_what_it_changes(
    program: Program, tmp_path: Path, monkeypatch: pytest.MonkeyPatch
) -> None:
    """Suggestions need all telegrams: their line and their records. Trials decode only those that differ."""
    path = written(program, tmp_path / "t.csv", Line(), moved("Signal 9", 270))
    made = checking.check(program, reader.read(str(path)))
    counts: List[int] = []
    usual = checking._decoded

    def counted(own: Program, rows: Sequence[Any], known: Any) -> Iterator[Any]:
        counts.append(sum(row.telegram not in known for row in rows))
        return usual(own, rows, known)

    monkeypatch.setattr(checking, "_decoded", counted)
    apply(made, tuple(FAMILIES), Options(), with_causes=False)
    without = len(counts)
    assert len(apply(made, tuple(FAMILIES), Options()).entries) == 1
    assert [count for count in counts[without:] if count] == [60] * (without + 2) and 0 in counts


def of_packet(group: str, aspect: str, number: int, **values: Any) -> Change:
    """Other values in a packet."""
    return lambda rows: meaning_line.change(rows, group, aspect, number).update(values)


@pytest.mark.parametrize(
    "change, rows, words",
    [
        (of_packet("Signal 4", "green", 12, v_main=10), [21], "; row 21 with the packets of row 17 would agree"),
        (
            of_packet("Signal 4", "yellow", 12, l_endsection=1550),
            [20],
            "; row 20 with the packets of row 16 would agree",
        ),
        (of_packet("Infill of Signal 4", "green", 12, v_main=10), [17], "; with the packets of row 21 it would agree"),
        (
            of_packet("Signal 4", "yellow", 12, end_timer={"t_endtimer": 30, "d_endtimerstartloc": 100}),
            [16, 20],
            "; with the packets of row 20 it would agree, or row 20 with the packets of row 16 would agree",
        ),
    ],
)
def test_infill_or_its_signal(
    run: Run, program: Program, tmp_path: Path, change: Change, rows: Any, words: str
) -> None:
    """Either is corrected, whichever leaves no entry. If both do, both are named."""
    (entry,) = _entries_of(run, written(program, tmp_path / "t.csv", Line(signals=6, infill=(3,)), change))
    assert (entry["rule"], entry["rows"]) == ("E15", rows) and entry["sentence"].endswith(words)


def test_a_kilometre_that_one_link_contradicts(run: Run, program: Program, tmp_path: Path) -> None:
    """The entry says which link it is, and that D_LINK may be wrong instead."""
    (entry,) = _entries_of(run, written(program, tmp_path / "t.csv", Line(signals=2), moved("Signal 2", 270)))
    assert entry["rows"] == [6, 7, 8, 9] and entry["sentence"] == (
        "only one link shows that the kilometre of Signal 2 may be wrong: the first link of a packet 5 in Signal 1 "
        "(row 2) differs by 270 m from it. If D_LINK is right, at km 11.500 it would agree"
    )


def test_profiles_that_are_too_long(run: Run, program: Program, tmp_path: Path) -> None:
    """What they say beyond the usual end contradicts another aspect: with the usual end all is well."""

    def longer(rows: List[Row]) -> None:
        for number, key in ((21, "d_gradient"), (27, "d_static")):
            meaning_line.change(rows, "Signal 5", "yellow", number)["elements"][-1][key] += 1500

    (entry,) = _entries_of(run, written(program, tmp_path / "t.csv", Line(), longer))
    assert (entry["rule"], entry["rows"], len(entry["folded"])) == ("E4", [20], 4)
    assert entry["sentence"].endswith("; with that end all would agree")

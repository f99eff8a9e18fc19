"""The certificate: each change is judged as `check` judges the changed table, and each kind of mistake has its page."""
from __future__ import annotations

import csv
import errno
import html
import itertools
import json
import multiprocessing
import os
import re
import subprocess
from collections import Counter
from pathlib import Path
from types import SimpleNamespace
from typing import Any, Dict, List, Optional, Set, Tuple

import certificate_scores
import mistakes_page
import pytest
from conftest import Run
from link_tables import without_orientations
from meaning_line import table
from meaning_mistakes_of_groups import raw

from balisekit.certificate import trials as trials_of_line
from balisekit.certificate.certificate import Certificate
from balisekit.certificate.judging import Answer, Baseline, Judge, Judgement, rows_of_refusal
from balisekit.certificate.same_meaning import same_meaning
from balisekit.certificate.trials import Trial, judged, trials
from balisekit.engine.program import Program
from balisekit.errors import NoAnswer, TableError
from balisekit.mistakes import catalogue
from balisekit.mistakes.mistake import Change, Mistake
from balisekit.mistakes.of_fields import changed
from balisekit.mistakes.of_rows import with_header
from balisekit.mistakes.original import Original
from balisekit.present.certificate_tables import messages_text, table_text
from balisekit.rules import checking
from balisekit.rules.families import FAMILIES, apply
from balisekit.rules.rule import Options
from balisekit.tables import messages as messages_file, reader

TOP = Path(__file__).resolve().parents[2]
LINE = TOP / "examples" / "meaning" / "line.csv"
PARTS = ("In real life", "Here", "For a train")


def baseline_of(program: Program, path: Path, messages: Optional[Path] = None) -> Baseline:
    """A line as `check` judges it."""
    radio = messages_file.read(str(messages)) if messages else None
    outcome = apply(checking.check(program, reader.read(str(path)), radio), tuple(FAMILIES), Options())
    return Baseline(outcome, Judge(tuple(FAMILIES), Options()))


def tried(program: Program, path: Path, per_kind: int) -> Tuple[Baseline, List[Trial]]:
    """The changes of a line."""
    baseline = baseline_of(program, path)
    return baseline, trials(Original(baseline.outcome.checked), per_kind, 1)


def rows_in(line: str) -> Tuple[int, ...]:
    """The rows that a line of standard error names."""
    words = re.sub('"[^"]*"', "", line).replace(",", " , ").replace(":", " ").split()
    found: List[int] = []
    for before, word in zip(words, words[1:]):
        if word.isdigit() and before in ("row", "rows", ",", "and", "to"):
            found += range(found[-1] + 1, int(word) + 1) if before == "to" else [int(word)]
    return tuple(found)


def said(run: Run, answer: Path, *words: object) -> Tuple["Counter[Any]", "Counter[str]"]:
    """The open entries and refusals of `check` by what they say, and its hints."""
    status, _, errors = run("check", *words, "--json", answer, "--force")
    if status == 2 and errors:
        return Counter(("refused", "", rows_in(line), ()) for line in errors), Counter()
    made = json.loads(answer.read_text("utf-8"))
    entries = [each for each in made["entries"] if not each["expected"] and each["state"] == "open"]
    named: List[Any] = [
        (
            each["rule"],
            each["sentence"],
            tuple(sorted({*each["rows"], *each["other_rows"], *([-each["message"]] if each["message"] else [])})),
            (each["group"], tuple(each["aspects"]), each["direction"], each["message"]),
        )
        for each in entries
    ]
    named += [("refused", each["text"], (each["row"],), ()) for each in made["refused"]]
    named += [("refused", each["text"], (-each["line_of_file"],), ()) for each in made["refused_messages"]]
    hints = [*made["table"]["notes"], *made["notes"], *made["counts"]["look"]]
    return Counter(named), Counter(hints)


def slow_answer(before: Tuple[Any, Any], after: Tuple[Any, Any], places: Set[int]) -> Answer:
    """What `check` of a changed file says of a change with these places."""
    new = list((after[0] - before[0]).elements())
    if any(places.intersection(each[2]) for each in new):
        return Answer.FOUND
    gone = {re.sub("[0-9]", "", each) for each in before[1] - after[1]}
    hinted = [each for each in after[1] - before[1] if re.sub("[0-9]", "", each) not in gone]
    return Answer.ELSEWHERE if new else Answer.HINTED if hinted else Answer.NOT_FOUND


def compare(run: Run, program: Program, folder: Path, path: Path, per_kind: int, part: slice) -> int:
    """Compares both ways for a part of the changes, and returns how many were compared."""
    baseline, made = tried(program, path, per_kind)
    changed_file, answer = folder / "changed.csv", folder / "answer.json"
    before = said(run, answer, path)
    compared = 0
    for trial in made[part]:
        if trial.fits:
            quick = judged(baseline, trial).answer
            wanted = Answer.NOT_FOUND if quick is Answer.LEGAL else quick
            changed_file.write_text(table_text(baseline.outcome.checked.table, trial), "utf-8")
            places = {*trial.change.rows, *trial.change.lost}
            slow = slow_answer(before, said(run, answer, changed_file), places)
            assert wanted is slow, (trial.mistake.name, trial.change.words)
            compared += 1
    return compared


@pytest.mark.uncovered
def test_quick_way(run: Run, program: Program, tmp_path: Path) -> None:
    """A change is judged in memory as `check` judges the file. One that is counted apart makes nothing new."""
    assert compare(run, program, tmp_path, LINE, 1, slice(None, None, 9)) > 50


@pytest.mark.uncovered
def test_quick_way_of_messages(run: Run, program: Program, tmp_path: Path) -> None:
    """The same for changes of radio messages: those that two signals would get."""
    messages, answer, changed_file = (tmp_path / name for name in ("m.txt", "a.json", "changed.txt"))
    messages.write_text("\n".join(["", *radio_messages(program)]), "utf-8")
    baseline = baseline_of(program, LINE, messages)
    before, radio = said(run, answer, LINE, "--messages", messages), messages_file.read(str(messages))
    compared: Set[Answer] = set()
    for trial in trials(Original(baseline.outcome.checked), 1, 1)[::3]:
        places = {*trial.change.rows, *trial.change.lost}
        if trial.fits and all(place < 0 for place in places):
            quick = judged(baseline, trial).answer
            changed_file.write_text(messages_text(radio, trial), "utf-8")
            slow = slow_answer(before, said(run, answer, LINE, "--messages", changed_file), places)
            assert slow is (Answer.NOT_FOUND if quick is Answer.LEGAL else quick), trial.change.words
            compared.add(quick)
    assert {Answer.FOUND, Answer.NOT_FOUND} <= compared


def radio_messages(program: Program) -> List[str]:
    """The lines of a file with the authorities of two signals as messages 3."""
    original, lines = Original(baseline_of(program, LINE).outcome.checked), []
    for group in original.groups[2:4]:
        form: Any = original.forms[group.aspects[-1].rows[1].number]
        packets = [{**each, "nid_packet": 15} if each["nid_packet"] == 12 else each for each in form["packets"]]
        packets[0] = {key: value for key, value in packets[0].items() if key != "v_main"}
        about = {"nid_message": 3, "t_train": 100, "m_ack": 0, "nid_c": form["nid_c"], "nid_bg": form["nid_bg"]}
        (text,) = program.encode([{**about, "packets": packets}], radio=True)
        lines.append(f"{text.line};to {group.name}")
    return lines


def test_examples(run: Run, program: Program, tmp_path: Path) -> None:
    """The example of each kind is a file, and `check` of it answers as the certificate says."""
    path, folder, messages = TOP / "examples" / "links" / "line.csv", tmp_path / "examples", tmp_path / "m.txt"
    messages.write_text("\n".join(radio_messages(program)), "utf-8")
    words = [path, "--messages", messages]
    certificate, answer = tmp_path / "c.json", tmp_path / "a.json"
    made = ["--per-kind", 1, "--json", certificate, "--examples", folder]
    status, out, _ = run("certify", *words, *made)
    assert status == 0
    places = {(each["kind"], each["change"]): each for each in json.loads(certificate.read_text("utf-8"))["changes"]}
    before, written = said(run, answer, *words), [line for line in out if line.startswith("written: ")]
    assert sorted(folder.iterdir()) == sorted(Path(line.split(": ")[1]) for line in written)
    assert {Path(line.split(": ")[1]).suffix for line in written} == {".csv", ".txt"}
    for line in written[::8]:
        _, file, wanted, change = line.split(": ", 3)
        each = places[Path(file).stem.replace("-", " "), change]
        changed_words = [path, "--messages", file] if file.endswith(".txt") else [file, *words[1:]]
        lost = {number for number, row in enumerate(Path(file).read_text("utf-8").split("\n"), 1) if not row.strip(",")}
        own = {*each["rows"], *lost, *(-number for number in each["messages"])}
        assert slow_answer(before, said(run, answer, *changed_words), own).value == each["answer"] == wanted, line
    assert "not empty" in run("certify", *words, "--examples", folder)[2][0]


@pytest.mark.long
@pytest.mark.parametrize("first", range(4))
@pytest.mark.parametrize("name", ["line.csv", "level-border.csv"])
def test_quick_way_of_others(run: Run, program: Program, tmp_path: Path, name: str, first: int) -> None:
    """The same for two thousand changes."""
    assert compare(run, program, tmp_path, LINE.with_name(name), 2, slice(first, None, 4)) > 250


def test_the_same_seed(program: Program) -> None:
    """The same line and seed give the same changes, and another seed gives others."""
    original = Original(baseline_of(program, LINE).outcome.checked)
    words = [[trial.change.words for trial in trials(original, 1, seed)] for seed in (1, 1, 2)]
    assert words[0] == words[1] != words[2]


@pytest.mark.parametrize("mistake", catalogue(), ids=[mistake.name for mistake in catalogue()])
def test_page(mistake: Mistake) -> None:
    """Each kind says what goes wrong in real life, how it is made here, and what it could do to a train."""
    assert tuple(mistake.parts) == PARTS
    assert mistake.page.split("\n")[0].endswith(".")


def test_page_of_all() -> None:
    """docs/mistakes.md is what the catalogue has."""
    assert mistakes_page.PAGE.read_text("utf-8") == mistakes_page.page()


@pytest.mark.uncovered
@pytest.mark.parametrize("name", certificate_scores.NAMES)
def test_scores(program: Program, tmp_path: Path, name: str) -> None:
    """The stored scores are of the changes that are made now, and a sample of those that were found is still found.

    certificate_scores.py judges all of them, and names each kind of which less is found.
    """
    baseline, made = certificate_scores.changes(program, tmp_path, name)
    stored = {key.kind: answers for key, answers in certificate_scores.stored().items() if key.line == name}
    assert Counter(trial.mistake.name for trial in made) == {kind: len(stored[kind]) for kind in stored if kind}
    left = {kind: iter(answers) for kind, answers in stored.items()}
    found = [trial for trial in made if next(left[trial.mistake.name]) == "F"]
    for trial in found[:: certificate_scores.SAMPLE]:
        assert judged(baseline, trial).answer is Answer.FOUND, (trial.mistake.name, trial.change.words)


def test_page_of_scores() -> None:
    """docs/certificate.md has the stored scores, with a reason for each kind below 80 %."""
    assert certificate_scores.PAGE.read_text("utf-8") == certificate_scores.page()
    assert {key.line for key in certificate_scores.stored()} == set(certificate_scores.NAMES)
    kinds = [kind for kinds, _ in certificate_scores.REASONS for kind in kinds]
    assert len(kinds) == len(set(kinds)) and {*kinds} <= {mistake.name for mistake in catalogue()}


@pytest.mark.parametrize("name", certificate_scores.MADE)
def test_made_lines(program: Program, tmp_path: Path, name: str) -> None:
    """The made lines are correct, so no change of them is found because of what was wrong before."""
    path = tmp_path / "line.csv"
    path.write_text(table(program, certificate_scores.MADE[name]()), "utf-8")
    outcome = baseline_of(program, path).outcome
    assert outcome.whole and all(entry.expected for entry in outcome.entries)


def test_less_is_found() -> None:
    """A kind of which less is found than before is named."""
    key = certificate_scores.Key("a line", "a tenth")
    assert certificate_scores.lower({key: "FFNN"}, {key: "FNNN"}) == ["a line: a tenth: 50 % found before, 25 % now"]
    assert certificate_scores.lower({key: "FF"}, {key: "FFFN"}) == ["a line: a tenth: 100 % found before, 75 % now"]
    assert not certificate_scores.lower({key: "FFN"}, {key: "FFF"})
    assert not certificate_scores.lower({key: "FFN"}, {key: "FFFN"}) and not certificate_scores.lower({}, {key: "N"})


def test_json(run: Run, tmp_path: Path) -> None:
    """The JSON fits its schema, and has the last line of the text."""
    path = tmp_path / "a.json"
    status, lines, _ = run("certify", LINE, "--per-kind", 1, "--minutes", "0.02", "--json", path)
    answer = json.loads(path.read_text("utf-8"))
    jsonschema = pytest.importorskip("jsonschema")
    jsonschema.validate(answer, json.loads((TOP / "schemas" / "kit-certificate.json").read_text("utf-8")))
    assert (status, answer["last_line"]) == (0, lines[-1])
    assert answer["not_tried"] and f"{answer['not_tried']:,} more were not tried" in lines[-1]
    assert (answer["incomplete"], answer["notes"]) == ([], [line for line in lines if line.startswith("account: ")])
    counts = [sum(each[key] for key in ("tried", "legal", "does_not_fit")) for each in answer["kinds"].values()]
    assert sum(counts) == len(answer["changes"])


def test_one_change_of_several_kinds(program: Program) -> None:
    """A change that several kinds make has one answer. It counts in each of these kinds, and once in all together."""
    baseline, made = tried(program, LINE, 1)
    several = Counter(trial.edit for trial in made)
    twice = [trial for trial in made if several[trial.edit] == 2][:2]
    assert len({trial.mistake.name for trial in twice}) == 2 and len({trial.edit for trial in twice}) == 1
    judgement = judged(baseline, twice[0])
    certified = Certificate(baseline.outcome, [(trial, judgement) for trial in twice], 0, 1, 1)
    assert [score.tried for score in (certified.whole, *certified.by_kind().values())] == [1, 1, 1]


@pytest.mark.parametrize("cut", [False, True])
def test_incomplete(run: Run, tmp_path: Path, cut: bool) -> None:
    """If the line itself cannot be judged completely, the status is 2, and all outputs give the reasons of `check`."""
    pytest.importorskip("jinja2")
    path, answer, page = (tmp_path / name for name in ("t.csv", "a.json", "a.html"))
    path.write_text(
        "\n".join(["group,km,telegram", *without_orientations(), *([f"C,20,{'0' * 53}"] if cut else [])]), "utf-8"
    )
    _, checked, _ = run("check", path)
    status, out, _ = run("certify", path, "--minutes", "0.01", "--json", answer, "--html", page)
    made = json.loads(answer.read_text("utf-8"))
    begin = f"INCOMPLETE: {', '.join(made['incomplete'])}; of "
    assert status == 2 and out[-1].startswith(begin) and made["last_line"] == out[-1]
    assert all(reason in checked[-1] for reason in made["incomplete"])
    assert any(reason.startswith("L3 compared none of ") for reason in made["incomplete"])
    assert ("1 of 5 telegrams refused" in made["incomplete"]) is ("1 of 3 groups left out" in made["incomplete"]) is cut
    assert html.escape(begin) in page.read_text("utf-8")
    _, _, errors = run("certify", path, "--minutes", "0.01", "--json", "-")
    assert errors[-1].startswith(begin)


def test_notes(run: Run, tmp_path: Path) -> None:
    """What `check` says of how the inputs were read is said here, too: notes, no kilometres and entries at fault."""
    rows = list(csv.DictReader((TOP / "examples" / "links" / "line.csv").read_text("utf-8").splitlines()))
    path, settings, entries, answer = (tmp_path / name for name in ("t.csv", "balisekit.toml", "e.csv", "a.json"))
    path.write_text("\n".join(["group,telegram", *(f"{row['group']},{row['telegram']}" for row in rows)]), "utf-8")
    settings.write_text('[columns]\nname = "Balise"\n', "utf-8")
    columns = "rule,nid_c,nid_bg,message,aspect,balise,packet,direction,reason,who,date,sha256"
    entries.write_text(f"{columns}\nF1,1,2,,,0,,,none,N. N.,2026-01-01,{'0' * 64}\n", "utf-8")
    words = [path, "--accepted", entries]
    _, checked, _ = run("check", *words)
    status, out, _ = run("certify", *words, "--minutes", "0.01", "--json", answer)
    begins = ("note: ", "no kilometres: ", "account: ", f"{entries}: row 2: ")
    rules = "note: D: Q_LINK 0, so L9 and E17 look for no link to the group"
    said = [line for line in checked if line.startswith(begins) and line != rules]
    assert status == 0 and {begin for begin in begins for line in said if line.startswith(begin)} == {*begins}
    assert set(said) <= set(out)
    notes = json.loads(answer.read_text("utf-8"))["notes"]
    assert "no kilometres: rules over the line are not applied" in notes and any("row 2: " in note for note in notes)


def test_cover_of_a_report(run: Run, tmp_path: Path) -> None:
    """The cover has the last line of a certificate of the same check, and no other one."""
    pytest.importorskip("jinja2")
    path, page, others = tmp_path / "a.json", tmp_path / "r.html", TOP / "examples" / "meaning" / "falling.csv"
    _, lines, _ = run("certify", LINE, "--per-kind", 1, "--minutes", "0.02", "--json", path)
    assert run("report", LINE, "--html", page, "--certificate", path)[0] == 0
    assert lines[-1] in page.read_text("utf-8")
    changed: List[List[object]] = [[LINE, "--tolerance", 3], [others], [LINE, "--line-speed", 200]]
    for words in changed:
        status, _, errors = run("report", *words, "--html", page, "--force", "--certificate", path)
        assert status == 2 and "was made with other" in errors[0]
    for words in ([LINE, "--full"], [LINE, "--aspect", "green"]):
        assert run("report", *words, "--html", page, "--force", "--certificate", path)[0] == 0
        assert lines[-1] in page.read_text("utf-8")
    path.write_text("[]", "utf-8")
    status, _, errors = run("report", LINE, "--html", page, "--force", "--certificate", path)
    assert status == 2 and "no certificate" in errors[0]


def change(made: Any, *path: Any) -> None:
    """Puts the last item of the path in the place that the others lead to, or deletes it if that is None."""
    *keys, last, value = path
    for key in keys:
        made = made[key]
    if value is None:
        del made[last]
    else:
        made[last] = value


def test_a_certificate_that_was_changed(run: Run, tmp_path: Path) -> None:
    """The line on the cover is made of the figures, which have to agree."""
    pytest.importorskip("jinja2")
    path, page = tmp_path / "a.json", tmp_path / "r.html"
    run("certify", LINE, "--per-kind", 1, "--minutes", "0.05", "--json", path)
    right = json.loads(path.read_text("utf-8"))
    kind = next(name for name, each in right["kinds"].items() if each["found"] < each["tried"])
    field = next(iter(right["fields"]))
    found = right["whole"]["found"]
    all_found = {**right["whole"], "found": right["whole"]["tried"], "share": 100}
    all_found.update(elsewhere=0, hinted=0, not_found=0)
    at = next(at for at, each in enumerate(right["changes"]) if each["answer"] != "found")
    for words in (
        ["last_line", right["last_line"].replace(f" {found:,} ", f" {found + 1:,} ")],
        ["whole", "found", found + 1],
        ["whole", all_found],
        ["whole", "share", 100],
        ["kinds", kind, None],
        ["kinds", kind, "found", right["kinds"][kind]["tried"]],
        ["fields", field, None],
        ["not_tried", right["not_tried"] + 1],
        ["not_tried", -1],
        ["incomplete", ["1 of 5 telegrams refused"]],
        ["changes", at, "answer", "found"],
        ["changes", at, None],
    ):
        made = json.loads(path.read_text("utf-8"))
        change(made, *words)
        edited = tmp_path / "edited.json"
        edited.write_text(json.dumps(made), "utf-8")
        status, _, errors = run("report", LINE, "--html", page, "--force", "--certificate", edited)
        assert status == 2 and f"{edited}: the certificate was changed: " in errors[0], words
    assert run("report", LINE, "--html", page, "--force", "--certificate", path)[0] == 0


def test_certificate_of_other_files(run: Run, tmp_path: Path) -> None:
    """A certificate is not taken if a file that settings name has another content, or with other accepted entries."""
    pytest.importorskip("jinja2")
    path, page, jumps, entries = (tmp_path / name for name in ("a.json", "r.html", "j.csv", "e.csv"))
    jumps.write_text("km,km_after\n20.000,25.000\n", "utf-8")
    words = [LINE, "--jumps", jumps]
    assert run("certify", *words, "--per-kind", 1, "--minutes", "0.01", "--json", path)[0] == 0
    report = ["report", *words, "--html", page, "--force", "--certificate", path]
    status, _, errors = run(*report)
    assert status in (0, 1) and not errors
    run("check", *words, "--propose", entries)
    status, _, errors = run(*report, "--accepted", entries)
    assert status == 2 and "other accepted" in errors[0]
    jumps.write_text("km,km_after\n20.000,26.000\n", "utf-8")
    status, _, errors = run(*report)
    assert status == 2 and "other settings" in errors[0]


def test_page_of_a_certificate(run: Run, tmp_path: Path) -> None:
    """The page has the last line, a row for each kind, and what is not found."""
    pytest.importorskip("jinja2")
    page = tmp_path / "c.html"
    _, lines, _ = run("certify", LINE, "--per-kind", 1, "--minutes", "0.05", "--html", page)
    text = page.read_text("utf-8")
    assert lines[-1] in text and "By kind of mistake" in text and "Not found, one example of each kind" in text


@pytest.mark.parametrize("words", [["--per-kind", "0"], ["--per-kind", "x"], ["--seed", "0"], ["--minutes", "0"]])
def test_wrong_values(run: Run, words: List[str]) -> None:
    """Numbers that make no sense are refused."""
    assert run("certify", LINE, *words)[0] == 2


def test_names() -> None:
    """No two kinds have one name or one title."""
    for names in ([mistake.name for mistake in catalogue()], [mistake.title for mistake in catalogue()]):
        assert len(set(names)) == len(names)


def test_changes_change(program: Program) -> None:
    """Each change changes something, and names rows of the line."""
    original = Original(baseline_of(program, LINE).outcome.checked)
    for mistake, change in ((each.mistake, each.change) for each in trials(original, 2, 3)):
        assert change.rows and change.rows <= original.rows.keys(), mistake.name
        assert change.forms or change.cells or change.lost or change.texts, mistake.name
        assert any(original.forms[row] != form for row, form in change.forms.items()) or not change.forms, mistake.name


GRADIENTS, SPEEDS = ("packets", 1, "elements"), ("packets", 2, "elements")
"""Where a telegram of a signal has its profiles."""


@pytest.mark.parametrize(
    "row, path, number, legal",
    [
        (3, ("m_mcount",), 7, True),
        (3, ("m_mcount",), 2, False),
        (3, ("m_mcount",), 254, False),
        (3, ("m_mcount",), 255, False),
        (2, ("m_mcount",), 7, False),
        (5, (*GRADIENTS, 3, "q_gdir"), 1, True),
        (5, (*GRADIENTS, 2, "q_gdir"), 1, False),
        (5, (*SPEEDS, 2, "q_front"), 1, True),
        (5, (*SPEEDS, 1, "q_front"), 1, False),
        (5, ("packets", 0, "l_endsection"), 2999, True),
        (5, ("packets", 0, "l_endsection"), 2998, False),
        (5, ("packets", 0, "v_main"), 25, False),
        (3, ("packets", 0, "q_scale"), 2, True),
        (5, ("packets", 0, "q_scale"), 2, False),
        (2, ("packets", 0, "links", 0, "q_locacc"), 6, False),
    ],
)
def test_same_meaning(program: Program, row: int, path: Tuple[object, ...], number: int, legal: bool) -> None:
    """Only what no train can tell from the line is counted apart."""
    original = Original(baseline_of(program, LINE).outcome.checked)
    value = next(each for some in original.values.values() for each in some if (each.row, each.path) == (row, path))
    change = changed(original, value, number)
    assert bool(same_meaning(original, change)) is legal
    assert not same_meaning(original, change._replace(cells={row: {"name": "x"}}))


@pytest.mark.parametrize(
    "before, after, legal",
    [
        ({"d_leveltr": 0}, {"q_scale": 2}, True),
        ({"d_leveltr": 32_767}, {"q_scale": 2}, True),
        ({"d_leveltr": 100}, {"q_scale": 2}, False),
        ({"d_leveltr": 100}, {"d_leveltr": 101}, True),
        ({"d_leveltr": 100}, {"d_leveltr": 101, "transitions": [{"m_leveltr": 3, "l_ackleveltr": 1}]}, False),
        ({"d_leveltr": 100, "q_scale": 2}, {"d_leveltr": 101}, False),
        ({"d_leveltr": 100, "q_scale": 0}, {"d_leveltr": 110}, True),
        ({"d_leveltr": 100, "q_scale": 0}, {"d_leveltr": 111}, False),
        ({"d_leveltr": 32_766}, {"d_leveltr": 32_767}, False),
        ({"d_leveltr": 32_767}, {"d_leveltr": 32_766}, False),
    ],
)
def test_distances(before: Dict[str, Any], after: Dict[str, Any], legal: bool) -> None:
    """A distance may move by one metre. Q_SCALE means nothing without one, and 32,767 is now."""
    order = {"nid_packet": 41, "q_dir": 1, "q_scale": 1, "transitions": [{"m_leveltr": 3, "l_ackleveltr": 0}], **before}
    form: Any = {"m_mcount": 255, "packets": [order]}
    line: Any = SimpleNamespace(forms={2: form}, group_of={})
    changed_form: Any = {**form, "packets": [{**order, **after}]}
    assert bool(same_meaning(line, Change("", frozenset({2}), forms={2: changed_form}))) is legal


@pytest.mark.parametrize(
    "body, legal", [(raw(65, f"01{7:08b}{0:030b}0{12:07b}"), True), (raw(72, "01" + "0" * 80), False)]
)
def test_scale_of_a_packet_that_is_kept_as_bits(body: Any, legal: bool) -> None:
    """Q_SCALE of such a packet means nothing only if its layout is certain, and all of its bits are read."""
    changed_body = {**body, "body": f"{int(body['body'][0], 16) ^ 0xC:x}{body['body'][1:]}"}
    before: Any = {"m_mcount": 255, "packets": [body]}
    after: Any = {"m_mcount": 255, "packets": [changed_body]}
    line: Any = SimpleNamespace(forms={2: before}, group_of={})
    assert bool(same_meaning(line, Change("", frozenset({2}), forms={2: after}))) is legal


@pytest.mark.parametrize("letters", [tuple(FAMILIES), ("L",)])
def test_change_that_is_reported(program: Program, letters: Tuple[str, ...]) -> None:
    """A distance that moves by one metre counts if data no longer cover the authority, whoever asks for the finding."""
    outcome = apply(checking.check(program, reader.read(str(LINE))), letters, Options())
    baseline, original = Baseline(outcome, Judge(letters, Options())), Original(outcome.checked)
    numbers = {("packets", 0, "l_endsection"): (2999, 3001), (*GRADIENTS, 0, "d_gradient"): (1,)}
    answers = []
    for path, some in numbers.items():
        value = next(each for own in original.values.values() for each in own if (each.row, each.path) == (5, path))
        for change in (changed(original, value, number) for number in some):
            trial = Trial(catalogue()[0], change._replace(legal=same_meaning(original, change)), {})
            (text,) = program.encode([change.forms[5]])
            answers.append(baseline.judgement(trial.change, {5: getattr(text, "line", "")}).answer)
    found = Answer.FOUND if "F" in letters else Answer.NOT_FOUND
    assert answers == [Answer.LEGAL, found, Answer.FOUND]


def test_counter_of_one_of_two_balises(program: Program) -> None:
    """Two telegrams of one message need one counter."""
    original = Original(baseline_of(program, LINE).outcome.checked)
    fixed, red = original.forms[2], original.forms[3]
    controlled: Any = {**fixed, "m_mcount": 1}
    original.forms = {**original.forms, 2: controlled}
    for rows, legal in (([3], False), ([2, 3], True)):
        forms: Any = {row: with_header(original.forms[row], m_mcount=7) for row in rows}
        assert bool(same_meaning(original, Change("", frozenset(rows), forms=forms))) is legal
    forms = {3: {**red, "packets": []}}
    assert not same_meaning(original, Change("", frozenset({3}), forms=forms))


def test_time_and_flat_track() -> None:
    """T_TRAIN is set when a message is sent, unless it is unknown. Level track has no direction."""
    flat = {"nid_packet": 21, "elements": [{"d_gradient": 0, "q_gdir": 0, "g_a": 0}]}
    down = {"nid_packet": 21, "elements": [{"d_gradient": 0, "q_gdir": 1, "g_a": 0}]}
    form: Any = {"nid_message": 3, "t_train": 5, "packets": [flat]}
    others: List[Tuple[Any, bool]] = [
        ({"t_train": 6}, True),
        ({"packets": [down]}, True),
        ({"t_train": 2**32 - 1}, False),
    ]
    for other, legal in others:
        line: Any = SimpleNamespace(forms={-1: form}, group_of={})
        changed_form: Any = {**form, **other}
        assert bool(same_meaning(line, Change("", frozenset({-1}), forms={-1: changed_form}))) is legal


def test_packets_of_a_fixed_balise(program: Program) -> None:
    """If a fixed balise gets the packets of one aspect, the message is not the same in the others."""
    _, made = tried(program, LINE, 3)
    assert not [each for each in made if each.mistake.name == "packets in the other balise" and each.change.legal]


@pytest.mark.parametrize("name", ["row of another group", "two groups merged"])
def test_rows_in_the_sentence_of_a_refusal(program: Program, name: str) -> None:
    """A refusal at another row that names the row to correct has found it."""
    baseline, made = tried(program, LINE, 2)
    answers = [judged(baseline, each) for each in made if each.mistake.name == name]
    assert [(each.answer, each.rules) for each in answers] == [(Answer.FOUND, ("refused",))] * 2


def test_line_with_entries_of_one_cause(program: Program, tmp_path: Path) -> None:
    """Entries that the line itself has are not new, also if one entry stands for them."""
    path = tmp_path / "line.csv"
    path.write_text(LINE.read_text("utf-8").replace(",16.0", ",16.4"), "utf-8")
    baseline, made = tried(program, path, 1)
    (entry,) = baseline.outcome.entries
    assert len(entry.folded) > 1
    answers = [judged(baseline, each) for each in made if each.mistake.name == "packet twice"]
    assert not [each for each in answers for other in entry.folded if other.sentence == each.sentence]
    (twice,) = [
        each for each in made if "row 17: packet 27, at place 3 of the telegram, is there twice" in each.change.words
    ]
    assert judged(baseline, twice).answer is Answer.NOT_FOUND


def test_cell_that_is_refused(program: Program) -> None:
    """A changed cell that the reader of tables refuses is found, also if no rule compares its row."""
    baseline, made = tried(program, TOP / "examples" / "links" / "line.csv", 3)
    answers = [judged(baseline, each) for each in made if each.mistake.name == "kilometre in metres"]
    assert [(each.answer, each.rules) for each in answers] == [(Answer.FOUND, ("refused",))] * 3


@pytest.mark.parametrize(
    "why, rows",
    [
        ("row 4 has balise 1 too", {4, 9}),
        ('"row 7" is between rows 3 and 5 of group "row 8"', {3, 5, 9}),
        (
            'aspect "a" has 3 balises (rows 12 to 14), and aspect "b" has 2 (rows 15, 17 and 20)',
            {9, 12, 13, 14, 15, 17, 20},
        ),
        ("no telegram for rows 2, 3 and 8 more", {2, 3, 9}),
        ("empty", {9}),
    ],
)
def test_rows_of_a_refusal(why: str, rows: Set[int]) -> None:
    """The rows that a refusal names are its own and those in its sentence."""
    assert rows_of_refusal(TableError(why, 9)) == rows


def test_note_with_another_number(program: Program) -> None:
    """A note that counts more or fewer than before is no hint. One of another group is."""
    baseline = baseline_of(program, LINE)
    baseline._hints = Counter(["6 groups are not linked", "Signal 3 has no kilometre"])
    for hints, new in (
        (["5 groups are not linked", "Signal 3 has no kilometre"], []),
        (
            ["6 groups are not linked", "Signal 3 has no kilometre", "Signal 4 has no kilometre"],
            ["Signal 4 has no kilometre"],
        ),
    ):
        assert baseline._new_hints(Counter(hints)) == new


@pytest.mark.parametrize("files", [13, 14, 15, 17])
def test_with_few_files(files: int, tmp_path: Path) -> None:
    """Fewer processes judge the changes, or none can be started. The command ends, too."""
    words = ["bash", "-c", f'ulimit -n {files} || exit 9; exec "$@"', "sh", str(TOP / "balisekit"), "certify"]
    words += [str(LINE), "--per-kind", "1", "--minutes", "0.01"]
    known = {**os.environ, "BALISEKIT_PYTHON": "/usr/bin/python3"}
    done = subprocess.run(words, env=known, cwd=tmp_path, capture_output=True, check=False, timeout=100)
    out, err = done.stdout.decode(), done.stderr.decode()
    assert (done.returncode, "more were not tried" in out) in ((0, True), (3, False)), (out, err)
    assert done.returncode == 0 or err.splitlines()[-1].startswith("balisekit: ") and not out


@pytest.mark.parametrize("started", [0, 1, 3])
def test_with_few_processes(started: int, program: Program, monkeypatch: pytest.MonkeyPatch) -> None:
    """Those that could be started give the same answers. All of them end."""
    baseline, made = tried(program, LINE, 1)
    made, calls, real = made[:20], itertools.count(), multiprocessing.Pipe

    def pipe() -> Any:
        if next(calls) >= started:
            raise OSError(errno.EMFILE, os.strerror(errno.EMFILE))
        return real()

    monkeypatch.setattr(trials_of_line, "Pipe", pipe)
    monkeypatch.setattr(os, "sched_getaffinity", lambda _: set(range(4)))
    if started:
        found = trials_of_line.judgements(baseline, made, None, lambda _: None)
        assert found == {place: judged(baseline, trial) for place, trial in enumerate(made)}
    else:
        with pytest.raises(NoAnswer, match="no process can be started: Too many open files"):
            trials_of_line.judgements(baseline, made, None, lambda _: None)
    assert not multiprocessing.active_children()


@pytest.mark.parametrize("how", ["raises", "ends"])
def test_a_process_that_fails(how: str, program: Program, monkeypatch: pytest.MonkeyPatch) -> None:
    """What one raises is raised here, and one that ends too early is named."""

    def fails(*_: object) -> Judgement:
        if how == "ends":
            os._exit(1)
        raise ValueError("no judgement")

    baseline, made = tried(program, LINE, 1)
    monkeypatch.setattr(trials_of_line, "judged", fails)
    why = "no judgement" if how == "raises" else "a process that judges changes has ended too early"
    with pytest.raises(ValueError if how == "raises" else NoAnswer, match=why):
        trials_of_line.judgements(baseline, made[:20], None, lambda _: None)
    assert not multiprocessing.active_children()

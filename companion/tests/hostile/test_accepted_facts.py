"""Accepted entries of each rule: no entry holds after anything changed on which its remark rests.

The answer to a changed line without entries shows what is right: a change that is a fault by itself is never green, and
an entry whose sentence and places are as before holds.
"""
from __future__ import annotations

import csv
import io
import json
import re
from pathlib import Path
from random import Random
from typing import Any, Callable, Iterator, List, Set, Tuple
from xml.etree import ElementTree

import pytest
from cases_of_program import TOP
from conftest import Run, set_day
from meaning_changes import CHANGES, Absent, Case
from meaning_line import SOUND, Row, change
from meaning_line import table as written
from meaning_random import random_line
from plan_example import Cells, rows_of, text_of
from test_accepted_data import signed

from balisekit.engine.program import Program

Write = Callable[..., Path]
EXAMPLES = TOP / "examples"
LEVEL, PLAN = EXAMPLES / "meaning/level-border.csv", EXAMPLES / "meaning/plan.csv"
MISTAKES = sorted([*EXAMPLES.glob("links/*.csv"), *EXAMPLES.glob("meaning/mistakes/*.csv")])
NO_NUMBERS = re.compile(r"\brows? \d+(?:(?: to |, | and )\d+)*|\bline \d+")
BY_MOST = ("E8", "E9")
"""Rules that find nothing any more if another change alters what most groups have."""
ALONE = "a1007f802000ffffffffffffffffffffffffffffffffffffffffc0"
"""A telegram of a group of one balise."""
SIGNALS = (
    "kind,km,way,name",
    *(f"signal,{km / 10:.3f},rising,Signal {at}" for at, km in enumerate(range(115, 341, 15), 2)),
)
MESSAGE = "030c80000000{}b000081e81c501ff8{}080640f00647e1540fc8000090c18642829e40421c3fc6d02b2000100011901fc0"
RIGHT, WRONG = "05dc", "05cd"
"""Where its authority ends: at Signal 6, and 30 m before it."""


@pytest.fixture(autouse=True)
def day(monkeypatch: pytest.MonkeyPatch) -> None:
    """2026-05-28."""
    set_day(monkeypatch, 1780000000)


def answer(run: Run, path: Path, *words: object) -> Any:
    """The JSON of a check."""
    file = path.with_suffix(".json")
    run("check", path, *words, "--force", "--json", file)
    return json.loads(file.read_text("utf-8"))


def at_fault(run: Run, path: Path, *words: object) -> List[str]:
    """Why entries are at fault."""
    return [each["why"] for each in answer(run, path, *words)["accepted"]["at_fault"]]


def said(entry: Any) -> str:
    """What an entry of an answer says, wherever its rows are."""
    keys = ("rule", "sentence", "nid_c", "nid_bg", "aspects", "packet", "direction", "values")
    return NO_NUMBERS.sub("", json.dumps({key: entry[key] for key in keys}))


def two_changes(seed: int) -> Iterator[Tuple[List[Row], List[Row], List[Row]]]:
    """A line with one change, with another one, and with both."""
    random = Random(f"two {seed}")
    kinds = random.sample(CHANGES, 2)
    try:
        lines = []
        for some in ((0,), (1,), (0, 1)):
            case = Case(Random(), random_line(seed, 12))
            for place in some:
                case.random = Random(f"{seed} {place}")
                kinds[place](case)
            lines.append(case.rows)
        yield lines[0], lines[1], lines[2]
    except Absent:
        return


def is_green_wrongly(program: Program, run: Run, folder: Path, lines: Tuple[List[Row], List[Row], List[Row]]) -> bool:
    """Whether entries for one change accept another change that is a fault by itself."""
    first, second, both = (folder / f"{name}.csv" for name in "abc")
    for path, rows in zip((first, second, both), lines):
        try:
            path.write_text(written(program, rows), "utf-8")
        except ValueError:
            return False
    words = ("--rules", "all")
    known = set(map(said, answer(run, first, *words)["entries"]))
    found = [each for each in answer(run, second, *words)["entries"] if each["rule"] not in BY_MOST]
    if known.issuperset(map(said, found)):
        return False
    first.with_suffix(".accepted.csv").unlink(missing_ok=True)
    file = signed(run, first, *words)
    assert run("check", first, *words, "--accepted", file)[0] == 0
    return run("check", both, *words, "--accepted", file)[0] == 0 and lines[0] != lines[2]


@pytest.mark.slow
@pytest.mark.parametrize("part", range(4))
def test_no_entry_hides_another_change(program: Program, run: Run, tmp_path: Path, part: int) -> None:
    pairs = [(seed, lines) for seed in range(part * 60, part * 60 + 60) for lines in two_changes(seed)]
    assert len(pairs) > 20
    assert not [seed for seed, lines in pairs if is_green_wrongly(program, run, tmp_path, lines)]


def changed_telegrams(program: Program, rows: List[Cells]) -> Iterator[Tuple[int, List[Cells]]]:
    """The table with another counter in one telegram of each row, and the number of the row."""
    forms = program.decode([row["telegram"] for row in rows])
    made = [{**record.form, "m_mcount": record.form["m_mcount"] ^ 1} for record in forms]  # type: ignore[union-attr]
    for place, text in enumerate(program.encode(made)):
        line = getattr(text, "line")
        yield place + 2, [{**row, "telegram": line} if at == place else row for at, row in enumerate(rows)]


@pytest.mark.slow
@pytest.mark.parametrize("path", [*MISTAKES, LEVEL], ids=lambda path: str(path.stem))
def test_each_row_that_an_entry_names_is_covered(program: Program, run: Run, tmp_path: Path, path: Path) -> None:
    """No finding or rule but F16 depends on M_MCOUNT, so each answer is as before, and entries may only lose rows."""
    words = ("--rules", "all", *(("--plan", PLAN) if path == LEVEL else ()))
    line = tmp_path / "line.csv"
    rows = list(csv.DictReader(io.StringIO(path.read_text("utf-8"))))
    line.write_text(text_of(rows), "utf-8")
    file = signed(run, line, *words)
    before = {said(each) for each in answer(run, line, *words)["entries"]}
    for number, changed in changed_telegrams(program, rows):
        line.write_text(text_of(changed), "utf-8")
        found = [each for each in answer(run, line, *words, "--accepted", file)["entries"] if each["rule"][0] in "LEX"]
        resting = {key_of(each) for each in found if number in named_by(each)}
        for entry in found:
            if key_of(entry) in resting and entry["rule"][0] in "EX":
                assert entry["state"] == "open", (number, entry["sentence"])
            elif key_of(entry) not in resting and said(entry) in before:
                is_of_group = number in _rows_of_group(changed, entry["group"])
                assert is_of_group or entry["state"] == "accepted", (number, entry["sentence"])


def key_of(entry: Any) -> Tuple[Any, ...]:
    """What an entry of a file names: it may be about several remarks."""
    return entry["rule"], entry["group"], *entry["rows"], entry["packet"], entry["direction"], entry["message"]


def named_by(entry: Any) -> Set[int]:
    """The rows that an entry of an answer names."""
    return {*entry["rows"], *entry["other_rows"], *(each["row"] for each in entry["also"])}


def _rows_of_group(rows: List[Cells], group: str) -> List[int]:
    return [number for number, row in enumerate(rows, 2) if row["group"] == group]


@pytest.mark.slow
@pytest.mark.parametrize("path", [*MISTAKES, LEVEL], ids=lambda path: str(path.stem))
def test_rows_above_and_another_track_change_no_entry(run: Run, tmp_path: Path, path: Path) -> None:
    """Unless a sentence counts all of the table, each entry holds whose sentence is as before."""
    words = ("--rules", "all", *(("--plan", PLAN) if path == LEVEL else ()))
    line = tmp_path / "line.csv"
    rows = list(csv.DictReader(io.StringIO(path.read_text("utf-8"))))
    line.write_text(text_of(rows), "utf-8")
    file = signed(run, line, *words)
    before = {said(each) for each in answer(run, line, *words)["entries"]}
    more = {name: "" for name in [*rows[0], "track"]}
    more.update(group="Another", km="900.000", track="another", telegram=ALONE)
    line.write_text(text_of([more, *({"track": "", **row} for row in rows)]), "utf-8")
    found = answer(run, line, *words, "--accepted", file)["entries"]
    assert not [each["sentence"] for each in found if said(each) in before and each["state"] == "open"]


def test_cells_of_the_plan(run: Run, tmp_path: Path) -> None:
    """A changed cell of a row that an entry names is looked at again. Another row of the plan changes no entry."""
    plan, rows = tmp_path / "plan.csv", rows_of(PLAN.read_text("utf-8"))
    plan.write_text(text_of(rows), "utf-8")
    line = tmp_path / "line.csv"
    line.write_bytes(LEVEL.read_bytes())
    words = ("--plan", plan, "--only", "X")
    file = signed(run, line, *words)
    entries = answer(run, line, *words)["entries"]
    named = {int(number) for each in entries for number in re.findall(r"row (\d+) of the plan", each["sentence"])}
    assert len(named) == 10
    # Without its own row a group has one more remark of X9, beside that on an aspect.
    lacking = {each["group"] for each in entries if each["rule"] == "X9"}
    named |= {at for at, row in enumerate(rows, 2) if row["kind"] == "group" and row["name"] in lacking}
    for number in range(2, len(rows) + 2):
        renamed = [{**row, "name": f"{row['name']} anew"} if at == number else row for at, row in enumerate(rows, 2)]
        if rows[number - 2]["kind"] in ("aspect", "note"):
            continue
        plan.write_text(text_of(renamed), "utf-8")
        assert bool(at_fault(run, line, *words, "--accepted", file)) == (number in named), number


def shortened(program: Program, *groups: Tuple[str, str, int]) -> str:
    """A line with authorities of these groups and aspects that end so many metres too early."""
    rows = SOUND["level-border"].rows
    for group, aspect, metres in groups:
        change(rows, group, aspect, 12)["l_endsection"] -= metres
    return written(program, rows)


FOUR, FIVE, GREEN = ("Signal 4", "green", 30), ("Signal 5", "yellow", 30), ("Signal 5", "green", 1530)
"""Authorities that end at km 17.470, 30 m before Signal 6."""


def messages(*ends: str) -> List[str]:
    """Messages to the trains at Signal 5."""
    return [f"{MESSAGE.format('48'[at], end)};M{at + 1}" for at, end in enumerate(ends)]


@pytest.mark.parametrize(
    "first, second",
    [
        (([FOUR], [RIGHT]), ([FOUR], [WRONG])),
        (([], [WRONG, RIGHT]), ([], [WRONG, WRONG])),
        (([FOUR, FIVE], []), ([FOUR, FIVE, GREEN], [])),
    ],
    ids=["message after a group", "message after a message", "telegram after a telegram"],
)
def test_all_that_one_remark_stands_for(
    program: Program, run: Run, table: Write, first: Tuple[Any, Any], second: Tuple[Any, Any]
) -> None:
    """X3 is one remark for all authorities that end at one place: each is named, covered, and fails in JUnit."""

    def words(name: str, groups: Any, ends: List[str]) -> Tuple[object, ...]:
        line = table(content=shortened(program, *groups).encode(), name=f"{name}.csv")
        radio = ["--messages", table(*messages(*ends), name=f"{name}.txt")] if ends else []
        return (line, *radio, "--plan", table(*SIGNALS, name="plan.csv"), "--only", "F,X")

    line, *others = words("first", *first)
    file = signed(run, Path(str(line)), *others)
    assert run("check", *words("first", *first), "--accepted", file)[0] == 0
    now, out = words("second", *second), table(name="out")
    assert run("check", *now, "--accepted", file)[0] == 1
    run("check", *now, "--junit", f"{out}.xml", "--sarif", f"{out}.sarif", "--json", f"{out}.json")
    (entry,) = json.loads(Path(f"{out}.json").read_text("utf-8"))["entries"]
    (result,) = json.loads(Path(f"{out}.sarif").read_text("utf-8"))["runs"][0]["results"]
    wrong = {f"Signal {name[-1]}" for name, _, _ in second[0]}
    wrong |= {f"line {at}  M{at}" for at, end in enumerate(second[1], 1) if end == WRONG}
    assert failed(Path(f"{out}.xml")) == wrong
    assert len(entry["also"]) == len(second[0]) + second[1].count(WRONG) - 1 and len(result["locations"]) == len(wrong)
    assert all(f"the message of line {at}  M{at}" in entry["sentence"] for at in _messages_of(entry["also"]))


def _messages_of(also: List[Any]) -> List[int]:
    return [each["message"] for each in also if each["message"]]


def failed(path: Path) -> Set[str]:
    """The cases of a file of JUnit that failed."""
    return {
        case.get("name", "") for case in ElementTree.parse(path).iter("testcase") if case.find("failure") is not None
    }


def test_more_groups_with_one_identity(run: Run, table: Write) -> None:
    """F14 of B is accepted, and not that of C and D, although all their telegrams are the same."""
    lines = ["group,telegram", *(f"{name},{ALONE}" for name in "ABCD")]
    file = signed(run, table(*lines[:3]))
    assert run("check", table(*lines[:3]), "--accepted", file)[0] == 0
    status, out, _ = run("check", table(*lines), "--accepted", file)
    assert status == 1 and out[-1] == "findings 3: accepted 0, open 3; entries at fault 1"


def test_the_rest_of_an_infill(program: Program, run: Run, table: Write) -> None:
    """E15 names the first field of a packet that differs. A second one is covered too."""
    paths = []
    for speed in (28, 8):
        rows = SOUND["infill"].rows
        change(rows, "Infill of Signal 4", "yellow", 12)["l_endsection"] -= 150
        change(rows, "Signal 4", "yellow", 12)["v_main"] = speed
        paths.append(table(content=written(program, rows).encode(), name=f"{speed}.csv"))
    file = signed(run, paths[0], "--only", "E")
    assert run("check", paths[0], "--only", "E", "--accepted", file)[0] == 0
    assert at_fault(run, paths[1], "--only", "E", "--accepted", file)


def test_entries_for_a_part_of_a_rule_that_is_not_applied(run: Run, tmp_path: Path) -> None:
    """They are named, and the status does not change. If the rule is applied in full, an unused entry is at fault."""
    line, sound = tmp_path / "line.csv", tmp_path / "sound.csv"
    for rule in ("E20", "E21", "E23"):
        line.write_bytes((EXAMPLES / f"meaning/mistakes/{rule}.csv").read_bytes())
        sound.write_bytes((EXAMPLES / "meaning/line.csv").read_bytes())
        line.with_suffix(".accepted.csv").unlink(missing_ok=True)
        file = signed(run, line, "--rules", rule, "--only", rule[0])
        status, out, _ = run("check", sound, "--accepted", file)
        assert status == 0 and any(each.startswith("note: ") and each.endswith(rule) for each in out)
        status, out, _ = run("check", sound, "--rules", rule, "--accepted", file)
        assert status == 1 and any("unused: it matches no finding" in each for each in out)

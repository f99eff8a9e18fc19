"""Refused telegrams, such as those of M_VERSION 1: no rule reports what such a telegram might contradict."""
from __future__ import annotations

import copy
import csv
from pathlib import Path
from random import Random
from typing import Any, Callable, List, NamedTuple

import meaning_line
import pytest
from meaning_line import Line, Row, change
from meaning_mistakes import BORDER, INFILL, LEVEL_2, form_of, links_shortened, session, single_balise, with_packet
from meaning_mistakes_of_groups import FIXED, GREEN, RED, SHORT, YELLOW, Change, raw
from meaning_random import random_line

from balisekit.engine.program import Program
from balisekit.rules import checking, links, meaning, track_plan
from balisekit.rules.line import Line as LineOfTable
from balisekit.rules.rule import ALL, Options, Remark, Result, Urgency
from balisekit.tables import plan, reader

ASKED = Options(asked=frozenset({ALL}))
RULES = {rule.name: rule for rule in (*links.RULES, *meaning.RULES, *track_plan.RULES)}
Refuses = Callable[[List[str]], bool]
"""Whether the telegram of these cells is refused."""


def of_groups(*names: str) -> Refuses:
    """All telegrams of these groups."""
    return lambda cells: cells[0] in names


def of_aspect(group: str, aspect: str) -> Refuses:
    """One telegram."""
    return lambda cells: (cells[0], cells[4]) == (group, aspect)


def of_balise(name: str) -> Refuses:
    """The telegram of a balise."""
    return lambda cells: cells[1] == name


def line_of(program: Program, path: Path, rows: List[Row], refuses: Refuses) -> LineOfTable:
    """The line of a table, in which some telegrams have the header of version 1."""
    cells = list(csv.reader(meaning_line.table(program, rows).splitlines()))
    for row in cells[1:]:
        if refuses(row):
            row[-1] = {"a1": "90", "21": "10"}[row[-1][:2]] + row[-1][2:]
    with path.open("w", encoding="utf-8", newline="") as file:
        csv.writer(file).writerows(cells)
    checked = checking.check(program, reader.read(str(path)))
    assert {one.row.number for one in checked.refused} == {
        at for at, row in enumerate(cells, 1) if at > 1 and refuses(row)
    }
    return LineOfTable.of(checked)


class Case(NamedTuple):
    """A sound line, and what lacks in it that a telegram says: with that telegram refused, its rule is silent."""

    rule: str
    line: Line
    sound: Change
    """Makes the line so that it rests on a telegram."""
    lacks: Change
    """Takes out what that telegram says."""
    refuses: Refuses
    group: str = ""
    """At which remarks count, if not everywhere."""


def unchanged(rows: List[Row]) -> None:
    """Changes nothing."""


def without(*groups: str) -> Change:
    """Takes groups out."""

    def remove(rows: List[Row]) -> None:
        rows[:] = [row for row in rows if row.group not in groups]

    return remove


def without_packet(group: str, aspect: str, number: int) -> Change:
    """Takes a packet out of a telegram."""

    def remove(rows: List[Row]) -> None:
        form = form_of(rows, group, aspect)
        form["packets"] = [each for each in form["packets"] if each["nid_packet"] != number]

    return remove


def linked_before(rows: List[Row]) -> None:
    """Signal 3 links one group, and a group 50 m before it has its links."""
    links_shortened(rows)
    long = copy.deepcopy(Line(signals=6).rows)
    own = copy.deepcopy(change(long, "Signal 3", FIXED, 5))
    own["links"][0]["d_link"] += 50
    site = next(each for each in Line(signals=6).sites if each.name == "Signal 3")
    site.name, site.number, site.place = "Links", 700, site.place - 50
    at = next(index for index, row in enumerate(rows) if row.group == "Signal 3")
    for balise, packets in ((1, []), (0, [own])):
        form = meaning_line.telegram(site, balise, 255, *packets)
        rows.insert(at, Row("Links", f"Links {balise}", site.place + 3 * balise, "", balise, form))


def linked_once(rows: List[Row]) -> None:
    """Only signal 1 has a packet 5, and only yellow at signal 2 a V_MAIN above 0."""
    rows[:] = [row for row in rows if row.aspect in (FIXED, RED) or (row.group, row.aspect) == ("Signal 2", YELLOW)]
    for row in rows:
        keeps = row.group == "Signal 1"
        row.form["packets"] = [each for each in row.form["packets"] if keeps or each["nid_packet"] != 5]


def named_by_one(rows: List[Row]) -> None:
    """Signal 4 names the single balise, and signal 3 leads past it only."""
    single_balise(rows)
    own = change(rows, "Signal 3", FIXED, 5)["links"]
    at = next(index for index, each in enumerate(own) if each["nid_bg"] == 7000)
    own[at + 1]["d_link"] += own.pop(at)["d_link"]


def two_turned(rows: List[Row]) -> None:
    """Two of five aspects of signal 3 are for the other direction."""
    for aspect in (GREEN, FLASHING):
        for each in form_of(rows, "Signal 3", aspect)["packets"]:
            each["q_dir"] = 1 - each["q_dir"]


def faster(*aspects: str) -> Change:
    """Signal 3 states a greater speed at these aspects."""

    def set_speed(rows: List[Row]) -> None:
        for aspect in aspects:
            for element in change(rows, "Signal 3", aspect, 27)["elements"]:
                element["v_static"] += element["v_static"] < 127

    return set_speed


FLASHING = "flashing yellow"
FIVE = Line(signals=6, aspects=(RED, YELLOW, "double yellow", FLASHING, GREEN))
HAS_SESSION = with_packet("Signal 3", FIXED, session())


def unnamed(rows: List[Row]) -> None:
    """Signal 4 does not name the single balise either."""
    own = change(rows, "Signal 4", FIXED, 5)["links"]
    at = next(index for index, each in enumerate(own) if each["nid_bg"] == 7000)
    own[at + 1]["d_link"] += own.pop(at)["d_link"]


def one_turned(rows: List[Row]) -> None:
    """One of them is for the right direction again."""
    for each in form_of(rows, "Signal 3", FLASHING)["packets"]:
        each["q_dir"] = 1 - each["q_dir"]


CASES = {
    "E8": Case("E8", FIVE, two_turned, one_turned, of_aspect("Signal 3", FLASHING)),
    "E13": Case("E13", SHORT, faster(YELLOW), faster(GREEN), of_aspect("Signal 3", GREEN)),
    "E15": Case("E15", INFILL, unchanged, without("Signal 4"), of_groups("Signal 4")),
    "E16": Case("E16", SHORT, named_by_one, unnamed, of_groups("Signal 4")),
    "E17": Case("E17", SHORT, linked_before, without("Links"), of_groups("Links"), "Signal 3"),
    "E17 of a balise": Case("E17", SHORT, linked_before, without("Links"), of_balise("Links 1"), "Signal 3"),
    "E17 of a line": Case("E17", SHORT, linked_once, without_packet("Signal 1", FIXED, 5), of_groups("Signal 1")),
    "E18": Case("E18", BORDER, unchanged, without("Border"), of_groups("Border")),
    "E18 of a balise": Case("E18", BORDER, unchanged, without("Border"), of_balise("Border 2")),
    "E21": Case("E21", LEVEL_2, HAS_SESSION, without_packet("Signal 3", FIXED, 42), of_groups("Signal 3")),
}


@pytest.mark.parametrize("name", CASES)
def test_a_refused_telegram_may_say_it(program: Program, tmp_path: Path, name: str) -> None:
    """Only the line that lacks it has a remark, not the one that has it, read or refused."""
    case = CASES[name]

    def found(refuses: Refuses, *changes: Change) -> List[Remark]:
        rows = copy.deepcopy(case.line.rows)
        for each in changes:
            each(rows)
        made = RULES[case.rule].find(line_of(program, tmp_path / "t.csv", rows, refuses), ASKED).found
        groups = [each.location.group for each in made]
        return [each for each, group in zip(made, groups) if not case.group or group and group.group.name == case.group]

    assert not found(of_groups(), case.sound) and not found(case.refuses, case.sound)
    assert found(of_groups(), case.sound, case.lacks)


def signal_in_rear(rows: List[Row]) -> None:
    """The infill before signal 4 names a group that no telegram has."""
    for aspect in (RED, YELLOW, GREEN):
        change(rows, "Infill of Signal 4", aspect, 136).update(raw(136, f"0{777:014b}"))


@pytest.mark.parametrize("group, notes", [("Signal 2", 0), ("Signal 6", 1)])
def test_only_a_group_ahead_may_be_the_signal_of_an_infill(
    program: Program, tmp_path: Path, group: str, notes: int
) -> None:
    rows = copy.deepcopy(INFILL.rows)
    signal_in_rear(rows)
    result = RULES["E15"].find(line_of(program, tmp_path / "t.csv", rows, of_groups(group)), ASKED)
    words = "packet 136 names group 777 of country or region 352, which no telegram that was read has"
    assert [each.sentence for each in result.found] == [words] * (1 - notes)
    assert list(result.notes) == [f"E15: Infill of Signal 4: {words}: it may be that of a refused telegram"] * notes


@pytest.mark.parametrize(
    "signals, signal, to, refused, urgency",
    [
        (6, 5, GREEN, "", Urgency.RULE_ONLY),
        (7, 5, GREEN, "Signal 7", None),
        (6, 4, YELLOW, "Signal 5", None),
        (6, 4, YELLOW, "Signal 2", Urgency.RULE_ONLY),
    ],
)
def test_a_refused_group_may_be_the_last_one_or_a_signal(
    program: Program, tmp_path: Path, signals: int, signal: int, to: str, refused: str, urgency: Any
) -> None:
    """Equal aspects that end at the last group have the lowest urgency."""
    rows = copy.deepcopy(Line(signals=signals).rows)
    if refused == "Signal 2":  # (signal 5 gives no authority)
        form_of(rows, "Signal 5", YELLOW)["packets"] = form_of(rows, "Signal 5", GREEN)["packets"] = []
        form_of(rows, "Signal 5", RED)["packets"] = []
    copied = GREEN if to == YELLOW else YELLOW
    form_of(rows, f"Signal {signal}", to)["packets"] = form_of(rows, f"Signal {signal}", copied)["packets"]
    made = line_of(program, tmp_path / "t.csv", rows, of_groups(refused))
    (one,) = [each for each in RULES["E7"].find(made, ASKED).found if each.aspects]
    assert one.urgency == urgency


def test_a_refused_message_may_have_the_links(program: Program, tmp_path: Path) -> None:
    rows = copy.deepcopy(SHORT.rows)
    for row in rows:
        row.form["packets"] = [each for each in row.form["packets"] if each["nid_packet"] != 5]
    made = line_of(program, tmp_path / "t.csv", rows, of_groups())
    assert len(RULES["E17"].find(made, ASKED).found) == 1
    made.lost_messages = True
    assert not RULES["E17"].find(made, ASKED).found


def borders(program: Program, path: Path, rows: List[Row], refuses: Refuses) -> Result:
    """The result of X5 for a line and a plan with one level border."""
    path.with_name("p.csv").write_text("kind,km,value\nlevel,16.700,0\n", "utf-8")
    options = Options(plan=plan.read(str(path.with_name("p.csv"))))
    return RULES["X5"].find(line_of(program, path, rows, refuses), options)


def test_a_refused_group_may_name_the_border(program: Program, tmp_path: Path) -> None:
    """So may a packet after a packet 136, which X5 does not compare."""
    rows = copy.deepcopy(INFILL.rows)
    assert len(borders(program, tmp_path / "t.csv", rows, of_groups()).found) == 1
    assert not borders(program, tmp_path / "t.csv", rows, of_groups("Signal 2")).found
    order = copy.deepcopy(change(copy.deepcopy(BORDER.rows), "Signal 4", FIXED, 41))
    form_of(rows, "Infill of Signal 4", GREEN)["packets"].append(order)
    assert not borders(program, tmp_path / "t.csv", rows, of_groups()).found


@pytest.mark.parametrize("seeds", [range(12), pytest.param(range(12, 36), marks=pytest.mark.slow)])
@pytest.mark.uncovered
def test_random_lines(program: Program, tmp_path: Path, seeds: range) -> None:
    """Sound lines get no remark, whichever of their groups, telegrams or single balises are refused."""
    for seed in seeds:
        random, rows = Random(seed), random_line(seed, 25).rows
        share, names = random.choice((0.05, 0.2, 0.5)), {row.group for row in rows}
        groups = [name for name in sorted(names) if random.random() < share]
        some = {row.name for row in rows if random.random() < share / 3}
        by_group = of_groups(*groups)
        made = line_of(program, tmp_path / "t.csv", rows, by_group if seed % 2 else lambda cells: cells[1] in some)
        found = [each for rule in (*links.RULES, *meaning.RULES) for each in rule.find(made, ASKED).found]
        assert not found, (seed, [f"{each.rule}: {each.location}: {each.sentence}" for each in found])


@pytest.mark.parametrize("name", ["E17", "E17 of a line"])
def test_authorities_that_may_be_linked_are_not_counted(program: Program, tmp_path: Path, name: str) -> None:
    case, counts = CASES[name], []
    for refuses in (of_groups(), case.refuses):
        rows = copy.deepcopy(case.line.rows)
        case.sound(rows)
        counts.append(RULES["E17"].find(line_of(program, tmp_path / "t.csv", rows, refuses), ASKED).looked_at)
    assert counts[0] > counts[1] and (counts[1] == 0) == (name == "E17 of a line")

"""The rules E7 to E10 and E24: aspects compared with those of their group, and with those of the table."""
from __future__ import annotations

from dataclasses import replace
from decimal import Decimal
from functools import partial
from pathlib import Path
from typing import Any, Dict, List, Optional, Sequence, Tuple

import pytest
from conftest import Run
from meaning_line import Line, Row, change
from meaning_mistakes import BOTH, RESTRICTED, restriction, with_packet
from meaning_mistakes_of_groups import (
    FIXED,
    GREEN,
    RED,
    SHORT,
    YELLOW,
    Change,
    element_with,
    exchanged,
    packet_with,
    packets_added,
    raw,
    row_of,
    telegram,
    turned,
)
from test_meaning import remarks, written

from balisekit.engine.program import Program
from balisekit.rules import checking
from balisekit.rules.line import Line as LineOfTable
from balisekit.rules.meaning import RULES
from balisekit.rules.meaning.aspect_pairs import NO_ORDER, STAGGERED
from balisekit.rules.meaning.e24_unlike_namesakes import MAIN
from balisekit.rules.meaning.stop_names import NO_MAJORITY
from balisekit.rules.rule import Options, Remark, Result, Urgency
from balisekit.tables import plan as plan_file, reader

PROFILES = "21 (gradient profile), 27 (international static speed profile)"
FOUR = Line(signals=6, aspects=(RED, YELLOW, GREEN, "blue"))


def found(program: Program, path: Path, rule: str, *changes: Change, line: Line = SHORT) -> Sequence[Remark]:
    """The remarks of one rule."""
    made = remarks(program, written(program, path, line, *changes), Options(), [rule])
    assert all(each.values for each in made)
    return made


def said(made: Sequence[Remark]) -> List[Tuple[Any, ...]]:
    """The rows and sentences of remarks."""
    return [(each.rows, each.sentence) for each in made]


def without(signal: int, aspect: str, *numbers: int) -> Change:
    """Removes packets."""

    def remove(rows: List[Row]) -> None:
        form = telegram(rows, signal, aspect)
        form["packets"] = [each for each in form["packets"] if each["nid_packet"] not in numbers]

    return remove


def test_e7_at_the_last_group(program: Program, tmp_path: Path) -> None:
    """If both end at the last group, the urgency is the lowest one, unless yellow could end at a signal before it."""

    def copied(signal: int, to: str, source: str) -> Change:
        def copy(rows: List[Row]) -> None:
            telegram(rows, signal, to)["packets"] = telegram(rows, signal, source)["packets"]

        return copy

    for change_, urgency in (
        (copied(5, GREEN, YELLOW), Urgency.RULE_ONLY),
        (copied(4, YELLOW, GREEN), None),
        (copied(3, YELLOW, GREEN), None),
    ):
        (one,) = found(program, tmp_path / "t.csv", "E7", change_)
        assert one.urgency == urgency


MARKER = {"nid_packet": 0, "nid_vbcmk": 5}
INHIBITION = {"nid_packet": 145, "q_dir": 2, "l_packet": 23, "body": ""}


@pytest.mark.parametrize("packet", [MARKER, INHIBITION])
def test_packets_that_say_nothing(program: Program, tmp_path: Path, packet: Any) -> None:
    """With them groups of the other direction end no line for E7, and need no link for E17."""

    def with_it(rows: List[Row]) -> None:
        for row in rows:
            row.form["packets"].append(packet)

    def without_the_last(rows: List[Row]) -> None:
        rows[:] = [row for row in rows if row.group not in ("Signal 5", "Signal 6")]

    def copied(rows: List[Row]) -> None:
        telegram(rows, 5, GREEN)["packets"] = telegram(rows, 5, YELLOW)["packets"]

    (one,) = found(program, tmp_path / "t.csv", "E7", copied, with_it, line=BOTH)
    assert one.urgency == Urgency.RULE_ONLY
    made = remarks(program, written(program, tmp_path / "t.csv", BOTH, without_the_last, with_it), Options(), ["E17"])
    assert not made, [each.sentence for each in made]


@pytest.mark.parametrize("signal, urgency", [(5, Urgency.RULE_ONLY), (4, None)])
def test_e7_of_infill(program: Program, tmp_path: Path, signal: int, urgency: Optional[Urgency]) -> None:
    """It has the urgency of its signal, signal 5 of which leads to the last group."""

    def copied(rows: List[Row]) -> None:
        for name in (f"Signal {signal}", f"Infill of Signal {signal}"):
            yellow, green = (next(row for row in rows if (row.group, row.aspect) == (name, each)) for each in "YG")
            green.form["packets"] = yellow.form["packets"]

    line = Line(signals=6, infill=(signal - 1,), aspects=("R", "Y", "G"))
    made = found(program, tmp_path / "t.csv", "E7", copied, line=line)
    assert [each.urgency for each in made] == [urgency, urgency]


def test_lengths_of_one_group_need_no_kilometres(program: Program, tmp_path: Path) -> None:
    """Kilometres with one decimal hide nothing there, and make no ends equal."""

    def of(rule: str, *changes: Change) -> Sequence[Remark]:
        path = written(program, tmp_path / "t.csv", SHORT, *changes)
        head, *lines = path.read_text("utf-8").splitlines()
        cells = [line.split(",") for line in lines]
        coarse = [",".join([*row[:2], f"{float(row[2]):.1f}", *row[3:], "rising"]) for row in cells]
        path.write_text("\n".join([f"{head},nominal", *coarse]) + "\n", "utf-8")
        return remarks(program, path, Options(), [rule])

    def unlinked(rows: List[Row]) -> None:
        telegram(rows, 1, FIXED)["packets"] = []

    def short(rows: List[Row]) -> None:
        elements = change(rows, "Signal 1", YELLOW, 27)["elements"]
        elements[1]["d_static"] -= 90
        elements.insert(0, {**elements[0], "v_static": 24})
        elements[1]["d_static"] = 90

    ends = packet_with(1, YELLOW, 12, l_endsection=2910)
    assert not of("E9", ends)
    assert not of("E10", unlinked, element_with(1, GREEN, 27, 0, v_static=24), ends)
    (one,) = of("E10", short)
    assert [int(one.values[name]) for name in ("begin_m", "end_m", "value_1")] == [0, 90, 120]
    assert not of("E22", RESTRICTED)
    (one,) = of("E22", RESTRICTED, with_packet("Signal 1", FIXED, restriction(7, 4000, 590, 40)))
    assert one.values["l_tsr_m"] == 590


def test_e7_before_a_signal_whose_direction_is_not_known(program: Program, tmp_path: Path) -> None:
    """Yellow could end at it, so that the urgency is not the lowest one."""

    def with_signal(rows: List[Row]) -> None:
        telegram(rows, 5, GREEN)["packets"] = telegram(rows, 5, YELLOW)["packets"]
        own = [row for row in rows if row.group == "Signal 4" and row.aspect in (FIXED, YELLOW)]
        for row in own:
            form = {**row.form, "nid_bg": 9000}
            rows.append(replace(row, group="Other", name=f"Other {row.balise}", place=16_700, aspect="*", form=form))

    (one,) = found(program, tmp_path / "t.csv", "E7", with_signal)
    assert one.urgency is None


def test_e8_of_the_other_direction(program: Program, tmp_path: Path) -> None:
    """Green, and red: each of them is one remark. Two aspects are too few."""
    made = found(program, tmp_path / "t.csv", "E8", turned(2, GREEN), turned(4, RED))
    words = "only for the other direction than all other aspects with them"
    packets = f"packets 12 (movement authority of level 1), {PROFILES}"
    assert said(made) == [
        ((row_of(2, GREEN),), f'the aspect "green" has {packets} {words}'),
        ((row_of(4, RED),), f'the aspect "red" has {packets} {words}'),
    ]
    two = Line(signals=6, aspects=(RED, GREEN))
    assert not found(program, tmp_path / "t.csv", "E8", turned(2, GREEN), line=two)


def test_e8_of_packets_that_lack(program: Program, tmp_path: Path) -> None:
    """One of three aspects with a V_MAIN above 0 lacks a profile. If two of them lack it, nothing is said."""
    some = [without(2, GREEN, 27), without(3, GREEN, 21, 27), without(4, GREEN, 21), without(4, YELLOW, 21)]
    made = found(program, tmp_path / "t.csv", "E8", *some, line=FOUR)
    ending = "in nominal direction, which all others with a V_MAIN above 0 have"
    assert [each.sentence for each in made] == [
        f'the aspect "green" lacks packet 27 (international static speed profile) {ending}',
        f'the aspect "green" lacks packets {PROFILES} {ending}',
    ]
    assert not found(program, tmp_path / "t.csv", "E8", *some)


def both_directions(rows: List[Row]) -> None:
    """Each aspect of signal 2 has its authority and profiles in both directions."""
    for aspect in FOUR.aspects:
        packets = telegram(rows, 2, aspect)["packets"]
        packets += [{**each, "q_dir": 0} for each in packets]


def reverse_without(*numbers: int, **values: Any) -> Change:
    """At green, signal 2 lacks these packets for the reverse direction, and has these values in its packet 12."""

    def change_(rows: List[Row]) -> None:
        form = telegram(rows, 2, GREEN)
        form["packets"] = [each for each in form["packets"] if each["q_dir"] or each["nid_packet"] not in numbers]
        for each in form["packets"]:
            each.update(values if each["nid_packet"] == 12 and not each["q_dir"] else {})

    return change_


def test_e8_of_groups_for_both_directions(program: Program, tmp_path: Path) -> None:
    """A packet 12 may lack in one direction. An aspect that stops the trains of a direction needs no profiles there."""
    (one,) = found(program, tmp_path / "t.csv", "E8", both_directions, reverse_without(12), line=FOUR)
    assert one.sentence == (
        'the aspect "green" lacks packet 12 (movement authority of level 1) in reverse direction, which all others '
        "with a V_MAIN above 0 have"
    )
    stops = reverse_without(21, 27, v_main=0)
    assert not found(program, tmp_path / "t.csv", "E8", both_directions, stops, line=FOUR)


def test_e8_of_stop_aspects(program: Program, tmp_path: Path) -> None:
    """Five of six have packet 137 with stop. A "go" was meant. With four of six nobody knows."""
    stops = [packets_added(signal, RED, raw(137, "0")) for signal in range(1, 6)]
    words = (
        'a stop aspect, V_MAIN 0 km/h, without a packet 137 (stop if in staff responsible) with "stop": 5 of 6 stop '
        "aspects of the table have it"
    )
    (one,) = found(program, tmp_path / "t.csv", "E8", *stops)
    assert (one.sentence, one.location.row and one.location.row.number) == (words, row_of(6, RED))
    assert not found(program, tmp_path / "t.csv", "E8", *stops[1:])
    for bit in "01":
        assert not found(program, tmp_path / "t.csv", "E8", *stops, packets_added(6, RED, raw(137, bit)))


def test_e8_of_stop_aspects_for_both_directions(program: Program, tmp_path: Path) -> None:
    """A packet with Q_DIR 2 is one stop aspect: one of five is too few, and a packet 132 that lacks is one remark."""
    stops = [packets_added(signal, RED, raw(137, "0")) for signal in range(1, 6)]
    both = packet_with(6, RED, 12, q_dir=2)
    (one,) = found(program, tmp_path / "t.csv", "E8", *stops, both)
    assert "5 of 6 stop aspects" in one.sentence
    four = Line(signals=4, aspects=(RED, YELLOW, GREEN))
    assert not found(program, tmp_path / "t.csv", "E8", *stops[:4], packet_with(1, RED, 12, q_dir=2), line=four)
    stop = [packet_with(2, aspect, 12, v_main=0, q_dir=2) for aspect in (RED, YELLOW, GREEN)]
    danger = [packets_added(2, aspect, {**raw(132, "0"), "q_dir": 2}) for aspect in (RED, GREEN)]
    elsewhere = [packet_with(3, YELLOW, 12, v_main=0), packets_added(3, YELLOW, raw(132, "0"))]
    made = [each for each in found(program, tmp_path / "t.csv", "E8", *stop, *danger, *elsewhere)]
    assert [each.sentence for each in made if "packet 132" in each.sentence] == [
        'a stop aspect without a packet 132 (danger for shunting information), which "red", "green" have'
    ]


def test_e8_of_packets_132(program: Program, tmp_path: Path) -> None:
    """One of three stop aspects lacks it, and has it at another signal. If it has it nowhere, that is meant."""
    stop = [packet_with(2, aspect, 12, v_main=0) for aspect in (YELLOW, GREEN)]
    danger = [packets_added(2, aspect, raw(132, "0")) for aspect in (RED, GREEN)]
    elsewhere = [packet_with(3, YELLOW, 12, v_main=0), packets_added(3, YELLOW, raw(132, "0"))]
    assert not found(program, tmp_path / "t.csv", "E8", *stop, *danger)
    (one,) = found(program, tmp_path / "t.csv", "E8", *stop, *danger, *elsewhere)
    assert one.location.row and one.location.row.number == row_of(2, YELLOW)
    assert one.sentence.endswith('without a packet 132 (danger for shunting information), which "red", "green" have')
    assert not found(program, tmp_path / "t.csv", "E8", stop[0], danger[0], *elsewhere)


def test_e9(program: Program, tmp_path: Path) -> None:
    (one,) = found(program, tmp_path / "t.csv", "E9", exchanged(3))
    assert (one.rows, sorted(one.aspects), one.urgency) == (
        [row_of(3, YELLOW), row_of(3, GREEN)],
        [GREEN, YELLOW],
        None,
    )
    assert one.sentence == (
        'the authority of "yellow" ends 3000 m from the group and that of "green" ends 1500 m from the group, and in 5 '
        'of 6 cases of the table that of "yellow" ends before that of "green"'
    )


def test_e9_of_equal_ends(program: Program, tmp_path: Path) -> None:
    """They are of the lowest urgency. Within the tolerance they are equal; the same telegram is for another rule."""

    def as_green(rows: List[Row]) -> None:
        telegram(rows, 3, YELLOW)["packets"] = telegram(rows, 3, GREEN)["packets"]

    (one,) = found(program, tmp_path / "t.csv", "E9", packet_with(3, YELLOW, 12, l_endsection=3002))
    assert one.urgency == Urgency.RULE_ONLY and "3002 m from the group" in one.sentence and "is equal" in one.sentence
    assert not found(program, tmp_path / "t.csv", "E9", packet_with(3, YELLOW, 12, l_endsection=2990))
    assert not found(program, tmp_path / "t.csv", "E9", as_green)


def test_e9_of_equal_ends_is_no_case(program: Program, tmp_path: Path) -> None:
    """The order is that of the signals at which the two end at two places. Many equal ends are not remarked."""
    equal = [packet_with(signal, GREEN, 12, l_endsection=1500) for signal in (1, 2)]
    (one,) = found(program, tmp_path / "t.csv", "E9", exchanged(4), *equal)
    assert one.rows == [row_of(4, YELLOW), row_of(4, GREEN)]
    assert one.sentence.endswith(
        'in 3 of 4 cases of the table that of "yellow" ends before that of "green" (in 2 more both end at one place)'
    )
    assert not found(program, tmp_path / "t.csv", "E9", *equal)
    near = packet_with(3, GREEN, 12, l_endsection=1690)
    assert not found(program, tmp_path / "t.csv", "E9", exchanged(4), *equal, near)


def test_e9_of_limits(program: Program, tmp_path: Path) -> None:
    """If green lets trains pass the end by V_LOA, it leads farther than yellow."""
    equal = packet_with(3, YELLOW, 12, l_endsection=3000)
    for first, second, count in ((12, 20, 0), (0, 20, 0), (12, 0, 1)):
        speeds = [packet_with(3, YELLOW, 12, end_speed=first), packet_with(3, GREEN, 12, end_speed=second)]
        assert len(found(program, tmp_path / "t.csv", "E9", equal, *speeds)) == count, (first, second)


def test_e9_needs_cases(program: Program, tmp_path: Path) -> None:
    """Four of six cases are no order, and nor are two groups."""
    assert not found(program, tmp_path / "t.csv", "E9", exchanged(3), exchanged(4))
    assert not found(program, tmp_path / "t.csv", "E9", exchanged(2), line=Line(signals=3))


def test_e9_of_several_aspects_is_one_remark(program: Program, tmp_path: Path) -> None:
    (one,) = found(program, tmp_path / "t.csv", "E9", packet_with(3, YELLOW, 12, l_endsection=6000), line=FOUR)
    assert one.sentence.endswith('; "yellow" is not in order with "green" either') and YELLOW in one.aspects


def test_e9_of_stops(program: Program, tmp_path: Path) -> None:
    """A red aspect that does not stop, and a green one that does."""
    changes = [packet_with(3, RED, 12, v_main=8, l_endsection=500), packet_with(4, GREEN, 12, v_main=0)]
    made = found(program, tmp_path / "t.csv", "E9", *changes)
    assert [(each.location.row and each.location.row.number, each.sentence) for each in made] == [
        (row_of(3, RED), 'V_MAIN of the aspect "red" is 40 km/h [8], and in 5 of 6 cases of the table it is 0'),
        (
            row_of(4, GREEN),
            'V_MAIN of the aspect "green" is 0 km/h [0], and in 5 of 6 cases of the table it is above 0',
        ),
    ]


def left_of(program: Program, path: Path, rule: str, *changes: Change, line: Line = SHORT) -> Dict[str, int]:
    """What a rule has not compared, by the reason. It has found nothing."""
    result = result_of(program, path, rule, *changes, line=line)
    assert not result.found
    return {why: count for why, count in result.not_looked_at.items() if count}


def result_of(program: Program, path: Path, rule: str, *changes: Change, line: Line = SHORT) -> Result:
    """What a rule answers."""
    table = reader.read(str(written(program, path, line, *changes)))
    (one,) = [each for each in RULES if each.name == rule]
    return one.find(LineOfTable.of(checking.check(program, table)), Options())


def swapped(signal: int, one: str = RED, other: str = YELLOW) -> Change:
    """Exchanges all packets of two aspects."""

    def swap(rows: List[Row]) -> None:
        first, second = (telegram(rows, signal, aspect) for aspect in (one, other))
        first["packets"], second["packets"] = second["packets"], first["packets"]

    return swap


def test_e9_of_stops_below_its_majority(program: Program, tmp_path: Path) -> None:
    """Red and yellow are exchanged at one of four signals: three are enough, because both contradict them."""
    made = found(program, tmp_path / "t.csv", "E9", swapped(3), line=Line(signals=4))
    stops = [each.sentence for each in made if each.sentence.startswith("V_MAIN")]
    assert len(stops) == 2 and all("in 3 of 4 cases of the table" in each for each in stops)
    assert stops[0].endswith('it is 0; V_MAIN of "yellow" is 0 here, and above 0 in most cases')
    assert stops[1].endswith('it is above 0; V_MAIN of "red" is above 0 here, and 0 in most cases')


def test_e9_of_groups_without_a_stop(program: Program, tmp_path: Path) -> None:
    """At 5 of 15 signals no aspect stops trains. If another aspect stops them, they are only counted."""
    line = Line()
    running = [packet_with(signal, RED, 12, v_main=8, l_endsection=500) for signal in (2, 5, 8, 11, 14)]
    made = found(program, tmp_path / "t.csv", "E9", *running, line=line)
    assert len(made) == 5 and all("in 10 of 15 cases" in each.sentence for each in made)
    assert all(each.sentence.endswith("it is 0; no aspect of this group has V_MAIN 0") for each in made)
    stopping = [packet_with(signal, GREEN, 12, v_main=0) for signal in (2, 5, 8, 11)]
    result = result_of(program, tmp_path / "t.csv", "E9", *stopping, line=line)
    assert not result.found and result.looked_at == 11
    assert list(result.not_looked_at.items()) == [(NO_MAJORITY, 4)]


def test_e9_counts_what_no_order_shows(program: Program, tmp_path: Path) -> None:
    """Two of six signals are against the others: no order is known, so that both are counted."""
    assert left_of(program, tmp_path / "t.csv", "E9", exchanged(3), exchanged(4)) == {NO_ORDER: 2}
    assert not result_of(program, tmp_path / "t.csv", "E9", exchanged(3)).not_looked_at


def test_e9_of_signals_beside_each_other(program: Program, tmp_path: Path) -> None:
    """Staggered exit signals of two tracks show no order, and are counted."""
    near = [packet_with(signal, GREEN, 12, l_endsection=1530) for signal in (1, 2, 4, 5, 6)]
    result = result_of(program, tmp_path / "t.csv", "E9", *near, packet_with(3, GREEN, 12, l_endsection=1470))
    assert not result.found and dict(result.not_looked_at) == {STAGGERED: 1} and result.looked_at == 5
    short = [packet_with(signal, YELLOW, 12, l_endsection=150) for signal in (1, 2, 4, 5, 6)]
    short += [packet_with(signal, GREEN, 12, l_endsection=300) for signal in (1, 2, 4, 5, 6)]
    short += [packet_with(3, YELLOW, 12, l_endsection=300), packet_with(3, GREEN, 12, l_endsection=150)]
    assert len(found(program, tmp_path / "t.csv", "E9", *short)) == 1


def test_e10(program: Program, tmp_path: Path) -> None:
    """Speeds, and gradients more than 5 ‰ apart. Beyond the last common link nothing is compared."""
    changes = [
        element_with(1, YELLOW, 27, 0, v_static=24),
        element_with(2, YELLOW, 21, 0, g_a=change(SHORT.rows, "Signal 2", YELLOW, 21)["elements"][0]["g_a"] + 6),
        element_with(3, YELLOW, 21, 0, g_a=change(SHORT.rows, "Signal 3", YELLOW, 21)["elements"][0]["g_a"] + 5),
    ]
    made = found(program, tmp_path / "t.csv", "E10", *changes)
    assert [(each.aspects[0], list(each.rows)) for each in made] == [
        (YELLOW, [row_of(signal, aspect) for aspect in (RED, YELLOW, GREEN)]) for signal in (1, 2)
    ]
    assert made[0].sentence == (
        f'from 0 m to 1700 m from the group (km 10.000 to km 11.700), "yellow", row {row_of(1, YELLOW)}, has V_STATIC '
        f'120 km/h [24], and "green", row {row_of(1, GREEN)}, has V_STATIC 100 km/h [20]; '
        '"yellow" differs from "red" too'
    )


def test_e10_of_profiles_that_are_rounded_alike(program: Program, tmp_path: Path) -> None:
    """A step 1 m farther is another place if both have one Q_SCALE. The tolerance counts if it is stated."""

    def moved(metres: int, unit: int) -> Change:
        def move(rows: List[Row]) -> None:
            packet = change(rows, "Signal 2", YELLOW, 27)
            for each in packet["elements"]:
                each["d_static"] *= 10 // unit
            packet["elements"][1]["d_static"] += metres * 10 // unit
            packet["q_scale"] = (1, 10).index(unit)

        return move

    path = tmp_path / "t.csv"
    (one,) = found(program, path, "E10", moved(1, 10))
    assert [int(one.values[name]) for name in ("begin_m", "end_m")] == [1450, 1451]
    assert not found(program, path, "E10", moved(1, 1)) and found(program, path, "E10", moved(9, 1))
    stated = Options(tolerance=Decimal(1))
    assert not remarks(program, written(program, path, SHORT, moved(1, 10)), stated, ["E10"])


def test_e10_names_the_longest_stretch(program: Program, tmp_path: Path) -> None:
    """Red is known for the overlap only, and yellow has two speeds where green has one."""

    def parted(rows: List[Row]) -> None:
        (first, *others) = change(rows, "Signal 1", YELLOW, 27)["elements"]
        wrong = [{**first, "v_static": speed, "d_static": at} for speed, at in ((24, 0), (26, 500))]
        others[0]["d_static"] -= 500
        change(rows, "Signal 1", YELLOW, 27)["elements"] = [*wrong, *others]

    (one,) = found(program, tmp_path / "t.csv", "E10", parted)
    assert [int(one.values[name]) for name in ("begin_m", "end_m", "value_1")] == [500, 1700, 130]
    assert "; they differ on 1 other stretch too; " in one.sentence


def test_e10_as_far_as_both_name_the_same_groups(program: Program, tmp_path: Path) -> None:
    """Without common links the routes may part. Without links the ends of both authorities decide."""
    wrong = element_with(1, GREEN, 27, 0, v_static=24)

    def linked(aspect: str, *numbers: int) -> Change:
        links = change(SHORT.rows, "Signal 1", FIXED, 5)["links"]
        own = [{**link, "nid_bg": number} for link, number in zip(links, numbers)]
        return packets_added(1, aspect, {"nid_packet": 5, "q_dir": 1, "q_scale": 1, "links": own})

    def unlinked(rows: List[Row]) -> None:
        telegram(rows, 1, FIXED)["packets"] = []

    path = tmp_path / "t.csv"
    parted = [unlinked, linked(RED, 2), linked(YELLOW, 2, 3), linked(GREEN, 9, 3)]
    assert not found(program, path, "E10", *parted, wrong)
    common = [unlinked, linked(RED, 8), linked(YELLOW, 2, 3), linked(GREEN, 2, 4)]
    (one,) = found(program, path, "E10", *common, wrong)
    assert one.values["end_m"] == 1500 and "to 1500 m from the group" in one.sentence
    assert not found(program, path, "E10", unlinked, wrong)
    assert found(program, path, "E10", unlinked, wrong, packet_with(1, YELLOW, 12, l_endsection=3000))


@pytest.mark.parametrize("identity, count", [(3, 1), (16_383, 0)])
def test_e10_of_an_unknown_identity(program: Program, tmp_path: Path, identity: int, count: int) -> None:
    """Routes may part before the group that NID_BG 16,383 leads to, in one packet 5 or in two equal ones."""

    def parts(twice: bool, rows: List[Row]) -> None:
        change(rows, "Signal 1", GREEN, 27)["elements"][0].update(v_static=24)
        links = change(rows, "Signal 1", "*", 5)
        links["links"] = [{**links["links"][0], "d_link": 3000, "nid_bg": identity}]
        if twice:
            for aspect, accuracy in ((YELLOW, 5), (GREEN, 6)):
                own = {**links, "links": [{**links["links"][0], "q_locacc": accuracy}]}
                next(row for row in rows if (row.group, row.aspect) == ("Signal 1", aspect)).form["packets"].append(own)
            fixed = next(row for row in rows if (row.group, row.aspect) == ("Signal 1", "*")).form
            fixed["packets"] = [each for each in fixed["packets"] if each["nid_packet"] != 5]

    for twice in (False, True):
        made = found(program, tmp_path / "t.csv", "E10", partial(parts, twice))
        assert len(made) == count, [each.sentence for each in made]


def test_e10_beyond_a_point(program: Program, tmp_path: Path) -> None:
    """Signal 2 is at km 11.500. The aspects differ from there on, or from a point of the track plan on."""
    path = written(program, tmp_path / "t.csv", SHORT, element_with(2, GREEN, 27, 0, v_static=24))
    for km, count in (("11.500", 0), ("11.400", 1), ("15.000", 1)):
        (tmp_path / "plan.csv").write_text(f"kind,km,km_to,track,way,value,name\npoint,{km},,,,,P1\n", "utf-8")
        options = Options(plan=plan_file.read(str(tmp_path / "plan.csv")))
        assert len(remarks(program, path, options, ["E10"])) == count, km


def test_e10_of_one_wrong_aspect_is_one_remark(program: Program, tmp_path: Path) -> None:
    (one,) = found(program, tmp_path / "t.csv", "E10", element_with(2, GREEN, 27, 0, v_static=60), line=FOUR)
    assert one.aspects[0] == GREEN and len(one.aspects) >= 3 and "V_STATIC 300 km/h [60]" in one.sentence


def overlap_of(signal: int, aspect: str, **values: int) -> Change:
    """Sets values in the overlap of an aspect."""
    return lambda rows: change(rows, f"Signal {signal}", aspect, 12)["overlap"].update(values)


def test_e24_of_packets(program: Program, tmp_path: Path) -> None:
    """An aspect without packets, without packet 12, without the profiles of a stop aspect. Two of six are too many."""
    lacks = (
        'the aspect "{}" is unlike "{}" at other signals: it lacks {} in nominal direction, which 5 other signals have'
    )
    for changes, aspect, packets in (
        ([without(3, RED, 12, 21, 27)], RED, f"packets 12 (movement authority of level 1), {PROFILES}"),
        ([without(3, YELLOW, 12)], YELLOW, "packet 12 (movement authority of level 1)"),
        ([without(3, RED, 27)], RED, "packet 27 (international static speed profile)"),
        (
            [packets_added(signal, GREEN, raw(137, "1")) for signal in (1, 2, 3, 4, 6)],
            GREEN,
            "packet 137 (stop if in staff responsible)",
        ),
    ):
        (one,) = found(program, tmp_path / "t.csv", "E24", *changes)
        assert one.sentence == lacks.format(aspect, aspect, packets)
    assert not found(program, tmp_path / "t.csv", "E24", without(3, RED, 12), without(4, RED, 12))
    assert not found(program, tmp_path / "t.csv", "E24", without(3, GREEN, 27))  # (a finding of the program)
    assert not found(program, tmp_path / "t.csv", "E24", turned(3, GREEN))  # (a remark of E8)
    four = Line(signals=4)
    assert not found(program, tmp_path / "t.csv", "E24", without(3, RED, 12), line=four)


def test_e24_of_two_aspects_of_a_signal(program: Program, run: Run, tmp_path: Path) -> None:
    """A second mistake hides none: a group with few packets 12 is compared by the names of its aspects, or counted."""
    both = [without(3, RED, 12, 21, 27), without(3, YELLOW, 12)]
    made = found(program, tmp_path / "t.csv", "E24", *both)
    assert [one.aspects for one in made] == [[RED, YELLOW]] and made[0].rows == (row_of(3, RED), row_of(3, YELLOW))
    assert made[0].sentence == (
        '2 aspects are unlike the aspects of the same names at other signals: "red": it lacks packets 12 (movement '
        f"authority of level 1), {PROFILES} in nominal direction, which 5 other signals have; "
        '"yellow": it lacks packet 12 (movement authority of level 1) in nominal direction, which 5 other signals have'
    )
    (one,) = found(program, tmp_path / "t.csv", "E24", *both, without(3, GREEN, 12), without(4, RED, 12))
    assert one.rows == (row_of(4, RED),)
    why = "aspects of groups without a packet 12 in half of their aspects, for one direction: 3"
    assert f"not compared by E24: 3 of 18 aspects of signals ({why})" in run("check", tmp_path / "t.csv")[1]


def test_e24_of_a_border_is_one_remark(program: Program, tmp_path: Path) -> None:
    """A signal at the border has packets at its stop aspect only. All its other aspects are one remark."""
    border = [without(6, aspect, 12, 21, 27) for aspect in (YELLOW, GREEN)]
    (one,) = found(program, tmp_path / "t.csv", "E24", *border)
    assert one.aspects == [YELLOW, GREEN] and one.rows == (row_of(6, YELLOW), row_of(6, GREEN))
    assert one.sentence.startswith("2 aspects are unlike the aspects of the same names at other signals: ")
    assert '"yellow", "green": it lacks packets 12 (movement authority of level 1), 21' in one.sentence
    assert list(one.values.values()) == [3, 3]


def test_e24_counts_what_no_majority_shows(program: Program, run: Run, tmp_path: Path) -> None:
    """Three of 15 signals are reported, and four are counted, so that no silence hides them."""
    line, path = Line(signals=15), tmp_path / "t.csv"
    empty = [without(signal, RED, 12, 21, 27) for signal in (2, 5, 8, 11)]
    assert len(found(program, path, "E24", *empty[:3], line=line)) == 3
    assert not found(program, path, "E24", *empty, line=line)
    why = "aspects that lack a packet which at least half of the signals have, as too many others do: 4"
    assert f"not compared by E24: 4 of 45 aspects of signals ({why})" in run("check", path)[1]
    orders = [packets_added(signal, RED, raw(137, "0")) for signal in (1, 2, 3)]
    assert not found(program, path, "E24", *orders, line=line) and "compared by E24" not in run("check", path)[1]


def slow_on_sight(signal: int, main: int, fast: int = 8) -> List[Change]:
    """Yellow leads over points with 40 km/h, in on sight with V_MAMODE `fast`, and has this V_MAIN."""

    def points(rows: List[Row]) -> None:
        speeds = change(rows, f"Signal {signal}", YELLOW, 27)["elements"]
        speeds[1:1] = [{**speeds[0], "d_static": 300, "v_static": 8}]
        speeds[2]["d_static"] -= 300

    mode = packets_added(signal, YELLOW, raw(80, f"01{0:015b}00{fast:07b}{1500:015b}{0:015b}0{0:05b}"))
    return [points, packet_with(signal, YELLOW, 12, v_main=main), mode]


def test_e24_of_a_slow_route_with_a_mode_profile(program: Program, tmp_path: Path) -> None:
    """Yellow of one signal leads over points in on sight. Its V_MAIN and V_MAMODE may be those of the points."""
    path = tmp_path / "t.csv"
    assert not found(program, path, "E24", *slow_on_sight(3, 8))
    sight = raw(80, f"01{0:015b}00{10:07b}{1500:015b}{0:015b}0{0:05b}")
    usual = [
        each
        for signal in (1, 2, 4, 5, 6)
        for each in (packets_added(signal, YELLOW, sight), packet_with(signal, YELLOW, 12, v_main=10))
    ]
    assert not found(program, path, "E24", *usual, *slow_on_sight(3, 8, 6))
    (one,) = found(program, path, "E24", *usual, *slow_on_sight(3, 8, 12))
    assert "V_MAMODE is 60 km/h, and 50 km/h at all 5 other signals with it" in one.sentence
    (one,) = found(program, path, "E24", *usual, *slow_on_sight(3, 12))
    assert "V_MAIN is 60 km/h [12], and 50 km/h [10] at all 5 other signals" in one.sentence
    straight = packets_added(3, YELLOW, raw(80, f"01{0:015b}00{8:07b}{1500:015b}{0:015b}0{0:05b}"))
    (one,) = found(program, path, "E24", *usual, straight, packet_with(3, YELLOW, 12, v_main=8))
    assert "V_MAIN is 40 km/h [8], and 50 km/h [10] at" in one.sentence and "V_MAMODE is 40 km/h" in one.sentence


def test_e24_of_an_order_that_most_stop_aspects_lack(program: Program, tmp_path: Path) -> None:
    """Each red but that of Signal 3 has packet 137, and no yellow, which stops too. E8 is silent then."""
    stops = [packet_with(signal, YELLOW, 12, v_main=0) for signal in range(1, 7)]
    orders = [packets_added(signal, RED, raw(137, "0")) for signal in (1, 2, 4, 5, 6)]
    assert not found(program, tmp_path / "t.csv", "E8", *stops, *orders)
    (one,) = found(program, tmp_path / "t.csv", "E24", *stops, *orders)
    assert one.rows == (row_of(3, RED),) and "lacks packet 137 (stop if in staff responsible)" in one.sentence
    assert not found(program, tmp_path / "t.csv", "E24", *orders)  # (a remark of E8)


def test_e24_says_at_how_many_signals(program: Program, tmp_path: Path) -> None:
    """Another signal may have a value of its own, or "go" at an aspect that does not stop."""
    own = [overlap_of(3, GREEN, t_ol=30), overlap_of(5, GREEN, t_ol=20, d_ol=150)]
    (one,) = found(program, tmp_path / "t.csv", "E24", *own)
    assert one.rows == (row_of(3, GREEN),) and one.sentence.endswith(", and 60 s at 4 of 5 other signals with it")
    orders = [packets_added(signal, RED, raw(137, bit)) for signal, bit in enumerate("011", 1)]
    lacking, one = found(program, tmp_path / "t.csv", "E24", *orders, without(3, RED, 12))
    assert "lacks packet 12" in lacking.sentence and one.rows == (row_of(2, RED),)
    assert one.sentence.endswith(", and stop if in SR mode at 1 of 2 other signals with it")


@pytest.mark.parametrize(
    "key, value, words", [("t_ol", 30, "T_OL is 30 s, and 60 s"), ("d_startol", 0, "D_STARTOL is 0 m")]
)
def test_e24_of_values(program: Program, tmp_path: Path, key: str, value: int, words: str) -> None:
    """One signal has another value. It may, with a D_OL of its own, or if two signals have it."""
    own = overlap_of(3, GREEN, **{key: value})
    (one,) = found(program, tmp_path / "t.csv", "E24", own)
    assert words in one.sentence and one.sentence.endswith(" at all 5 other signals with it")
    assert one.rows == (row_of(3, GREEN),) and one.values[key] == value
    assert not found(program, tmp_path / "t.csv", "E24", own, overlap_of(3, GREEN, d_ol=150))
    assert not found(program, tmp_path / "t.csv", "E24", own, overlap_of(4, YELLOW, **{key: value}))


def test_e24_counts_values_of_several_signals(program: Program, run: Run, tmp_path: Path) -> None:
    """Two signals with another value are a design as often as mistakes, so that a line counts them."""
    path = tmp_path / "t.csv"
    assert not found(program, path, "E24", *(overlap_of(signal, GREEN, t_ol=30) for signal in (3, 4)))
    why = "aspects with a value of packet 12 or 80 that differs at several signals: 2"
    assert f"not compared by E24: 2 of 18 aspects of signals ({why})" in run("check", path)[1]
    assert len(found(program, path, "E24", overlap_of(3, GREEN, t_ol=30))) == 1
    assert "not compared by E24" not in run("check", path)[1]


def test_e24_of_speeds(program: Program, tmp_path: Path) -> None:
    """V_MAIN is the greatest V_STATIC at all other signals, or one speed. A signal may have a speed of its own."""
    (one,) = found(program, tmp_path / "t.csv", "E24", packet_with(3, GREEN, 12, v_main=40))
    assert "V_MAIN is 200 km/h [40] and the greatest V_STATIC" in one.sentence
    assert not found(program, tmp_path / "t.csv", "E24", element_with(3, YELLOW, 27, 0, v_static=32))  # (E10)
    assert not found(program, tmp_path / "t.csv", "E24", packet_with(3, GREEN, 12, v_main=120))  # (E2)
    low = packet_with(3, GREEN, 12, v_main=10)
    assert len(found(program, tmp_path / "t.csv", "E24", low)) == 1
    assert not found(program, tmp_path / "t.csv", "E24", low, packet_with(3, YELLOW, 12, v_main=10))
    caution = [packet_with(signal, YELLOW, 12, v_main=8) for signal in (1, 2, 4, 5, 6)]
    (one,) = found(program, tmp_path / "t.csv", "E24", *caution)
    assert "V_MAIN is 140 km/h [28], and 40 km/h [8] at all 5 other signals" in one.sentence


def test_e24_of_speeds_of_several_signals(program: Program, tmp_path: Path) -> None:
    """Three of 15 are reported, since four times as many have what is usual. Four are counted."""
    path, line, green = tmp_path / "t.csv", Line(), (2, 5, 8, 11)
    high = [packet_with(signal, GREEN, 12, v_main=40) for signal in green]
    made = found(program, path, "E24", *high[:3], line=line)
    assert [each.aspects for each in made] == [[GREEN]] * 3
    assert all(each.sentence.endswith("at 12 of 14 other signals they are equal") for each in made)
    assert left_of(program, path, "E24", *high, line=line) == {MAIN: 4}
    whole = [packet_with(signal, at, 12, v_main=10) for signal in green[:2] for at in (YELLOW, GREEN)]
    assert left_of(program, path, "E24", *whole, line=line) == {MAIN: 4}
    assert not left_of(program, path, "E24", line=line)


def test_e24_of_a_speed_too_low_for_any_route(program: Program, tmp_path: Path) -> None:
    """Each yellow is in on sight. A V_MAIN of 5 km/h is that of no slow route."""
    mode = raw(80, f"01{0:015b}00{8:07b}{1500:015b}{0:015b}0{0:05b}")
    usual = [packets_added(signal, YELLOW, mode) for signal in range(1, 7)]
    (one,) = found(program, tmp_path / "t.csv", "E24", *usual, packet_with(3, YELLOW, 12, v_main=1))
    assert one.rows == (row_of(3, YELLOW),) and "V_MAIN is 5 km/h [1]" in one.sentence
    assert left_of(program, tmp_path / "t.csv", "E24", *usual, packet_with(3, YELLOW, 12, v_main=16)) == {MAIN: 1}


def test_e24_of_stop_and_go(program: Program, run: Run, tmp_path: Path) -> None:
    """One signal lets trains pass at danger, or stops them at green. Two signals may do so."""
    path = tmp_path / "t.csv"

    def orders(aspect: str, number: int, bits: str) -> List[Change]:
        return [packets_added(signal, aspect, raw(number, bit)) for signal, bit in enumerate(bits, 1)]

    for number, name in ((137, "Q_SRSTOP"), (132, "Q_ASPECT")):
        (one,) = found(program, path, "E24", *orders(RED, number, "01"))
        assert one.sentence.startswith(f'the aspect "red" is unlike "red" at other signals: {name} is go if in ')
        assert one.sentence.endswith(" at 1 other signal with it") and "V_MAIN is 0 km/h [0]" in one.sentence
        assert one.rows == (row_of(2, RED),)
        assert not found(program, path, "E24", *orders(RED, number, "011"))
    two = found(program, path, "E24", *orders(GREEN, 137, "1001111111"), line=Line(signals=10))
    assert [one.aspects for one in two] == [[GREEN], [GREEN]]
    assert all(one.sentence.endswith("and go if in SR mode at 8 of 9 other signals with it") for one in two)
    for bits in ("111111", "001100"):
        assert not found(program, path, "E24", *orders(RED, 137, bits))
        why = "aspects whose packet 132 or 137 contradicts V_MAIN, as at several signals"
        count = bits.count("1")
        assert f"not compared by E24: {count} of 18 aspects of signals ({why}: {count})" in run("check", path)[1]
    (one,) = found(program, path, "E24", *orders(GREEN, 137, "10"))
    assert one.rows == (row_of(2, GREEN),) and "Q_SRSTOP is stop if in SR mode, although V_MAIN is " in one.sentence
    assert not found(program, path, "E24", *orders(GREEN, 132, "10"))
    (one,) = found(program, path, "E24", *orders(RED, 137, "00001"), without(5, RED, 12))
    assert "lacks packet 12" in one.sentence and "Q_SRSTOP" not in one.sentence


@pytest.mark.parametrize(
    "having, lacking",
    [((RED, YELLOW), GREEN), ((RED, GREEN), ""), ((YELLOW, GREEN), ""), ((RED,), ""), ((RED, YELLOW, GREEN), "")],
)
def test_e8_of_conditions(program: Program, tmp_path: Path, having: Sequence[str], lacking: str) -> None:
    """Green leads farther than yellow, so it needs the condition too. Yellow need not have what green has beyond it."""
    changes = [with_packet("Signal 3", aspect, raw(68, f"010{500:015b}{300:015b}{9:04b}{0:05b}")) for aspect in having]
    made = found(program, tmp_path / "t.csv", "E8", *changes)
    assert [each.aspects for each in made] == ([[lacking]] if lacking else [])
    assert all(
        "lacks packet 68 (track condition) in nominal direction, which 2 other" in each.sentence for each in made
    )


def proceeding(signal: int) -> Change:
    """A signal has one telegram for each balise, which lets trains proceed as green does."""

    def keep_green(rows: List[Row]) -> None:
        own = telegram(rows, signal, GREEN)
        own["m_mcount"] = 255
        rows[:] = [row for row in rows if row.group != f"Signal {signal}" or row.aspect in (FIXED, GREEN)]
        for row in rows:
            row.aspect = "" if row.group == f"Signal {signal}" else row.aspect

    return keep_green


def test_e8_of_a_signal_that_never_stops_trains(program: Program, tmp_path: Path) -> None:
    """One signal beside five that have a stop aspect, and neither the first one of the line nor one of an area."""
    line, path = Line(signals=7), tmp_path / "t.csv"
    (one,) = found(program, path, "E8", proceeding(3), line=line)
    assert said([one]) == [
        (
            (10, 11),
            "this group always lets trains proceed in nominal direction, and 6 of 6 other signals have an aspect that "
            "does not: nothing stops a train here",
        )
    ]
    level = {"nid_packet": 41, "q_dir": 1, "q_scale": 1, "d_leveltr": 32_767}
    order = packets_added(3, FIXED, {**level, "transitions": [{"m_leveltr": 2, "l_ackleveltr": 0}]})
    assert not found(program, path, "E8", order, proceeding(3), line=line)
    for changes in ([proceeding(1)], [proceeding(3), proceeding(5)]):
        assert not found(program, path, "E8", *changes, line=line)
    assert not found(program, path, "E8", proceeding(3), line=Line(signals=5))
    red = packet_with(3, RED, 12, v_main=10, l_endsection=1500)
    assert not found(program, path, "E8", red, line=line)  # (E9 reports it)


def test_e8_of_a_table_without_a_stop_aspect(run: Run, program: Program, tmp_path: Path) -> None:
    """A note says so if three signals have none. One signal with a stop aspect silences it."""
    path = tmp_path / "t.csv"
    for stopping, count in ((0, 1), (1, 0)):
        reds = [packet_with(number, RED, 12, v_main=10, l_endsection=100) for number in range(1, 7 - stopping)]
        _, out, _ = run("check", written(program, path, SHORT, *reds))
        notes = [each for each in out if "no aspect of 6 signals has V_MAIN 0" in each]
        assert len(notes) == count


def ended(signal: int, aspect: str, number: int, farther: int) -> Change:
    """The end mark of a profile is so many metres farther."""

    def move(rows: List[Row]) -> None:
        mark = change(rows, f"Signal {signal}", aspect, number)["elements"][-1]
        mark["d_gradient" if number == 21 else "d_static"] += farther

    return move


@pytest.mark.parametrize(
    "aspect, numbers, farther",
    [(GREEN, (21,), 300), (GREEN, (27,), 8), (GREEN, (27,), 3), (GREEN, (21, 27), 300), (GREEN, (27,), -100)],
)
def test_e4_of_the_end(program: Program, tmp_path: Path, aspect: str, numbers: Sequence[int], farther: int) -> None:
    """A profile ends elsewhere beside its authority than those of all others. The program reports one too short."""
    changes = [ended(3, aspect, number, farther) for number in numbers]
    made = found(program, tmp_path / "t.csv", "E4", *changes)
    assert [each.location.number for each in made] == [number for number in numbers if farther > 3]
    for each in made:
        assert each.sentence == (
            f"it ends {200 + farther} m beyond the end of the authority, and those of all 5 other signals with such "
            "authorities end 200 m beyond the end of the authority, such as that of Signal 1 (km 10.000), aspect "
            '"yellow", row 4'
        )
    two = [ended(5, YELLOW, number, 300) for number in (21, 27)]
    assert not found(program, tmp_path / "t.csv", "E4", ended(3, aspect, 21, 300), ended(3, aspect, 27, 300), *two)
    assert not found(program, tmp_path / "t.csv", "E4", *changes, line=Line(signals=5))


def test_e4_of_an_authority_that_ends_elsewhere(program: Program, tmp_path: Path) -> None:
    """Both profiles differ since the authority is shorter: other rules report it. One with V_LOA is not compared."""
    for values in ({"l_endsection": 1300}, {"l_endsection": 1300, "end_speed": 10}):
        assert not found(program, tmp_path / "t.csv", "E4", packet_with(3, YELLOW, 12, **values))
    longer = ended(3, YELLOW, 21, 300)
    assert found(program, tmp_path / "t.csv", "E4", longer)
    assert not found(program, tmp_path / "t.csv", "E4", longer, packet_with(3, YELLOW, 12, end_speed=10))

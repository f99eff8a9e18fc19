"""`links`: each of L1 to L9 reports the table with its one fault, and no other rule does."""
from __future__ import annotations

import json
import re
import shlex
from decimal import Decimal
from pathlib import Path
from typing import Any, Callable, Dict, List, Optional, Sequence, Tuple

import line_table
import link_tables
import pytest
import rules_page
from cases_of_program import TOP
from conftest import Run
from telegrams import SPARE

from balisekit.engine.program import Program
from balisekit.etcs.geometry import kilometres
from balisekit.present.explanations import WHOLE
from balisekit.present.links_text import compared, singular
from balisekit.rules.chainage import Jump
from balisekit.rules.line import BY_LINKS, Line, with_directions
from balisekit.rules.links import RULES, compare
from balisekit.rules.accepted import RULES as OWN
from balisekit.rules.rule import REFUSED, Options
from balisekit.tables.model import Aspect, Group, Message, Row

Write = Callable[..., Path]
Form = Any
FOLDER = TOP / "examples" / "links"
COMPARED = (
    "3 links (L1, L2), 1 link (L3), 2 groups (L4), 1 single balise (L5), 6 headers (L6), 2 profiles (L7, L8), "
    "3 pairs (L9)"
)
PAGE = (TOP / "docs" / "links.md").read_text("utf-8")


def group(name: str, *kms: str, nominal: str = "", track: str = "") -> Group:
    """A group with these kilometres of its balises. Rows are numbered by the name's letters."""
    first = sum(ord(letter) for letter in name) * 10
    rows = [
        Row(first + place, name, "", km=Decimal(km) if km else None, nominal=nominal, track=track)
        for place, km in enumerate(kms)
    ]
    return Group(name, (Aspect("", tuple(rows)),))


def line_with(*some: Tuple[Group, List[Form]], messages: Sequence[Tuple[Message, Form]] = ()) -> Line:
    """A line of groups with the forms of their balises."""
    forms = {row.number: form for one, own in some for row, form in zip(one.rows(), own)}
    return Line([one for one, _ in some], forms, messages)


def header(identity: int, *packets: Form, linked: int = 1) -> Form:
    """A telegram of country 1."""
    return {"nid_c": 1, "nid_bg": identity, "q_link": linked, "m_dup": 0, "packets": list(packets)}


def found(one: Line, tolerance: str = "0") -> List[Tuple[str, str]]:
    """The rules that have found something, and about which group."""
    remarks = compare(one, Options(Decimal(tolerance))).remarks
    return [(each.rule, each.about.group.name if each.about else "") for each in remarks]


def counts(out: Sequence[str]) -> str:
    """The last line without what each rule has compared."""
    return out[-1].split("; compared: ")[0]


def test_the_example_tables_are_those_of_the_script(program: Program) -> None:
    assert (FOLDER / "line.csv").read_text("utf-8") == link_tables.table(program, link_tables.rows_of())
    for name, (_, change) in link_tables.FAULTS.items():
        made = link_tables.table(program, link_tables.rows_of(change))
        assert (FOLDER / f"{name}.csv").read_text("utf-8") == made, name


@pytest.mark.parametrize("name", sorted(link_tables.FAULTS))
def test_each_rule_finds_its_fault_alone(run: Run, name: str) -> None:
    status, out, _ = run("links", FOLDER / f"{name}.csv")
    rules = re.findall(r": (L\d): ", "\n".join(out))
    assert (status, rules) == (1, [f"L{link_tables.FAULTS[name][0]}"])
    assert out[-1].startswith(f"links: 1 found ({rules[0]} 1) in 4 groups; compared: ")


def test_columns_passed_over_are_named(run: Run, table: Write, tmp_path: Path) -> None:
    """A mistyped one may be that of the kilometres, the track or the direction, without which little is compared."""
    heading, *lines = (FOLDER / "line.csv").read_text("utf-8").splitlines()
    status, out, _ = run("links", table(heading.replace("nominal", "nominl"), *lines), "--json", tmp_path / "out.json")
    assert status == 0 and out[1] == 'columns passed over: nominl (did you mean "nominal"?)'
    assert json.loads((tmp_path / "out.json").read_text("utf-8"))["table"]["passed_over"] == ["nominl"]
    path = table(heading.replace("km", "kmm"), *lines)
    assert run("links", path) == (
        2,
        [],
        [
            f"balisekit: {path}: no row has a kilometre: links needs the column km; "
            'columns passed over: kmm (did you mean "km"?)'
        ],
    )


def test_the_last_line_counts_by_rules(run: Run, table: Write) -> None:
    """Two faults of one rule and one of another. If a telegram is refused, the line is about the rest."""
    lines = (FOLDER / "distance-differs.csv").read_text("utf-8").splitlines()
    passed_over = (FOLDER / "group-passed-over.csv").read_text("utf-8").splitlines()
    known = (FOLDER / "identity-not-known.csv").read_text("utf-8").splitlines()
    twice = [*lines[:6], known[6], known[6].replace("D,D1,12.500", "E,E1,12.600")]
    status, out, _ = run("links", table(*twice))
    assert (status, counts(out)) == (1, "links: 3 found (L2 1, L6 2) in 5 groups")
    status, out, _ = run("links", table(*twice, f"F,F1,12.700,rising,{SPARE}"))
    assert status == 2
    assert counts(out) == "INCOMPLETE: 1 of 8 telegrams refused; links: 3 found (L2 1, L6 2) in the rest"
    assert counts(run("links", table(lines[0], passed_over[1], *lines[2:]))[1]) == "links: 1 found (L9 1) in 4 groups"


def test_the_line_without_fault_is_silent(run: Run) -> None:
    status, out, _ = run("links", FOLDER / "line.csv")
    assert status == 0 and out[1:] == [
        "L1 to L9 are rules of balisekit; balisekit is not proved; the program's own lines are quoted in full",
        f"links: none found of L1 to L9 in 4 groups; compared: {COMPARED}",
    ]
    assert run("check", FOLDER / "line.csv")[1][-1] == 'program: "yes: groups 4, messages 0"'


def test_each_rule_has_a_table() -> None:
    assert sorted(f"L{rule}" for rule, _ in link_tables.FAULTS.values()) == [rule.name for rule in RULES]


def test_the_example_of_readme_without_its_refused_telegram(run: Run, table: Write, program: Program) -> None:
    """All of its groups are looked at, and none of the rules finds anything."""
    items = list(line_table.items())
    texts = program.encode([item[5] for item in items])
    rows = [[*item[:5], text.line] for item, text in zip(items, texts)]
    status, out, _ = run("links", table(",".join(line_table.HEADING), *map(",".join, rows)))
    assert status == 0 and not any(": links L" in one for one in out)
    assert counts(out) == "links: none found of L1 to L9 in 9 groups"


def test_the_example_of_readme_has_none(run: Run) -> None:
    status, out, _ = run("links", TOP / "examples" / "table" / "line.csv")
    assert status == 2 and not any(": links L" in one for one in out)
    assert counts(out) == "INCOMPLETE: 1 of 34 telegrams refused; links: none found of L1 to L9 in the rest"
    assert any(one.startswith("note: rows 14 to 15  Infill of D  km 16.500: its direction") for one in out)


OUT = "L1 does not name them, since the table may be a section of a longer line"


@pytest.mark.parametrize(
    "left, notes, named",
    [
        (
            "EFGH",
            [
                "note: along the track 3 links lead beyond Signal D (km 16.900), the last group by the kilometres, "
                f"to NID_BG 105, 106: {OUT}"
            ],
            0,
        ),
        (
            "FGH",
            [
                "note: along the track 3 links lead beyond Signal E (km 18.250), the last group by the kilometres, "
                f"to NID_BG 106, 107: {OUT}"
            ],
            0,
        ),
        ("CF", [], 4),
        ("", [], 0),
    ],
    ids=["D", "E", "inside", "whole"],
)
def test_links_that_lead_out_of_a_section_of_a_line(
    left: str, notes: List[str], named: int, run: Run, table: Write
) -> None:
    """Those over one end have one note, and are not found one by one. A group that lacks between others is found."""
    lines = (TOP / "examples" / "table" / "line.csv").read_text("utf-8").splitlines()
    some = [line for line in lines if not line.startswith(tuple(f"Signal {one}" for one in left))]
    out = run("links", table(*some))[1]
    found = [line for line in out if line.startswith("note: ") and " beyond " in line]
    assert found == notes and sum(": L1: " in line for line in out) == named


def test_links_that_lead_out_down_the_kilometres() -> None:
    """Each end of each track by itself; a link to a group that is not known, or within Q_LOCACC of the end, is none."""

    def line_of_links(*distances: int, nid_bg: int = 7) -> List[str]:
        links = [link_tables.link(distance, nid_bg, 1) for distance in distances]
        made = line_with(
            (group("A", "5", nominal="falling", track="2"), [header(1, link_tables.linking(1, *links))]),
            (group("B", "6", nominal="falling", track="2"), [header(2)]),
        )
        assert len([rule for rule, _ in found(made) if rule == "L1"]) == (distances == (5,))
        return [note for note in compare(made).notes if " beyond " in note]

    where = 'beyond A (km 5.000), the first group of track "2" by the kilometres, to NID_BG 7'
    assert line_of_links(5) == line_of_links(500, 500, nid_bg=16_383) == []
    assert line_of_links(6) == [f"along the track 1 link leads {where}: {OUT}"]
    assert line_of_links(500, 500) == [f"along the track 2 links lead {where}: {OUT}"]


TRACKS = [("A", "0.000", "1"), ("B", "7.000", "2"), ("C", "1.000", "1"), ("D", "6.500", "2"), ("E", "5.000", "2")]
"""The groups of two tracks."""


@pytest.mark.parametrize(
    "distances, to_b, sender, words",
    [
        (
            (1000,),
            False,
            "rising",
            '; along track "1" D_LINK leads from A (km 0.000) to km 1.000, where the table has C ',
        ),
        (
            (500, 500),
            True,
            "rising",
            '; along track "2" D_LINK leads from B (km 7.000) to km 6.500, where the table has D ',
        ),
        ((500, 500), True, "", '; along track "2" D_LINK leads from B (km 7.000) to km 6.500, where the table has D '),
        ((500, 1000), True, "rising", ""),
        ((500, 5000), True, "rising", None),
    ],
    ids=["on the track", "on the other track", "without direction", "between groups", "out of the other track"],
)
def test_l1_counts_from_the_last_linked_group(
    distances: Sequence[int], to_b: bool, sender: str, words: Optional[str]
) -> None:
    """On another track it is Q_LINKORIENTATION that shows the way of the train."""
    identities = [2, 9] if to_b else [9]
    links = [link_tables.link(distance, to, int(to == 9)) for distance, to in zip(distances, identities)]
    groups = [group(name, km, nominal="rising", track=track) for name, km, track in TRACKS]
    groups[0] = group("A", "0.000", nominal=sender, track="1")
    headers = [header(1, link_tables.linking(1, *links)), *map(header, (2, 3, 4, 5))]
    made = compare(line_with(*[(each, [own]) for each, own in zip(groups, headers)]))
    sentences = [each.sentence for each in made.remarks if each.rule == "L1"]
    notes = [note for note in made.notes if " beyond " in note]
    if words is None:
        assert sentences == [] and [note.split(" by the kilometres")[0] for note in notes] == [
            'along the track 1 link leads beyond E (km 5.000), the first group of track "2"'
        ]
        return
    (sentence,) = sentences
    assert notes == [] and ("; along" in sentence) == bool(words) and words in sentence


def test_l1_knows_no_place_on_a_track_without_kilometres() -> None:
    """The distance leads over a group of another track whose place is not known."""
    links = [link_tables.link(500, 2, 1), link_tables.link(500, 9, 1)]
    one = line_with(
        (group("A", "0", nominal="rising", track="1"), [header(1, link_tables.linking(1, *links))]),
        (group("B", "", nominal="rising", track="2"), [header(2)]),
        (group("C", "1", nominal="rising", track="1"), [header(3)]),
    )
    assert [each.sentence for each in compare(one).remarks] == [
        "group 9 of country or region 1 is linked, and no group of the table has that identity"
    ]


def test_a_group_of_another_country(run: Run) -> None:
    """L1 names a group with that NID_BG and another NID_C, and so it does beyond the end of the table."""
    for distance in (1000, 5000):
        abroad = {**link_tables.link(distance, 2, 1), "nid_c": 7}
        one = line_with(
            (group("A", "0", nominal="rising"), [header(1, link_tables.linking(1, abroad))]),
            (group("B", "1", nominal="rising"), [header(2)]),
        )
        (remark,) = compare(one).remarks
        assert (remark.rule, [each.group.name for each in remark.named]) == ("L1", ["B"]) and remark.sentence == (
            "group 2 of country or region 7 is linked, and no group of the table has that identity; B (km 1.000) has "
            "that NID_BG in country or region 1"
        )


@pytest.mark.parametrize("nominal, wanted", [("rising", []), ("", [("L1", "")])])
def test_a_link_out_of_the_table_is_named_if_its_sender_has_no_direction(nominal: str, wanted: List[Any]) -> None:
    """The page names this as correct data: with a direction only a note counts the link."""
    chain = link_tables.linking(1, link_tables.link(5000, 9, 1))
    one = line_with(
        (group("A", "0", nominal=nominal), [header(1, chain)]), (group("B", "1", nominal="rising"), [header(2)])
    )
    assert found(one) == wanted


@pytest.mark.parametrize(
    "km, track, distance, nominal, is_named",
    [
        ("2.000", "", 2000, "rising", False),
        ("2.007", "", 2000, "rising", False),
        ("2.008", "", 2000, "rising", True),
        ("", "", 2000, "rising", False),
        ("2.000", "2", 2000, "rising", False),
        ("2.000", "2", 1000, "rising", True),
        ("1.000", "2", 1000, "rising", False),
        ("2.500", "", 2000, "", False),
    ],
    ids=["there", "rounded", "elsewhere", "no place", "another track", "at B", "beside B", "no direction"],
)
def test_a_link_may_lead_to_a_refused_group(km: str, track: str, distance: int, nominal: str, is_named: bool) -> None:
    """One without identity at the place by D_LINK, or at a place that is not known. It is counted, not named."""
    chain = link_tables.linking(1, link_tables.link(distance, 9, 1))
    one = line_with(
        (group("A", "0.000", nominal=nominal), [header(1, chain)]),
        (group("B", "1.000", nominal="rising"), [header(2)]),
        (group("C", km, nominal="rising", track=track), []),
        (group("D", "3.000", nominal="rising"), [header(4)]),
    )
    made = compare(one)
    sentences = [each.sentence for each in made.remarks if each.rule == "L1"]
    assert len(sentences) == is_named and made.results[RULES[0]].not_looked_at.get(REFUSED, 0) == 1 - is_named
    assert all(
        each.startswith("group 9 of country or region 1 is linked, and no telegram that was") for each in sentences
    )


def test_a_group_with_a_refused_telegram_is_not_known_to_say_anything() -> None:
    """L9 counts it in its note."""
    chain = link_tables.linking(1, link_tables.link(2000, 3, 1))
    one = line_with(
        (group("A", "0", nominal="rising"), [header(1, chain)]),
        (group("B", "1.000", "1.003"), [header(2)]),
        (group("C", "2", nominal="rising"), [header(3)]),
    )
    assert found(one) == [] and any(note.startswith("L9: 1 group with Q_LINK 1") for note in compare(one).notes)


@pytest.mark.parametrize("number, wanted", [(44, [("L9", "B")]), (145, [])])
def test_a_group_for_a_national_system_only_is_passed_over(number: int, wanted: List[Any]) -> None:
    """The page names a group with packet 44 only as correct data that gets L9."""
    chain = link_tables.linking(1, link_tables.link(20_000, 3, 1))
    own = {"nid_packet": number, "q_dir": 1, "l_packet": 32, "body": "00"}
    one = line_with(
        (group("A", "0", nominal="rising"), [header(1, chain)]),
        (group("B", "1", nominal="rising"), [header(2, own)]),
        (group("C", "2", nominal="rising"), [header(3)]),
    )
    assert [each for each in found(one) if each[0] == "L9"] == wanted


def test_the_page_has_what_is_written(run: Run, monkeypatch: pytest.MonkeyPatch) -> None:
    monkeypatch.chdir(TOP)
    block = r"^```console\n\$ \./balisekit (.+?)( \| tail -n 2)?\n(.+?)```$"
    (own,) = re.findall(block, PAGE, re.MULTILINE | re.DOTALL)
    examples = _examples()
    assert len(examples) == 10 and own in examples
    for words, cut, said in examples:
        out = run(*shlex.split(words))[1]
        assert said.splitlines() == (out[-2:] if cut else out)


def _examples() -> List[Tuple[str, str, str]]:
    """The commands of links_said.txt, whether only the last two lines follow, and what they write."""
    text = (Path(__file__).parent / "links_said.txt").read_text("utf-8")
    return re.findall(r"^\$ \./balisekit (.+?)( \| tail -n 2)?\n(.+?)(?=^$|\Z)", text, re.MULTILINE | re.DOTALL)


def test_the_page_is_made_of_the_rules() -> None:
    assert rules_page.page(PAGE) == PAGE
    assert [tuple(rule.parts) for rule in RULES] == [WHOLE[:-1]] * 9


def test_the_page_names_the_rules_that_correct_data_may_get() -> None:
    (named,) = re.findall(r"Correct data can get ([^.]*), such as", PAGE)
    assert re.findall(r"L\d", named) == [rule.name for rule in RULES if rule.has_correct_data]
    assert re.findall(r"L\d", named) == ["L1", "L2", "L8", "L9"]


def test_explain_is_what_the_page_says(run: Run) -> None:
    out = run("links", FOLDER / "group-passed-over.csv", "--explain")[1]
    assert "L9: linked group passed over" in out and any("How to correct it. Add the group" in one for one in out)


def test_json(run: Run, tmp_path: Path) -> None:
    assert run("links", FOLDER / "distance-differs.csv", "--json", tmp_path / "out.json")[0] == 1
    answer = json.loads((tmp_path / "out.json").read_text("utf-8"))
    assert answer["status"] == 1 and answer["counts"]["groups"] == 4
    one = answer["found"][0]
    assert (one["rule"], one["group"], one["row"], one["link"], one["about"]) == ("L2", "A", 2, 0, "B")
    assert (one["metres_by_d_link"], one["metres_by_kilometres"]) == ("1010", "1000.000")
    assert run("check", FOLDER / "distance-differs.csv", "--only", "L", "--json", tmp_path / "check.json")[0] == 1
    assert answer["entries"] == json.loads((tmp_path / "check.json").read_text("utf-8"))["entries"] != []
    status, out, err = run("links", FOLDER / "line.csv", "--json", "-")
    assert status == 0 and json.loads("\n".join(out))["found"] == [] and err[-1].startswith("links: none found")


def test_a_link_that_is_not_known_yet_is_no_finding() -> None:
    chain = link_tables.linking(1, link_tables.link(1000, 16_383, 1), link_tables.link(1000, 3, 1))
    between = (group("B", "1.000", nominal="rising"), [header(2)])
    one = line_with(
        (group("A", "0", "0.003"), [header(1, chain), header(1)]),
        between,
        (group("C", "2.000", nominal="rising"), [header(3)]),
    )
    assert found(one) == []
    assert found(
        line_with(
            (group("A", "0", "0.003"), [header(1, chain), header(1)]),
            between,
            (group("C", "2.1", nominal="rising"), [header(3)]),
        )
    ) == [("L2", "C")]


@pytest.mark.parametrize(
    "accuracy, tolerance, wanted",
    [(9, "0", [("L2", "B")]), (10, "0", []), (5, "4.9", [("L2", "B")]), (5, "5", []), (0, "10", [])],
)
def test_a_distance_has_an_accuracy_and_a_tolerance(accuracy: int, tolerance: str, wanted: List[Any]) -> None:
    """One unit of D_LINK, and one of the last decimal of the kilometres, are allowed too."""
    chain = link_tables.linking(1, {**link_tables.link(1012, 2, 1), "q_locacc": accuracy})
    one = line_with(
        (group("A", "0.000", nominal="rising"), [header(1, chain)]),
        (group("B", "1.000", nominal="rising"), [header(2)]),
    )
    assert found(one, tolerance) == wanted


@pytest.mark.parametrize("scale, unit", [(0, 1), (1, 10), (2, 100)])
def test_units(scale: int, unit: int) -> None:
    links = [link_tables.link(10_000 // unit, 2, 1), link_tables.link(20_000 // unit, 3, 1)]
    chain = {**link_tables.linking(1, *links), "q_scale": scale}
    one = line_with(
        (group("A", "5", nominal="falling"), [header(1, chain)]),
        (group("B", "4", nominal="falling"), [header(2)]),
        (group("C", "2", nominal="falling"), [header(3)]),
    )
    assert found(one) == []


def test_a_group_behind_the_train_and_one_wrong_distance() -> None:
    links = [link_tables.link(1000, 2, 1), link_tables.link(1000, 3, 1)]
    some = [(group("B", "1.000", nominal="rising"), [header(2)]), (group("C", "2", nominal="rising"), [header(3)])]
    falling = line_with((group("A", "0", nominal="falling"), [header(1, link_tables.linking(1, *links))]), *some)
    said = [one.sentence for one in compare(falling).remarks if one.rule == "L2"][0]
    assert said.startswith(
        "B (km 1.000) is 1000 m from A (km 0.000) by D_LINK, and 1000 m in rear of it by the "
        "kilometres: they differ by 2000 m"
    )
    links[0]["d_link"] = 1008
    rising = line_with((group("A", "0", nominal="rising"), [header(1, link_tables.linking(1, *links))]), *some)
    assert found(rising) == [("L2", "B")]


def test_small_errors_add_up() -> None:
    links = [link_tables.link(1004, 2, 1), link_tables.link(1004, 3, 1)]
    one = line_with(
        (group("A", "0", nominal="rising"), [header(1, link_tables.linking(1, *links))]),
        (group("B", "1.000", nominal="rising"), [header(2)]),
        (group("C", "2", nominal="rising"), [header(3)]),
    )
    assert found(one) == [("L2", "C")]


def test_a_single_balise_has_no_order() -> None:
    chain = link_tables.linking(1, link_tables.link(1000, 2, 0))
    one = line_with(
        (group("A", "0", nominal="rising"), [header(1, chain)]), (group("B", "1", nominal="rising"), [header(2)])
    )
    assert found(one) == []


def test_tracks_are_chains_of_their_own() -> None:
    chain = link_tables.linking(1, link_tables.link(500, 2, 0), link_tables.link(500, 3, 1))
    one = line_with(
        (group("A", "0", "0.003", track="1"), [header(1, chain), header(1)]),
        (group("B", "7", "7.003", track="2"), [header(2), header(2)]),
        (group("C", "1", nominal="rising", track="1"), [header(3)]),
        (group("X", "0.7", nominal="rising", track="2"), [header(9)]),
    )
    assert found(one) == []
    links = compare(one)
    assert links.notes == () and compared(links).endswith("; not compared: 1 link to another track")
    assert "1 of 2 links (L2), 0 of 1 link (L3)" in compared(links)


def test_aspects_and_duplicates_are_told_once() -> None:
    chain = link_tables.linking(1, link_tables.link(5, 5, 1))
    fixed, switched = Row(2, "A", "", aspect="*", km=Decimal(0)), Row(3, "A", "", aspect="x", km=Decimal(1))
    other = Row(4, "A", "", aspect="y", km=Decimal(1))
    one = Group("A", (Aspect("x", (fixed, switched)), Aspect("y", (fixed, other))))
    forms: Dict[int, Form] = {
        2: {**header(1, chain), "m_dup": 1},
        3: {**header(1, chain), "m_dup": 2},
        4: {**header(1, chain), "m_dup": 2},
    }
    assert [each.rule for each in compare(Line([one], forms)).remarks] == ["L1"]


def test_what_infill_says_is_noted_and_not_compared() -> None:
    reference = {"nid_packet": 136, "q_dir": 1, "l_packet": 38, "body": "0004"}
    one = line_with(
        (group("A", "0", nominal="rising"), [header(1, reference, link_tables.linking(1, link_tables.link(7, 99, 1)))])
    )
    assert found(one) == [] and "counts from the group of packet 136" in compare(one).notes[0]


def test_infill_has_profiles_of_its_own() -> None:
    reference = {"nid_packet": 136, "q_dir": 1, "l_packet": 38, "body": "0004"}
    packets = link_tables.authority()
    packets[2]["elements"].pop()
    one = line_with((group("A", "0", nominal="rising"), [header(1, reference, *packets)]))
    assert found(one) == [("L7", "")]


def test_profiles_without_an_authority_are_free() -> None:
    packets = link_tables.authority()
    packets[1]["elements"].pop()
    packets[2]["elements"][0]["d_static"] = 50
    one = line_with((group("A", "0", "0.003"), [header(1, *packets[1:]), header(1)]))
    assert found(one) == []


def test_a_profile_that_another_one_completes() -> None:
    packets = link_tables.authority()
    late = {
        **packets[1],
        "elements": [{"d_gradient": 400, "q_gdir": 1, "g_a": 3}, {"d_gradient": 600, "q_gdir": 0, "g_a": 255}],
    }
    assert found(line_with((group("A", "0", "0.003"), [header(1, *packets, late), header(1)]))) == []
    alone = line_with((group("A", "0", "0.003"), [header(1, packets[0], packets[2], late), header(1)]))
    assert found(alone) == [("L8", "")]


def test_messages_count_from_their_group() -> None:
    form = {
        "nid_message": 3,
        "nid_c": 1,
        "nid_bg": 1,
        "packets": [
            {
                "nid_packet": 15,
                "q_dir": 1,
                "q_scale": 1,
                "end_speed": 0,
                "end_timeout": 1023,
                "sections": [],
                "l_endsection": 900,
            },
            link_tables.linking(1, link_tables.link(1100, 2, 1)),
            {**link_tables.authority()[1], "elements": [{"d_gradient": 0, "q_gdir": 1, "g_a": 5}]},
        ],
    }
    some = [(group("A", "0", nominal="rising"), [header(1)]), (group("B", "1.000", nominal="rising"), [header(2)])]
    one = line_with(*some, messages=[(Message(3, ""), form)])
    assert found(one) == [("L2", "B"), ("L7", "")]
    assert str(compare(one).remarks[0].location) == (
        "message of line 3  nominal  packet 5 (linking), second in the message, first link"
    )
    lost = line_with(*some, messages=[(Message(3, ""), {**form, "nid_bg": 77})])
    assert found(lost) == [("L7", "")] and "its group is not in the table" in compare(lost).notes[0]


def test_notes_on_groups() -> None:
    chain = link_tables.linking(1, link_tables.link(1000, 2, 1))
    one = line_with(
        (group("A", "0"), [header(1, chain)]),
        (group("B", ""), [header(2)]),
        (group("C", "5"), []),
        (group("D", "6", nominal="rising"), [header(2)]),
    )
    notes = compare(one).notes
    assert found(one) == [] and [note.split(": ", 1)[1][:36] for note in notes] == [
        "its direction along the kilometres i",
        "it has no kilometre: L2 and L9 do no",
        "no telegram of it could be read, so ",
        "links to its identity count for B, w",
    ]


def test_linked_by_many() -> None:
    chain = link_tables.linking(1, link_tables.link(1000, 9, 1))
    some = [(group(name, ""), [header(ord(name), chain)]) for name in "ABCDE"]
    one = compare(line_with(*some, (group("Z", ""), [header(9, linked=0)]))).remarks
    assert [(each.rule, each.sentence) for each in one] == [
        ("L4", "its Q_LINK is 0, and it is linked by A, B, C and 2 more")
    ]


def test_l5_names_the_first_packet_whose_direction_counts() -> None:
    """Packets 44, 145 and 254 may hold in one direction."""
    passed_over = [{"nid_packet": number, "q_dir": 1} for number in (44, 145, 254)]
    order = {"nid_packet": 41, "q_dir": 0}
    some = [("A", passed_over), ("B", [*passed_over, order]), ("C", [{**order, "q_dir": 2}])]
    one = line_with(*((group(name, "1"), [header(ord(name), *own, linked=0)]) for name, own in some))
    (remark,) = [each for each in compare(one).remarks if each.rule == "L5"]
    assert remark.about and remark.about.group.name == "B"
    words = (
        "packet 41 (level transition order) holds only in reverse direction: a train cannot tell its direction by it"
    )
    assert remark.sentence == f"the group has one balise and Q_LINK 0, and {words}"


def test_bad_input(run: Run, table: Write, tmp_path: Path) -> None:
    path = table("group,telegram", "A," + "0" * 54)
    assert run("links", path) == (2, [], [f"balisekit: {path}: no row has a kilometre: links needs the column km"])
    assert run("links", path, "--tolerance", "-1")[0] == run("links", path, "--tolerance", "1e3")[0] == 2
    assert run("links", tmp_path / "none.csv")[0] == 2 and run("links", tmp_path)[0] == 2
    path = table("group,km,telegram", "A,1," + "0" * 54)
    status, out, _ = run("links", path)
    assert status == 2 and counts(out).startswith("INCOMPLETE: 1 of 1 telegrams refused, L5 compared none of 1")
    assert run("links", path, "--json", tmp_path)[0] == 3
    assert run("links", path, "--program", "/bin/false", "--json", tmp_path / "x.json")[0] == 3
    assert not (tmp_path / "x.json").exists()


def test_never_a_yes(run: Run) -> None:
    for path in sorted(FOLDER.glob("*.csv")):
        assert "yes" not in "\n".join(run("links", path)[1])


def test_names_move_no_cursor(run: Run, table: Write) -> None:
    lines = (
        (FOLDER / "distance-differs.csv")
        .read_text("utf-8")
        .replace("A,A1", "A\x1b[2J\u202e,A1")
        .replace("A,A2", "A\x1b[2J\u202e,A2")
        .splitlines()
    )
    out = "\n".join(run("links", table(*lines))[1])
    assert ": L2: " in out and not set(out) & {"\x1b", "\u202e"}


@pytest.mark.uncovered
def test_any_correct_line_is_silent() -> None:
    hypothesis = pytest.importorskip("hypothesis")
    st = hypothesis.strategies

    def tried(places: List[int], up: bool, faces: List[bool], wrong: int, by: int) -> None:
        metres = sorted(set(places))
        hypothesis.assume(len(metres) > 2)
        made = _line(metres if up else metres[::-1], up, (faces * 20)[: len(metres)])
        assert found(made) == []
        at = wrong % (len(metres) - 1)
        spoilt = _line(metres if up else metres[::-1], up, (faces * 20)[: len(metres)], at, by)
        assert found(spoilt) == [("L2", f"G{at + 1}")]

    hypothesis.given(
        st.lists(st.integers(0, 30_000), min_size=3, max_size=12),
        st.booleans(),
        st.lists(st.booleans(), min_size=1),
        st.integers(0, 50),
        st.integers(8, 500),
    )(tried)()


def _line(metres: List[int], up: bool, faces: List[bool], wrong: int = -1, by: int = 0) -> Line:
    """Groups in the order in which a train passes them: each links the next one. One link may be wrong."""
    some = []
    for place, at in enumerate(metres):
        forward = up == faces[place]
        km = Decimal(at).scaleb(-3)
        beside = km + (1 if forward else -1) * Decimal("0.0001")
        packets = []
        if place + 1 < len(metres):
            distance = abs(metres[place + 1] - at) + (by if place == wrong else 0)
            packets = [
                link_tables.linking(int(faces[place]), link_tables.link(distance, place + 1, int(faces[place + 1])))
            ]
        some.append((group(f"G{place}", str(km), str(beside)), [header(place, *packets), header(place)]))
    return _numbered(some)


def _numbered(some: List[Tuple[Group, List[Form]]]) -> Line:
    """The line, its rows numbered one after the other."""
    forms: Dict[int, Form] = {}
    groups = []
    for one, own in some:
        rows = []
        for row, form in zip(one.rows(), own):
            rows.append(Row(len(forms) + 2, row.group, "", km=row.km))
            forms[len(forms) + 2] = form
        groups.append(Group(one.name, (Aspect("", tuple(rows)),)))
    return Line(groups, forms)


SAYING: Form = {"nid_packet": 44, "q_dir": 2, "l_packet": 23, "body": ""}
"""A packet for both directions."""


@pytest.mark.parametrize(
    "number, direction, orientation, is_named",
    [(44, 1, "rising", True), (44, 0, "rising", False), (44, 0, "falling", True), (44, 0, "", False), (44, 2, "", True)]
    + [(number, 2, "rising", False) for number in (0, 145, 254)],
)
def test_groups_that_say_nothing_in_that_direction_are_a_note(
    number: int, direction: int, orientation: str, is_named: bool
) -> None:
    """Each is counted once, however many packets 5 pass it over. So is one whose direction is not known, unless it
    says something in both."""
    links = [link_tables.linking(1, link_tables.link(1000, 2, 1)), link_tables.linking(1, link_tables.link(1000, 2, 1))]
    between = {**SAYING, "nid_packet": number, "q_dir": direction}
    one = line_with(
        (group("A", "0", nominal="rising"), [header(1, *links)]),
        (group("B", "1", nominal="rising"), [header(2)]),
        (group("X", "0.5", nominal=orientation), [header(3, between)]),
        (group("Y", "0.6", nominal="rising"), [header(4)]),
    )
    words = "1 group with Q_LINK 1 is not linked by packets 5 that pass it, and says nothing in that direction"
    if not is_named:
        words = "2 groups with Q_LINK 1 are not linked by packets 5 that pass them, and say nothing in that direction"
    assert [rule for rule, _ in found(one)] == ["L9", "L9"] * is_named
    notes = [note for note in compare(one).notes if note.startswith("L9")]
    assert notes == [f"L9: {words}, as far as it is known"]


def test_late_profiles_of_messages() -> None:
    """The first message 3 is found. One that follows another one may go on from its profiles: a note counts it."""
    packets = [{**link_tables.authority()[0], "nid_packet": 15}, *link_tables.authority()[1:]]
    del packets[0]["v_main"]
    packets[2]["elements"][0]["d_static"] = 50
    form = {"nid_message": 3, "nid_c": 1, "nid_bg": 1, "packets": packets}
    some = [(Message(number, ""), form) for number in (3, 5, 8)]
    links = compare(line_with((group("A", "0", nominal="rising"), [header(1)]), messages=some))
    assert [(each.rule, str(each.location)[:17]) for each in links.remarks] == [("L8", "message of line 3")]
    note = "L8: 2 profiles begin late in messages 3 that have another message 3 before them (lines 5, 8)"
    assert list(links.notes) == [note]


def test_several_that_are_passed_over_are_one_line() -> None:
    chain = link_tables.linking(1, link_tables.link(1000, 2, 1))
    some = [
        (group(f"X{number}", f"0.{number}", nominal="rising"), [header(10 + number, SAYING)]) for number in range(1, 6)
    ]
    one = line_with(
        (group("A", "0", nominal="rising"), [header(1, chain)]), (group("B", "1", nominal="rising"), [header(2)]), *some
    )
    (said,) = (each.sentence for each in compare(one).remarks)
    assert said == (
        "X1 (km 0.100), X2 (km 0.200), X3 (km 0.300) and 2 more have Q_LINK 1 and stand between A "
        "(km 0.000) and B (km 1.000), and this packet 5 does not name them: a train that uses linking passes them over"
    )


def test_groups_between_two_are_counted_as_they_are_named() -> None:
    """Those that the packet names, those without Q_LINK, and those at the place of one of the two are none of them."""
    some = [
        ("A", "0", 1, 1),
        ("B", "9", 2, 1),
        ("E", "0", 10, 1),
        ("F", "9", 11, 1),
        ("G", "2", 12, 0),
        ("H", "3", 3, 1),
        ("I", "3", 3, 1),
        ("J", "4", 16_383, 1),
        ("K", "5", 13, 1),
        ("L", "6", 14, 1),
    ]
    chain = link_tables.linking(1, link_tables.link(9000, 2, 1), link_tables.link(0, 3, 1))
    forms = [[header(identity, chain if name == "A" else SAYING, linked=linked)] for name, _, identity, linked in some]
    one = line_with(*[(group(name, km, nominal="rising"), form) for (name, km, _, _), form in zip(some, forms)])
    over = [each.sentence for each in compare(one, Options(Decimal(9000))).remarks if each.rule == "L9"]
    assert over == [
        "K (km 5.000), L (km 6.000) have Q_LINK 1 and stand between A (km 0.000) and B (km 9.000), and "
        "this packet 5 does not name them: a train that uses linking passes them over",
        "K (km 5.000), L (km 6.000) have Q_LINK 1 and stand between B (km 9.000) and H (km 3.000), and "
        "this packet 5 does not name them: a train that uses linking passes them over",
    ]


@pytest.mark.parametrize(
    "jump, kms, distance, identity, wanted",
    [(("5", "3"), ("4.9", "3.1", "4"), 2000, 2, "L9"), (("1", "3"), ("0", "3.1", "3.2"), 1500, 9, "L1")],
    ids=["back", "forward"],
)
def test_l1_and_l9_know_where_kilometres_jump(
    jump: Tuple[str, str], kms: Sequence[str], distance: int, identity: int, wanted: str
) -> None:
    """What a jump back repeats has no order, and a jump forward leaves less of the track."""
    own = [[SAYING, link_tables.linking(1, link_tables.link(distance, identity, 1))], [SAYING], [SAYING]]
    for jumps, count in (((), 1), ((Jump(Decimal(jump[0]), Decimal(jump[1])),), 0)):
        groups: List[Tuple[Group, List[Form]]] = [
            (group(name, km, nominal="rising"), []) for name, km in zip("ABC", kms)
        ]
        some = [(one, [header(place, *packets)]) for place, ((one, _), packets) in enumerate(zip(groups, own), 1)]
        made = line_with(*some)
        made.jumps = jumps
        assert [rule for rule, _ in found(made)].count(wanted) == count


def linked(*links: Form, **sender: str) -> List[Tuple[Group, List[Form]]]:
    """A group of two balises that rises along the kilometres and sends these links."""
    km = sender.get("km", "0.000")
    name, track = sender.get("name", "A"), sender.get("track", "")
    pair = group(name, km, str(Decimal(km) + Decimal("0.003")), track=track)
    identity = ord(name) - ord("A") + 1
    return [(pair, [header(identity, link_tables.linking(1, *links)), header(identity)])]


def test_single_balises_have_the_direction_of_their_links() -> None:
    """By Q_LINKORIENTATION and the direction of the sender. What the table shows itself counts more."""
    links = [link_tables.link(1000, 2, 1), link_tables.link(1000, 3, 0), link_tables.link(1000, 4, 1)]
    some = [(group("B", "1"), [header(2)]), (group("C", "2"), [header(3)])]
    one = line_with(*linked(*links), *some, (group("D", "3", nominal="falling"), [header(4)]))
    assert [(each.rising, each.by_links) for each in one.groups] == [(1, False), (1, True), (-1, True), (-1, False)]
    assert [note.split(": ")[-1] for note in compare(one).notes] == [BY_LINKS] * 2
    groups, notes = with_directions(one.table_groups, one.forms)
    assert [kilometres(each).rising for each in groups] == [1, 1, -1, -1]
    assert notes == [f"{name} (km {km}.000): {BY_LINKS}" for name, km in (("B", 1), ("C", 2))]


def test_links_that_disagree_give_no_direction() -> None:
    """A note says why it is not known."""
    some = [*linked(link_tables.link(1000, 2, 1)), *linked(link_tables.link(2000, 2, 0), name="C", km="3")]
    one = line_with(*some, (group("B", "1"), [header(2)]))
    assert [(each.rising, each.by_links, each.links_differ) for each in one.groups][2] == (None, False, True)
    assert any("is not known, because the links that name it disagree: L3" in note for note in compare(one).notes)
    assert with_directions(one.table_groups, one.forms)[1] == []


def test_links_that_give_no_direction() -> None:
    """Those of another track, of a sender whose direction is not known, and those after a packet 136."""
    single = (group("B", "1"), [header(2)])
    chain = link_tables.linking(1, link_tables.link(1000, 2, 1))
    reference = {"nid_packet": 136, "q_dir": 1, "l_packet": 38, "body": "00d0"}
    for senders in (
        linked(link_tables.link(1000, 2, 1), track="7"),
        [(group("A", "0"), [header(1, chain)])],
        [(group("A", "0", "0.003"), [header(1, reference, chain), header(1)])],
    ):
        assert line_with(*senders, single).groups[1].rising is None


def test_a_direction_by_links_is_used_by_the_commands(run: Run, table: Write) -> None:
    """In places of `show` and of the flat table, which both note it."""
    told = (FOLDER / "line.csv").read_text("utf-8").splitlines()
    path = table(*(line.replace("C,C1,12.000,rising", "C,C1,12.000,") for line in told))
    note = f"note: C (km 12.000): {BY_LINKS}"
    assert run("show", path)[1][:2] == [note, ""] and run("show", path)[1][2:] == run("show", FOLDER / "line.csv")[1]
    out = run("table", path, "--csv", "-")
    assert note in out[2] and out[1] == run("table", FOLDER / "line.csv", "--csv", "-")[1]
    said = run("links", path)[1]
    assert f"note: row 6  C  km 12.000: {BY_LINKS}" in said and said[-1].startswith("links: none found")


def test_a_direction_by_links_is_used_for_one_group(run: Run, table: Write, tmp_path: Path) -> None:
    """In pictures, pages and `show --group`, though the links are in telegrams of other groups."""
    pytest.importorskip("jinja2")
    line = (FOLDER.parent / "table" / "line.csv").read_text("utf-8").splitlines()
    telegrams = [line[number].rsplit(",", 1)[1] for number in (1, 2, 7)]
    rows = [f"{where},{text}" for where, text in zip(("A,12.300,", "A,12.303,", "B,13.850,{}"), telegrams)]
    said: Dict[str, str] = {}
    for word in ("", "rising"):
        path = table("group,km,nominal,telegram", *(row.format(word) for row in rows))
        svg, folder, html = (tmp_path / f"all{word}{ending}" for ending in (".svg", "", ".html"))
        notes = [] if word else [f"note: B (km 13.850): {BY_LINKS}"]
        out = run("show", path, "--group", "B")[1]
        assert out[: len(notes)] == notes and run("show", path, "--group", "A")[1][0].startswith("row 2")
        assert run("draw", path, "--group", "B", "--svg", svg)[1] == [*notes, f"written: {svg}"]
        assert run("draw", path, "--all", folder)[0] == 0 and run("report", path, "--html", html)[0] != 3
        page = html.read_text("utf-8")
        texts = ["\n".join(out[2 * len(notes) :]), *(one.read_text() for one in (svg, folder / "group-B.svg"))]
        block = page[page.index('<section class="group" id="g1"') : page.index('<section id="yes">')]
        said[word] = "".join([*texts, block])
        assert all("15.050" in text or "km 15.300" in text for text in (*texts, said[word]))
    assert said[""] == said["rising"]


def test_one_of_what_a_rule_looks_at() -> None:
    """No rule writes "1 ends of authority" or "1 authoritie"."""
    some = [OWN[name].looks_at for name in ("X3", "X4", "L5", "E10")]
    assert {words: singular(words) for words in some} == {
        "ends of authority": "end of authority",
        "authorities of aspects": "authority of aspects",
        "single balises": "single balise",
        "groups with several aspects": "group with several aspects",
    }
    plural = {rule.looks_at for rule in OWN.values()} - {"infill"}
    assert all(len(singular(words)) < len(words) for words in plural) and singular("infill") == "infill"

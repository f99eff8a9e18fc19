"""`diff` recognises what moved: renumbered groups, and telegrams that changed places. Each is one entry."""
from __future__ import annotations

import json
import random
from pathlib import Path
from typing import Any, Callable, Dict, List, Tuple

import link_tables
import pytest
from conftest import Run
from telegrams import FAULTY

from balisekit.engine.program import Program

Write = Callable[..., Path]
Form = Any
Rows = Dict[Tuple[str, str, int], Form]
"""The telegrams of a table, by group, aspect and balise."""
KINDS = ("group ", "removed: ", "added: ", "exchanged: ", "changed", "note: ", "finding ")


def form(identity: int, balise: int, total: int = 1, counter: int = 255, country: int = 352) -> Form:
    """A telegram with a link, so that the groups and aspects differ."""
    link = link_tables.linking(1, link_tables.link(1000 + counter, identity + 1, 1))
    return {**link_tables.telegram(identity, balise, total, 1, link), "m_mcount": counter, "nid_c": country}


def rows_of(name: str, identity: int, country: int = 352) -> Rows:
    """A signal with two balises and three aspects."""
    return {
        (name, aspect, balise): form(identity, balise, 1, counter, country)
        for counter, aspect in enumerate(("red", "yellow", "green"))
        for balise in (0, 1)
    }


def exchange(rows: Rows, *keys: Tuple[str, str, int]) -> Rows:
    """The table with these telegrams moved in a circle: each is where the next one was."""
    return {**rows, **{after: rows[before] for before, after in zip(keys, (*keys[1:], keys[0]))}}


def written(program: Program, table: Write, rows: Rows, name: str, km: str = "1") -> Path:
    """A table of these rows. A text is written as it is."""
    texts = iter([text.line for text in program.encode([each for each in rows.values() if not isinstance(each, str)])])
    lines = [
        f"{group},{aspect},{balise},{km},{each if isinstance(each, str) else next(texts)}"
        for (group, aspect, balise), each in rows.items()
    ]
    return table("group,aspect,balise,km,telegram", *lines, name=name)


@pytest.fixture
def differ(run: Run, table: Write, program: Program, tmp_path: Path) -> Callable[..., Tuple[List[str], Any]]:
    """The entries of `diff` but those of findings, and its JSON."""

    def compare(old: Rows, new: Rows, new_km: str = "1") -> Tuple[List[str], Any]:
        paths = written(program, table, old, "old.csv"), written(program, table, new, "new.csv", new_km)
        status, out, _ = run("diff", *paths, "--json", tmp_path / "out.json", "--force")
        answer = json.loads((tmp_path / "out.json").read_text("utf-8"))
        assert status == answer["status"] and out[-1] == answer["last_line"]
        return [line for line in out if line.startswith(KINDS[:-1])], answer

    return compare


Differ = Callable[..., Tuple[List[str], Any]]
OTHERS = rows_of("B", 30)


def test_a_renumbered_group_is_one_entry(differ: Differ) -> None:
    """Its findings are neither new nor gone, and its links lead where they led."""
    old, new = rows_of("A", 7), {}
    for key, telegram in old.items():
        new[key] = {**telegram, "nid_bg": 1010}
    entries, answer = differ({**old, **OTHERS}, {**OTHERS, **new})
    assert entries == [
        "group renumbered: A  (group 1010 of country or region 352)  NID_BG 7 -> 1010, all telegrams otherwise equal  "
        "old rows 2 to 7, new rows 8 to 13"
    ]
    assert answer["last_line"] == (
        "groups added 0, removed 0, renumbered 1; telegrams and messages added 0, removed 0, changed 0, in fill or "
        "case alone 0; findings new 0, gone 0"
    )
    assert answer["status"] == 1 and answer["unchanged"]["count"] == 6
    assert answer["groups_renumbered"][0]["rows_old"] == [2, 3, 4, 5, 6, 7]
    assert answer["groups_renumbered"][0]["rows_new"] == [8, 9, 10, 11, 12, 13]


def test_a_group_whose_link_leads_elsewhere_is_not_renumbered(differ: Differ) -> None:
    def linked(identity: int, target: int) -> Rows:
        link = {**link_tables.link(1000, target, 1), "nid_c": 9}
        return {("A", "red", 0): link_tables.telegram(identity, 0, 0, 1, link_tables.linking(1, link))}

    assert [entry.split(":")[0] for entry in differ(linked(7, 20), linked(8, 20))[0]] == ["group renumbered"]
    assert [entry.split(":")[0] for entry in differ(linked(7, 20), linked(8, 21))[0]] == [
        "group removed",
        "group added",
    ]


def test_a_group_of_another_country_and_name_at_the_same_place(differ: Differ) -> None:
    old = rows_of("A", 7)
    new = {("Z", *key[1:]): {**telegram, "nid_bg": 8, "nid_c": 9} for key, telegram in old.items()}
    entries, _ = differ(old, new)
    assert entries == [
        "note: Z  (group 8 of country or region 9): name A -> Z",
        "group renumbered: Z  (group 8 of country or region 9)  NID_BG 7 -> 8, NID_C 352 -> 9, all telegrams otherwise "
        "equal  old rows 2 to 7, new rows 2 to 7",
    ]
    assert [entry.split(":")[0] for entry in differ(old, new, new_km="2")[0]] == ["group removed", "group added"]


@pytest.mark.parametrize(
    "key, changed",
    [
        (("A", "green", 1), {"nid_bg": 7}),
        (("A", "green", 1), {"nid_bg": 9}),
        (("A", "red", 0), {"m_mcount": 9}),
        (("A", "red", 0), {"q_link": 0}),
    ],
)
def test_what_is_not_all_equal_is_removed_and_added(key: Tuple[str, str, int], changed: Form, differ: Differ) -> None:
    """A telegram that kept its identity, has a third one, or differs in a field."""
    old = rows_of("A", 7)
    new = {place: {**telegram, "nid_bg": 8} for place, telegram in old.items()}
    new[key] = {**new[key], **changed}
    assert [entry.split(":")[0] for entry in differ(old, new)[0]] == ["group removed", "group added"]
    assert [entry.split(":")[0] for entry in differ(new, old)[0]] == ["group removed", "group added"]


def test_a_refused_telegram_could_be_anything(differ: Differ) -> None:
    old: Rows = {**rows_of("A", 7), ("A", "green", 1): FAULTY}
    new = {key: telegram if isinstance(telegram, str) else {**telegram, "nid_bg": 8} for key, telegram in old.items()}
    entries, answer = differ(old, new)
    assert [entry.split(":")[0] for entry in entries] == ["group removed", "group added"] and answer["status"] == 2


def test_documents_have_no_names(run: Run, table: Write, program: Program, tmp_path: Path) -> None:
    """Only one group may have these telegrams."""
    old = {**rows_of("A", 7), **OTHERS}
    new = {**{("A", *key[1:]): {**each, "nid_bg": 8} for key, each in rows_of("A", 7).items()}, **OTHERS}
    twice = {**new, **{("C", *key[1:]): {**each, "nid_bg": 9} for key, each in rows_of("C", 7).items()}}
    paths = []
    for name, rows in (("old", old), ("new", new), ("twice", twice)):
        paths.append(tmp_path / f"{name}.json")
        run("check", written(program, table, rows, f"{name}.csv"), "--document", paths[-1])
    assert "renumbered 1" in run("diff", paths[0], paths[1])[1][-1]
    assert "groups added 2, removed 1;" in run("diff", paths[0], paths[2])[1][-1]


BALISES = [[("A", aspect, 0), ("A", aspect, 1)] for aspect in ("red", "yellow", "green")]
WHERE = "A  (group 7 of country or region 352)"
EXCHANGES: List[Tuple[str, List[List[Tuple[str, str, int]]], List[str]]] = [
    (
        "the balises in every aspect",
        BALISES,
        [f'{WHERE}  balises 0 and 1 in aspects "red", "yellow", "green"  old rows 2 to 7, new rows 2 to 7'],
    ),
    (
        "the balises in one aspect",
        BALISES[1:2],
        [f'{WHERE}  balises 0 and 1 in aspect "yellow"  old rows 4 to 5, new rows 4 to 5'],
    ),
    (
        "two aspects",
        [[("A", "red", balise), ("A", "green", balise)] for balise in (0, 1)],
        [f'{WHERE}  aspects "red" and "green" of balises 0, 1  old rows 2, 3, 6, 7, new rows 2, 3, 6, 7'],
    ),
    (
        "two aspects of a balise",
        [[("A", "red", 1), ("A", "green", 1)]],
        [f'{WHERE}  aspects "red" and "green" of balise 1  old rows 3, 7, new rows 3, 7'],
    ),
    (
        "three aspects",
        [[("A", aspect, 1) for aspect in ("red", "green", "yellow")]],
        [f'{WHERE}  aspects "red" -> "green" -> "yellow" -> "red" of balise 1  old rows 3, 5, 7, new rows 3, 5, 7'],
    ),
    (
        "a balise of another aspect",
        [[("A", "red", 0), ("A", "green", 1)]],
        [
            'row 2  A  km 1.000  aspect "red"  balise (first of its group) and '
            'row 7  A  km 1.000  aspect "green"  balise (second of its group)'
        ],
    ),
    (
        "balises of two groups",
        [[("A", "red", 1), ("B", "red", 1)]],
        [
            'row 3  A  km 1.000  aspect "red"  balise (second of its group) and '
            'row 9  B  km 1.000  aspect "red"  balise (second of its group)'
        ],
    ),
]


@pytest.mark.parametrize("circles, words", [each[1:] for each in EXCHANGES], ids=[each[0] for each in EXCHANGES])
def test_an_exchange_is_one_entry(circles: List[List[Tuple[str, str, int]]], words: List[str], differ: Differ) -> None:
    """It is no change, and what did not move is unchanged."""
    old = {**rows_of("A", 7), **OTHERS}
    new, moved = old, 0
    for keys in circles:
        new, moved = exchange(new, *keys), moved + len(keys)
    entries, answer = differ(old, new)
    assert entries == [f"exchanged: {each}" for each in words]
    assert f"changed 0, in fill or case alone 0, exchanged {moved}; " in answer["last_line"]
    assert answer["unchanged"]["count"] == 12 - moved and answer["status"] == 1
    assert sum(len(each["telegrams"]) for each in answer["exchanged"]) == moved
    for each in answer["exchanged"]:
        assert {telegram["row_old"] for telegram in each["telegrams"]} == {
            telegram["row_new"] for telegram in each["telegrams"]
        }


def test_a_telegram_that_is_copied_is_no_exchange(differ: Differ) -> None:
    """The telegram that it replaces is nowhere."""
    old = rows_of("A", 7)
    entries, _ = differ(old, {**old, ("A", "red", 1): old["A", "green", 1]})
    assert [entry.split(":")[0] for entry in entries] == ["changed"]


def test_a_telegram_of_every_aspect(differ: Differ) -> None:
    """It counts once, although it is sent in three aspects."""
    old: Rows = {("A", "*", 0): form(7, 0), ("A", "red", 1): form(7, 1, 1, 1), ("A", "green", 1): form(7, 1, 1, 2)}
    entries, answer = differ(old, exchange(old, ("A", "*", 0), ("A", "red", 1)))
    where = "row 2  A  km 1.000  every aspect  balise (first of its group) and "
    where += 'row 3  A  km 1.000  aspect "red"  balise (second of its group)'
    assert entries == [f"exchanged: {where}"] and "exchanged 2;" in answer["last_line"]


@pytest.mark.uncovered
def test_each_telegram_is_in_one_entry(differ: Differ) -> None:
    """Telegrams in any order: each is exchanged, changed or unchanged, and as often as there are rows."""
    generator = random.Random(7)
    old = {**rows_of("A", 7), **OTHERS, **rows_of("C", 40)}
    for _ in range(20):
        values = list(old.values())
        some = generator.sample(range(len(values)), 6)
        for place, other in zip(some, generator.sample(some, 6)):
            values[place] = list(old.values())[other]
        _, answer = differ(old, dict(zip(old, values)))
        exchanged = [each for entry in answer["exchanged"] for each in entry["telegrams"]]
        assert len({each["row_new"] for each in exchanged}) == len(exchanged)
        moved = [number for number, (was, now) in enumerate(zip(old.values(), values), 2) if was != now]
        if all(values[place * 6]["nid_bg"] == (7, 30, 40)[place] for place in range(3)):
            assert sorted(each["row_new"] for each in exchanged) == moved
            assert answer["unchanged"]["count"] == len(values) - len(moved) and not answer["changed"]


def test_the_page_has_them(run: Run, table: Write, program: Program, tmp_path: Path) -> None:
    pytest.importorskip("jinja2")
    old = {**rows_of("A", 7), **OTHERS}
    new = exchange(
        {key: {**each, "nid_bg": 8} if key[0] == "A" else each for key, each in old.items()},
        *[("B", "red", 0), ("B", "green", 0)],
    )
    paths = [written(program, table, rows, f"{name}.csv") for name, rows in (("old", old), ("new", new))]
    run("diff", *paths, "--html", tmp_path / "diff.html")
    page = (tmp_path / "diff.html").read_text("utf-8")
    assert "Groups renumbered" in page and "NID_BG 7 -&gt; 8, all telegrams otherwise equal" in page
    assert "Telegrams exchanged" in page and "aspects &#34;red&#34; and &#34;green&#34; of balise 0" in page

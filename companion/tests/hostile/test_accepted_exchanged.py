"""Accepted entries of each rule after an exchange: an entry accepts only what its sentence said when it was signed."""
from __future__ import annotations

import csv
import io
import re
from datetime import date
from itertools import combinations
from pathlib import Path
from random import Random
from typing import Callable, Collection, Dict, Iterator, List, Optional, Set, Tuple

import pytest
import random_lines
from cases_of_program import TOP
from conftest import Run, set_day
from test_accepted_data import SIGNED, entries

from balisekit.engine.program import Program
from balisekit.errors import KitError
from balisekit.rules import accepted, checking
from balisekit.rules.accepted import (
    ANY,
    FIELDS,
    Acceptance,
    Entries,
    Item,
    Key,
    checksum,
    identities,
    keys,
    never_correct,
    under_stars,
)
from balisekit.rules.families import Outcome, apply
from balisekit.rules.location import Location
from balisekit.rules.rule import ALL, Options, Remark
from balisekit.tables import plan, reader

EXAMPLES, HERE = TOP / "examples", Path(__file__).parent
STARRED = [(rule, group) for group in "12" for rule in ("F10", "F12")]
"""What entries of the table starred/proceed.csv are about: a rule and NID_BG."""
TABLES = sorted([*EXAMPLES.glob("links/*.csv"), *EXAMPLES.glob("meaning/mistakes/*.csv"), EXAMPLES / "table/line.csv"])
PLANNED = EXAMPLES / "meaning/level-border.csv"
SEEDS = range(8)
MOST = 14
"""How many exchanges of a table are tried, beside those of aspects."""
DAY = date(2026, 6, 1)
NOT_SIGNED = re.compile(r"\(km [^)]*\)|  km [0-9.]+|(?<=balise )\"[^\"]*\" ")
"""What balisekit adds to findings, and no entry covers: kilometres, and names of balises."""
Cells = Dict[str, str]
Change = Tuple[str, List[Cells]]
Said = Tuple[Key, str]
"""What an entry has to say of an item, and the sentence of the item."""
STARS = {"aspect": ["aspect"], "all": ["nid_c", "nid_bg", *FIELDS[4:]]}
"""Fields of entries with `*`."""


def exchanged(rows: List[Cells], some: List[int], others: List[int], *columns: str) -> List[Cells]:
    """The rows with the cells of these columns exchanged between some of them and others."""
    made = [dict(row) for row in rows]
    for one, other in zip(some, others):
        for column in columns:
            made[one][column], made[other][column] = rows[other][column], rows[one][column]
    return made


def aspects_exchanged(rows: List[Cells], groups: Dict[str, List[int]]) -> Iterator[Change]:
    """The names of each two aspects of each group are exchanged."""
    for group, places in groups.items():
        names = dict.fromkeys(rows[place].get("aspect", "") for place in places)
        for one, other in combinations([name for name in names if name not in ("", "*")], 2):
            turned = {one: other, other: one}
            made = [
                {**row, "aspect": turned.get(row["aspect"], row["aspect"])} if place in places else row
                for place, row in enumerate(rows)
            ]
            yield f"aspects {one} and {other} of {group}", made


def others_exchanged(rows: List[Cells], groups: Dict[str, List[int]], with_groups: bool) -> Iterator[Change]:
    """Telegrams of a group, and cells of two groups, are exchanged."""
    for group, places in groups.items():
        for one, other in combinations(places, 2):
            if rows[one]["telegram"] != rows[other]["telegram"]:
                yield f"rows {one + 2} and {other + 2} of {group}", exchanged(rows, [one], [other], "telegram")
    for one_group, other_group in combinations(groups, 2) if with_groups else ():
        some, others = groups[one_group], groups[other_group]
        if len(some) == len(others):
            for column in {"km", "nominal", "track", "telegram"}.intersection(rows[0]):
                yield f"{column} of {one_group} and {other_group}", exchanged(rows, some, others, column)


def changes(text: str, with_groups: bool) -> Iterator[Tuple[str, str]]:
    """Tables with one exchange each, and what it is."""
    rows = list(csv.DictReader(io.StringIO(text)))
    groups: Dict[str, List[int]] = {}
    for place, row in enumerate(rows):
        groups.setdefault(row["group"], []).append(place)
    others = list(others_exchanged(rows, groups, with_groups))
    for words, made in [*aspects_exchanged(rows, groups), *Random(1).sample(others, min(MOST, len(others)))]:
        out = io.StringIO(newline="")
        writer = csv.DictWriter(out, list(rows[0]), lineterminator="\n")
        writer.writeheader()
        writer.writerows(made)
        yield words, out.getvalue()


def said_by(outcome: Outcome) -> Callable[[Item], str]:
    """The sentence of each item, with groups by identity, and without the numbers of rows."""
    named = identities(outcome.checked, outcome.checked.kept)
    labels = re.compile("|".join(rf"(?<!\w){re.escape(name)}(?!\w)" for name in sorted(named, key=len, reverse=True)))

    def said(item: Item) -> str:
        is_remark = isinstance(item, Remark)
        sentence = accepted.ROW_NUMBERS.sub("", item.sentence if isinstance(item, Remark) else str(item.statement))
        sentence = re.sub(", such as that of .*", "", sentence) if is_remark else NOT_SIGNED.sub("", sentence)
        return " ".join(labels.sub(lambda found: str(named[found[0]]), sentence).replace(" ,", ",").split())

    return said


def signed(outcome: Outcome, stars: Collection[str] = ()) -> Tuple[Entries, Dict[int, Set[Said]]]:
    """An entry for all that was found, with `*` in these fields, and what it is about by its row."""
    by_entry: Dict[Key, List[Tuple[Key, Item]]] = {}
    for key, item in zip(keys(outcome.items, outcome.checked), outcome.items):
        wide = tuple(ANY if name in stars and own else own for name, own in zip(FIELDS, key))
        by_entry.setdefault(wide, []).append((key, item))
    said, made = said_by(outcome), []
    for row, (wide, some) in enumerate(by_entry.items(), 2):
        sha256 = checksum([item for _, item in some], starred=[under_stars(wide, own) for own, _ in some])
        made.append(Acceptance(row, wide, "looked at", "J. Doe", date(2026, 1, 1), None, sha256))
    known = enumerate(by_entry.values(), 2)
    return Entries("a.csv", "", tuple(made), never_correct()), {
        row: {(own, said(item)) for own, item in some} for row, some in known
    }


def accepted_wrongly(
    program: Program, path: Path, text: str, of_line: Options, with_groups: bool, stars: Collection[str] = ()
) -> List[str]:
    """What entries accept after an exchange although they were signed for another sentence."""

    def outcome(content: str, entries: Optional[Entries] = None) -> Outcome:
        path.write_text(content, "utf-8")
        checked = checking.check(program, reader.read(str(path)))
        return apply(checked, "FLEX", of_line, (entries, DAY) if entries else None)

    entries, known = signed(outcome(text), stars)
    wrong = []
    for words, content in changes(text, with_groups):
        try:
            found = outcome(content, entries)
        except KitError:  # (the same balise has two kilometres, or another group another direction)
            continue
        said = said_by(found)
        assert found.judged is not None
        pairs = zip(keys(found.items, found.checked), found.judged.items, found.judged.by_item)
        wrong += [
            f"{words}: {key}: {said(it)}"
            for key, it, entry in pairs
            if entry and (key, said(it)) not in known[entry.row]
        ]
    return wrong


@pytest.mark.slow
@pytest.mark.parametrize("table", [pytest.param(path, id=path.stem) for path in (*TABLES, PLANNED)])
def test_no_entry_outlives_an_exchange(program: Program, tmp_path: Path, table: Path) -> None:
    """Of each rule L, E and X: of aspects, balises, groups, kilometres, directions and tracks."""
    stated = plan.read(str(EXAMPLES / "meaning/plan.csv")) if table == PLANNED else None
    of_line = Options(asked=frozenset({ALL}), plan=stated)
    text = table.read_text("utf-8")
    # (signals of a plan have the names of groups)
    assert not accepted_wrongly(program, tmp_path / "t.csv", text, of_line, table != PLANNED)


@pytest.mark.slow
@pytest.mark.parametrize("stars", STARS.values(), ids=STARS)
@pytest.mark.parametrize("name", ["table/line", "links/group-passed-over", "mistakes/E2", "mistakes/E13"])
def test_no_entry_with_a_star_outlives_an_exchange(
    program: Program, tmp_path: Path, name: str, stars: List[str]
) -> None:
    """What is exchanged between two aspects, balises or groups under a `*` is looked at again."""
    text = next(path for path in TABLES if f"{path.parent.name}/{path.stem}" == name).read_text("utf-8")
    options = Options(asked=frozenset({ALL}), line_speed=100)
    assert not accepted_wrongly(program, tmp_path / "t.csv", text, options, True, stars)


@pytest.mark.slow
@pytest.mark.parametrize("seed", SEEDS)
def test_no_entry_for_a_finding_outlives_an_exchange(program: Program, tmp_path: Path, seed: int) -> None:
    """Of the findings F, in random lines."""
    text = "\n".join(random_lines.table(program, seed)) + "\n"
    assert not accepted_wrongly(program, tmp_path / "t.csv", text, Options(), True)


def test_an_entry_with_a_star_after_an_exchange(run: Run, tmp_path: Path, monkeypatch: pytest.MonkeyPatch) -> None:
    """Telegrams of "yellow" and "green" of Signal 2 are exchanged: entries with `*` as aspect had accepted both."""
    set_day(monkeypatch, 1780000000)
    wide = [
        {**dict(zip(FIELDS, (rule, "352", group, "", ANY, "", "", "nominal"))), **SIGNED} for rule, group in STARRED
    ]
    one, other = (HERE / f"starred/{name}.csv" for name in ("proceed", "exchanged"))
    file = entries(tmp_path / "a.csv", *wide)
    _, out, _ = run("check", one, "--only", "F", "--accepted", file)
    sums = re.findall(r"row \d+: no sha256: the sha256 of the 2 findings that it fits is (\w+)", "\n".join(out))
    file = entries(tmp_path / "a.csv", *({**each, "sha256": sha256} for each, sha256 in zip(wide, sums)))
    assert run("check", one, "--only", "F", "--accepted", file)[0] == 0
    status, out, _ = run("check", other, "--only", "F", "--accepted", file)
    assert status == 1 and out[-1] == "findings 8: accepted 4 (4 by *), open 4; entries at fault 2"


def test_entries_of_earlier_versions(
    program: Program, run: Run, tmp_path: Path, monkeypatch: pytest.MonkeyPatch
) -> None:
    """Their checksums cover no names. Those of sentences with names are to be looked at again, the others hold."""
    set_day(monkeypatch, 1780000000)
    table = EXAMPLES / "meaning/mistakes/E10.csv"
    checked = checking.check(program, reader.read(str(table)))
    found = apply(checked, "E", Options())
    (item,) = found.items
    fields = {**dict(zip(accepted.FIELDS, keys(found.items, checked)[0])), "sha256": checksum([item], in_full=False)}
    file = entries(tmp_path / "a.csv", {**fields, **SIGNED})
    status, out, _ = run("check", table, "--only", "E", "--accepted", file)
    why = "its sha256 is of an earlier balisekit, and does not cover all names, places and values on which the sentence"
    assert status == 1 and f"{file}: row 2: {why} rests: have they changed since 2026-01-01?" in out
    for path, letters in ((EXAMPLES / "links/distance-differs.csv", "L"), (EXAMPLES / "meaning/mistakes/E2.csv", "E")):
        checked = checking.check(program, reader.read(str(path)))
        items = apply(checked, letters, Options()).items
        assert items and all(checksum([each]) == checksum([each], in_full=False) for each in items)


def test_a_remark_of_several_groups_is_of_their_aspects(program: Program) -> None:
    """Rules X unite what telegrams of several groups say: another aspect of another group is another place."""
    checked = checking.check(program, reader.read(str(PLANNED)))
    stated = Options(plan=plan.read(str(EXAMPLES / "meaning/plan.csv")))
    found = apply(checked, "X", stated).items
    united = [item for item in found if isinstance(item, Remark) and item.others]
    others = [[where for where in each.also if where.row and where.row.number not in each.rows] for each in united]
    assert united and all(len(own) == len(item.others) for own, item in zip(others, united))

    def in_yellow(where: Location) -> Location:
        return where._replace(row=where.row._replace(aspect="yellow")) if where.row else where

    other = [each._replace(also=list(map(in_yellow, each.also))) for each in united]
    assert any(checksum([one]) != checksum([two]) for one, two in zip(united, other))


def words_of(item: Item) -> str:
    """The sentence of a remark, or the statement of a finding."""
    return item.sentence if isinstance(item, Remark) else str(item.statement)


@pytest.mark.parametrize("table", [EXAMPLES / "table/line.csv", PLANNED], ids=["line", "plan"])
def test_names_of_groups_exchanged(program: Program, tmp_path: Path, table: Path) -> None:
    """An entry stays with an identity and its telegrams. A remark for which a name counts, as of X4, is another one."""
    stated = plan.read(str(EXAMPLES / "meaning/plan.csv")) if table == PLANNED else None
    rows, path = list(csv.DictReader(io.StringIO(table.read_text("utf-8")))), tmp_path / "t.csv"

    def outcome(turned: Dict[str, str], entries: Optional[Entries] = None) -> Outcome:
        lines = [",".join(rows[0]), *(",".join([turned.get(cell, cell) for cell in row.values()]) for row in rows)]
        path.write_text("\n".join(lines), "utf-8")
        checked = checking.check(program, reader.read(str(path)))
        return apply(checked, "FLEX", Options(asked=frozenset({ALL}), plan=stated), (entries, DAY) if entries else None)

    first = outcome({})
    # (a sentence that names a row of the plan has the same words, and one that names a group the same identity)
    (entries, sentences), words = signed(first), set(map(words_of, first.items))
    names = [group.name for group in first.checked.kept]
    for one, other in list(zip(names, names[1:]))[:MOST]:
        found = outcome({one: other, other: one}, entries)
        said = said_by(found)
        assert found.judged is not None
        pairs = [(item, entry) for item, entry in zip(found.judged.items, found.judged.by_item) if entry]
        assert len(pairs) > 2 and all(
            words_of(item) in words or said(item) in {own for _, own in sentences[entry.row]} for item, entry in pairs
        ), (one, other)

"""Random lines: no rule remarks on a sound one, and a change of one field is remarked at its row, with its value."""
from __future__ import annotations

import json
from collections import Counter
from pathlib import Path
from typing import Any, Dict, List, Set

import pytest
from conftest import Run
from meaning_changes import CHANGES, Changed, changed
from meaning_line import table
from meaning_random import random_line

from balisekit.engine.program import Program
from balisekit.rules import checking, links, meaning
from balisekit.rules.line import Line
from balisekit.rules.rule import ALL, Options
from balisekit.tables import reader

pytestmark = pytest.mark.uncovered
ASKED = Options(asked=frozenset({ALL}))
NOT_MODELLED = 9
"""The rule that names packets that the program keeps as bits."""


def found_in(program: Program, path: Path, seed: int, most: int) -> List[str]:
    """What the program and all rules L and E find of a sound line."""
    path.write_text(table(program, random_line(seed, most).rows), "utf-8")
    checked = checking.check(program, reader.read(str(path)))
    line = Line.of(checked)
    made = [remark for rule in (*links.RULES, *meaning.RULES) for remark in rule.find(line, ASKED).found]
    own = [place.finding.line for place in checked.findings if place.finding.rule != NOT_MODELLED]
    return [*own, *(f"{each.rule}: {each.location}: {each.sentence}" for each in made)]


def is_named(change: Changed, entries: List[Any]) -> bool:
    """Whether an entry, or one that is folded below it, has a row of the change, and its value."""
    return any(
        change.numbers.intersection([*each["rows"], *each["other_rows"]])
        and any(words in each["sentence"] for words in change.words)
        for entry in entries
        for each in (entry, *entry["folded"])
    )


@pytest.mark.parametrize("most, seeds, unnamed", [(12, range(63), {}), (30, range(42), {})])
def test_changes(run: Run, program: Program, tmp_path: Path, most: int, seeds: range, unnamed: Dict[str, int]) -> None:
    """Each change is named, but for the number of each kind that is known. (The longest tests here, so the first.)"""
    path, answer = tmp_path / "t.csv", tmp_path / "t.json"
    kinds: Set[str] = set()
    missed: Counter[str] = Counter()
    for seed in seeds:
        change = changed(seed, most)
        kinds.add(change.kind)
        path.write_text(table(program, change.rows), "utf-8")
        run("check", path, "--rules", "all", "--force", "--json", answer)
        missed[change.kind] += not is_named(change, json.loads(answer.read_text("utf-8"))["entries"])
    assert len(kinds) == len(CHANGES)
    assert +missed == unnamed


@pytest.mark.parametrize("most, seeds", [(200, range(12)), (12, range(20))])
def test_sound(program: Program, tmp_path: Path, most: int, seeds: range) -> None:
    found = {seed: made for seed in seeds for made in [found_in(program, tmp_path / "t.csv", seed, most)] if made}
    assert not found


def test_sizes() -> None:
    """The lines have 5 to 200 groups."""
    lines = [random_line(seed, most) for seed in range(60) for most in (12, 200)]
    sizes = [sum(len(track.sites) for track in line.tracks) for line in lines]
    assert min(sizes) == 5 and 150 < max(sizes) <= 200

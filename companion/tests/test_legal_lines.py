"""Legal lines of five kinds get no remark, but for those whose page names them as correct data."""
from __future__ import annotations

from collections import Counter
from pathlib import Path
from typing import Dict

import pytest
from legal_lines import KINDS, legal_line, with_limits
from meaning_line import table

from balisekit.engine.program import Program
from balisekit.rules import checking
from balisekit.rules.families import FAMILIES, Outcome, apply
from balisekit.rules.rule import Options
from balisekit.tables import reader

pytestmark = pytest.mark.uncovered
DESIGNS = 12
"""How many lines there are of each kind: 60 in all."""
NAMED: Dict[str, Dict[str, int]] = {"double track": {"E8": 1, "F10": 2}, "level 2 border": {"E24": 1}}
"""How many lines of a kind get a remark that its page names.

For E8 that is "at some signals these trains are allowed to pass". F10 of these aspects, which have no profiles, is
not expected then: another rule calls them wrong. For E24 it is a T_OL of its own, with an overlap as long as others.
"""


def outcome_of(program: Program, path: Path, kind: str, seed: int) -> Outcome:
    """What all rules that are applied by default find of a legal line."""
    path.write_text(table(program, legal_line(kind, seed).rows), "utf-8")
    return apply(checking.check(program, reader.read(str(path))), tuple(FAMILIES), Options())


@pytest.mark.parametrize("kind", KINDS)
def test_legal_lines(program: Program, tmp_path: Path, kind: str) -> None:
    lines: Counter[str] = Counter()
    for seed in range(DESIGNS):
        outcome = outcome_of(program, tmp_path / "line.csv", kind, seed)
        assert outcome.whole, (seed, outcome)
        lines.update({entry.rule for entry in outcome.entries if not entry.expected})
    assert lines == NAMED.get(kind, {})


def test_limits_of_authority(program: Program, tmp_path: Path) -> None:
    """Authorities that end at a level border with V_LOA above 0, by the aspect: nothing is remarked."""
    speeds, path = set(), tmp_path / "line.csv"
    for seed in range(DESIGNS):
        rows = with_limits(legal_line("level 2 border", seed))
        path.write_text(table(program, rows), "utf-8")
        outcome = apply(checking.check(program, reader.read(str(path))), tuple(FAMILIES), Options())
        assert outcome.whole and not [entry for entry in outcome.entries if not entry.expected], (seed, outcome)
        authorities = [form for row in rows for form in row.form["packets"] if form["nid_packet"] == 12]
        speeds |= {(seed, form["end_speed"]) for form in authorities}
    assert len({speed for _, speed in speeds}) > 2 and len(speeds) >= 2 * DESIGNS


def test_kinds_differ() -> None:
    """What differs from signal to signal in practice differs here, and each kind has what it is called after."""
    sent = {
        kind: [form for seed in range(DESIGNS) for row in legal_line(kind, seed).rows for form in row.form["packets"]]
        for kind in KINDS
    }
    numbers = {kind: {form["nid_packet"] for form in forms} for kind, forms in sent.items()}
    assert all(own >= {5, 12, 21, 27} for own in numbers.values())
    assert numbers["level 2 border"] >= {41, 42, 45} and 65 in numbers["low density"] and 136 in numbers["double track"]
    authorities = [form for forms in sent.values() for form in forms if form["nid_packet"] == 12]
    overlaps = [form["overlap"] for form in authorities if "overlap" in form]
    for parts, key, least in ((authorities, "v_main", 8), (overlaps, "t_ol", 4), (overlaps, "d_startol", 20)):
        assert len({part[key] for part in parts}) >= least
    assert any("danger_point" in form for form in authorities) and any("end_timer" in form for form in authorities)

"""Whatever rules skip is counted: an item that is planted at random in a made line gets an entry, or a line of its own.

The items are what rules cannot place, or what other rules look at: packets after a packet 136, groups without
kilometre, groups that the table lacks, groups that nobody links, and odd headers.
"""
from __future__ import annotations

import copy
from pathlib import Path
from random import Random
from typing import Any, Callable, Dict, List, Sequence, Set, Tuple

import pytest
from meaning_line import Line, Row, Site, change, table, telegram
from meaning_mistakes import announcement_by_radio, condition, on_sight, restriction, session
from meaning_mistakes_of_groups import raw

from balisekit.engine.program import Program
from balisekit.present import outcome_text
from balisekit.present.outcome_text import Kind
from balisekit.rules import checking, meaning
from balisekit.rules.families import FAMILIES, Outcome, apply
from balisekit.rules.line import Line as LineOfTable
from balisekit.rules.rule import Options
from balisekit.tables import plan as plan_file, reader

pytestmark = pytest.mark.uncovered
LINES = (Line(signals=9, infill=(3, 6)), Line(signals=9, border=3), Line(signals=7, both=True, infill=(2,)))
COUNTING = {Kind.NOTE, Kind.COMPARED, Kind.NOT_COMPARED, Kind.NOT_APPLIED}
"""The lines that say what rules have passed over."""
Plant = Callable[[Random, List[Row]], str]
"""Plants an item in the rows of a line. It gives the name of its group."""


def _signal(random: Random, rows: Sequence[Row], start: str = "Signal") -> List[Row]:
    """The rows of a group that is drawn: neither the first nor the last one."""
    names = list(dict.fromkeys(row.group for row in rows if row.group.startswith(start)))
    name = random.choice(names[1:-1] or names)
    return [row for row in rows if row.group == name]


def unknown_group(random: Random, rows: List[Row]) -> str:
    """A link to a group that the table does not have."""
    own = _signal(random, rows)
    linking = next(each for each in own[0].form["packets"] if each["nid_packet"] == 5)
    random.choice(linking["links"])["nid_bg"] = 9000
    return own[0].group


def behind_infill(random: Random, rows: List[Row]) -> str:
    """A packet after a packet 136. The group has another place than what the packet counts from."""
    infill = _signal(random, rows, "Infill")
    own = random.choice([row for row in infill if len(row.form["packets"]) > 1 and row.aspect != "red"])
    packet = random.choice(
        (announcement_by_radio(), condition(500), on_sight(200), restriction(9, 300, 200, 40), session(1, "0123456789"))
    )
    own.form["packets"].append({**packet, "q_dir": own.form["packets"][-1]["q_dir"]})
    return own.group


def unlinked_group(random: Random, rows: List[Row]) -> str:
    """A group with Q_LINK 0 between two others, which no packet 5 names."""
    before = _signal(random, rows)[0]
    site = Site("Planted", 8000, before.place + 300, 1, 1)
    packets = [condition(700)] if random.random() < 0.5 else [restriction(9, 300, 200, 40)]
    forms = [telegram(site, 0, 255, *packets), telegram(site, 1, 255)]
    at = rows.index(before)
    rows[at:at] = [
        Row(site.name, f"{site.name} {each + 1}", site.place + 3 * each, "", each, {**form, "q_link": 0})
        for each, form in enumerate(forms)
    ]
    return site.name


def odd_header(random: Random, rows: List[Row]) -> str:
    """One telegram, or a group, with another value in its header."""
    own = _signal(random, rows)
    key, value = random.choice((("m_version", 32), ("nid_c", 353), ("q_link", 0), ("m_mcount", 254), ("n_total", 2)))
    for row in own if random.random() < 0.5 else [random.choice(own)]:
        row.form[key] = value
    return own[0].group


def unknown_packet(random: Random, rows: List[Row]) -> str:
    """A packet for which balisekit has no layout, or that the rules do not know."""
    row = random.choice(_signal(random, rows))
    row.form["packets"].append(raw(random.choice((200, 75, 52)), "1" * 40))
    return row.group


PLANTS: Dict[str, Plant] = {
    "unknown group": unknown_group,
    "behind a packet 136": behind_infill,
    "unlinked group": unlinked_group,
    "odd header": odd_header,
    "unknown packet": unknown_packet,
}


def _outcome(program: Program, path: Path, rows: Sequence[Row], lost: Sequence[str] = ()) -> Outcome:
    """What a check finds. The groups that are `lost` have no kilometre."""
    text = table(program, rows).splitlines()
    cells = [line.split(",") for line in text]
    made = [",".join([*row[:2], "" if row[0] in lost else row[2], *row[3:]]) for row in cells]
    path.write_text("\n".join(made) + "\n", "utf-8")
    return apply(checking.check(program, reader.read(str(path))), tuple(FAMILIES), Options())


def _said(outcome: Outcome) -> Tuple[Set[Any], Set[str]]:
    """The entries, and the lines that count."""
    keys = {(entry.rule, entry.rows, entry.sentence) for entry in outcome.entries}
    return keys, {line.text for line in outcome_text.answer(outcome, str) if line.kind in COUNTING}


def _is_said(before: Outcome, after: Outcome, group: str) -> bool:
    """Whether a new entry is about a row of the group, or a new line names the group or has another count."""
    rows = {row.number for each in after.checked.table.groups if each.name == group for row in each.each_row}
    (known, lines), (_, said) = _said(before), _said(after)
    new = [entry for entry in after.entries if (entry.rule, entry.rows, entry.sentence) not in known]
    is_entry = any(not rows.isdisjoint((*each.rows, *each.other_rows)) for each in new)
    return is_entry or any(line.startswith("not compared by") or group in line for line in said - lines)


def _is_kept_as_bits(before: Outcome, after: Outcome) -> bool:
    """Whether a new line has the rows of a packet that no rule knows."""
    return set(outcome_text.not_decoded(after)) > set(outcome_text.not_decoded(before))


@pytest.mark.parametrize("name", PLANTS)
def test_what_is_planted_is_said(program: Program, tmp_path: Path, name: str) -> None:
    for seed in range(12):
        random, line = Random(f"{name} {seed}"), LINES[seed % len(LINES)]
        if name == "behind a packet 136" and not line.infill:
            line = LINES[0]
        before = _outcome(program, tmp_path / "t.csv", line.rows)
        rows = copy.deepcopy(line.rows)
        group = PLANTS[name](random, rows)
        after = _outcome(program, tmp_path / "t.csv", rows)
        is_bits = name == "unknown packet" and _is_kept_as_bits(before, after)
        assert _is_said(before, after, group) or is_bits or after.checked.refused, (seed, group, _said(after)[1])


def test_a_group_without_kilometre_is_said(program: Program, tmp_path: Path) -> None:
    for seed in range(12):
        random, line = Random(seed), LINES[seed % len(LINES)]
        before = _outcome(program, tmp_path / "t.csv", line.rows)
        group = random.choice([row.group for row in line.rows])
        after = _outcome(program, tmp_path / "t.csv", line.rows, [group])
        assert _is_said(before, after, group), (seed, group)


def test_points_of_a_plan_are_counted(program: Program, tmp_path: Path) -> None:
    """E10 and E13 count what they do not compare beyond a point of the plan."""
    rows = copy.deepcopy(Line(signals=6).rows)
    green = change(rows, "Signal 3", "green", 27)["elements"]
    green[1]["d_static"] -= 500
    green.insert(1, {**green[0], "d_static": 500, "v_static": green[0]["v_static"] - 2})
    path, plan = tmp_path / "t.csv", tmp_path / "plan.csv"
    path.write_text(table(program, rows), "utf-8")
    plan.write_text("kind,km,km_to,track,way,value,name\npoint,13.010,,,,,\n", "utf-8")
    stated = Options(plan=plan_file.read(str(plan)))
    line = LineOfTable.of(checking.check(program, reader.read(str(path))))
    for rule in meaning.RULES:
        if rule.name in ("E10", "E13"):
            without, behind = rule.find(line, Options()), rule.find(line, stated)
            assert without.found and not behind.found
            assert sum(count for why, count in behind.not_looked_at.items() if "beyond a point" in why) > 0
            assert not [why for why, count in without.not_looked_at.items() if "beyond a point" in why and count]

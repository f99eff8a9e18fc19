"""X7: name of the plan that the table does not have.

What it says. The plan names an aspect, a group or a track, and the table does not have this name. The rule rests on
SUBSET-026, 7.4.2.
- The rule compares names as texts. The remark asks for the name of the table that is most alike, if one is alike
  enough.
- The plan writes the name of an aspect as `SIGNAL/ASPECT`. If the table has a group with the name of the signal, the
  remark is at this group. If the table has no such group, the remark names the signal of the plan only.
- A row `group` of the plan has the name of a balise group.
- One remark names all rows of the plan for one missing signal or group. One remark also names all rows for one missing
  track.
- Other names in the plan are not compared, such as the name of a row `signal`.

Why it matters. At worst the train gets wrong information: telegrams of the plan are missing, or nobody has compared the
telegrams that the table has.

Example. Before (`examples/meaning/level-border.csv` with `--plan` `examples/meaning/plan.csv`): row 74 of the plan has
the aspect Signal 12/gren, and the table has Signal 12/green. After: both have one name.

When it is a false alarm. The rule assumes that the plan and the table are for the same line. The plan might have more
tracks or signals than the table, because the others are in another file. It assumes that each aspect of the plan has
rows in the table. An aspect might have no rows on purpose, for example because it sends no telegram.

Usual cause. A name is misspelled, or was changed in one of the two files. Or the rows of a signal or aspect are missing
in the table.

How to correct it. Correct the name, or add the rows.

How to accept it. Name the file that has the other telegrams, or state why there are none.
"""
from __future__ import annotations

from typing import Dict, Iterator, List, Mapping, Optional, Sequence

from balisekit.rules.line import Line
from balisekit.rules.location import Location
from balisekit.rules.passages import GroupData
from balisekit.rules.rule import Options, Remark, Result, Rule, Urgency
from balisekit.rules.track_plan.placed import PlacedPlan, cells_of
from balisekit.tables.names import clean, quoted
from balisekit.tables.plan import WITHOUT_PLACE, PlanRow, aspect_name, rows_named

LIKE = 0.6
"""How alike two names must be, by difflib."""
LOOKED_FOR = 200
"""For so many missing names a name that is alike is looked for: that takes long in a large table."""


def find(line: Line, options: Options) -> Result:
    """Looks for each name of the plan in the table."""
    placed = PlacedPlan(line, options)
    groups = {clean(data.group.group.name): data for data in line.decoded.groups}
    tracks = list(dict.fromkeys(clean(data.group.track) for data in line.decoded.groups))
    found = [*_tracks(placed, tracks), *_aspects(placed, groups)]
    return Result(found, len(placed.plan.rows), confirmed=placed.confirmed)


def _tracks(placed: PlacedPlan, tracks: Sequence[str]) -> Iterator[Remark]:
    """The tracks that the table does not have."""
    missing: Dict[str, List[PlanRow]] = {}
    for row in placed.plan.rows:
        if row.track not in tracks and row.kind not in ("group", *WITHOUT_PLACE):
            missing.setdefault(row.track, []).append(row)
    for track, rows in missing.items():
        name = f"track {track}" if track else "no track"
        what = f"no track {quoted(track)}" if track else "no group without a track"
        yield _remark(placed, rows, what, meant(track, tracks), Location(listed=name), name)


def _aspects(placed: PlacedPlan, groups: Mapping[str, GroupData]) -> Iterator[Remark]:
    """The aspects and groups that the table does not have."""
    known = {
        aspect_name(name, aspect.name): name for name, data in groups.items() for aspect in data.group.group.aspects
    }
    missing: Dict[str, List[PlanRow]] = {}
    for row in placed.plan.of_kind("group"):
        if row.name not in groups:
            missing.setdefault(row.name, []).append(row)
    looked_for = LOOKED_FOR
    for name, rows in placed.plan.aspects.items():
        group = None if name in known else group_of(name, groups)
        if name in known:
            continue
        if group is None:
            missing.setdefault(name.rpartition("/")[0] or name, []).extend(rows)
            continue
        looked_for -= 1
        own = [each for each, of in known.items() if of == group] if looked_for > 0 else []
        yield _remark(placed, rows, f"no aspect {quoted(name)}", meant(name, own), groups[group].location(), name)
    for number, (name, rows) in enumerate(missing.items()):
        rows.sort(key=lambda row: row.number)
        like = meant(name, list(groups)) if number < LOOKED_FOR else ""
        yield _remark(placed, rows, f"no group {quoted(name)}", like, Location(listed=name), name)


def group_of(name: str, groups: Mapping[str, GroupData]) -> Optional[str]:
    """The group of the table that an aspect of the plan is of, by its name: the longest one."""
    ends = [place for place, letter in enumerate(name) if letter == "/"]
    names = (name[:end] for end in [len(name), *reversed(ends)])
    return next((each for each in names if each in groups), None)


def meant(name: str, known: Sequence[str]) -> str:
    """The question whether the one of these names that is most alike is meant, or nothing."""
    from difflib import get_close_matches  # (few plans need it)

    folded = {each.casefold(): each for each in reversed(known) if each}
    like = get_close_matches(name.casefold(), folded, 1, LIKE)
    return f": did you mean {quoted(folded[like[0]])}?" if like else ""


def _remark(placed: PlacedPlan, rows: Sequence[PlanRow], what: str, like: str, where: Location, name: str) -> Remark:
    """A remark on rows of the plan with one name."""
    placed.confirmed.uncovered.update(row.number for row in rows)
    have = f"{rows_named(rows)} {'has' if len(rows) == 1 else 'have'}"
    sentence = f"the table has {what}, which {have}{like}"
    return Remark("X7", where, sentence, texts={"plan_name": name}, facts=[cells_of(row) for row in rows])


RULE = Rule("X7", "names of the plan", __doc__ or "", find, Urgency.WRONG_INFORMATION)

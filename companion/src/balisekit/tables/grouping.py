"""Rows become groups and aspects, in the order of the table."""
from __future__ import annotations

from collections import Counter
from functools import lru_cache
from itertools import groupby, islice
from operator import attrgetter
from typing import Any, Dict, Iterable, List, Mapping, NamedTuple, Optional, Sequence, Tuple

from balisekit.errors import TableError, TableErrors, faults_of
from balisekit.tables.model import Aspect, Group, Row
from balisekit.tables.names import NAMED, listed

EVERY = "*"
"""In the column `aspect`: the balise sends this telegram in every aspect."""
GREATEST_COUNT = 8
KEYS = {"balise": "balise {}", "name": 'balise "{}"', "km": "the balise at km {}"}
"""Columns that can identify the balise of a row, and how each of them names it."""
COLUMN = {name: place for place, name in enumerate(Row._fields)}
UNKNOWN = {"", None}
"""The values of such a column that identify nothing."""


class Grouped(NamedTuple):
    """The groups of a table."""

    rows: Tuple[Row, ...]
    """The rows, those of each group together."""
    groups: Tuple[Group, ...]
    notes: Tuple[str, ...]
    """Notes on names that look alike, on rows that are apart, and on numbers of balises."""


def groups_of(rows: Sequence[Row], by_position: bool = False, heading: int = 1) -> Grouped:
    """The groups of these rows. `heading` is the row of the headings."""
    blocks, apart, faults = _blocks(rows)
    groups, shared, notes = [], [], [*_alike(blocks), *_apart(apart)]
    for name, block in blocks.items():
        try:
            aspects = _plain_aspects(name, block)
            if aspects is None:
                aspects, gaps = _aspects(name, block, by_position)
                notes += gaps
            groups.append(Group(name, aspects))
        except (TableError, TableErrors) as fault:
            faults += fault.faults
            shared += [block] if _has_one_name(block) else []
    if faults:
        raise TableErrors([*_shared_names(shared, heading), *faults])
    together = [row for block in blocks.values() for row in block] if apart else rows
    return Grouped(tuple(together), tuple(groups), tuple(notes))


def by_position(group: Group, positions: Mapping[int, int]) -> Group:
    """The group with the balises of each aspect in the order of N_PIG. `positions` has N_PIG by the row's number."""
    aspects = (
        Aspect(aspect.name, tuple(sorted(aspect.rows, key=lambda row: positions[row.number])))
        for aspect in group.aspects
    )
    return Group(group.name, tuple(aspects))


def look_at_positions(path: str, groups: Iterable[Group]) -> None:
    """Raises TableErrors if balises in the order of N_PIG contradict the names or kilometres of this table."""
    faults = []
    for group in groups:
        try:
            _look_at_balises(group.aspects, "N_PIG")
        except TableError as fault:
            faults.append(fault)
    if faults:
        with faults_of(path):
            raise TableErrors(faults)


def _has_one_name(block: Sequence[Row]) -> bool:
    """Whether all balises of a group have one name, and there are several in each aspect."""
    names, counts = {row.name for row in block}, Counter(row.aspect for row in block)
    every = counts.pop(EVERY, 0)
    return len(names) == 1 and not names & UNKNOWN and every + min(counts.values(), default=0) > 1


def _shared_names(shared: Sequence[Sequence[Row]], heading: int) -> List[TableError]:
    """One hint at the heading, if the column seems to name something else than balises."""
    if len(shared) < 2:
        return []
    row = shared[0][0]
    return [
        TableError(
            f'in {len(shared)} groups all balises have one name, such as "{row.name}" in group "{row.group}": it '
            "tells no balise from another. If it names a signal, give the column another heading, under which it is "
            "passed over",
            row=heading,
            column="name",
        )
    ]


def _blocks(rows: Sequence[Row]) -> Tuple[Dict[str, List[Row]], List[List[Row]], List[TableError]]:
    """The rows of each group, the groups whose rows are apart, and faults of rows within other groups.

    A single row between rows of another group is at fault, unless the row before or after it is such a row too.
    """
    runs = [list(run) for _, run in groupby(rows, key=attrgetter("group"))]
    together = {run[0].group: run for run in runs}
    if len(together) == len(runs):
        return together, [], []
    between = {
        place
        for place, (before, run, after) in enumerate(zip(runs, runs[1:], runs[2:]), 1)
        if len(run) == 1 and before[0].group == after[0].group
    }
    odd = {place for place in between if not between & {place - 1, place + 1}}
    blocks: Dict[str, List[Row]] = {}
    torn, apart, faults = set(), set(), []
    for place, run in enumerate(runs):
        name = run[0].group
        if place in odd:
            around = runs[place - 1][-1], runs[place + 1][0]
            torn.add(around[0].group)
            why = (
                f'"{name}" is between {_rows(around)} of group "{around[0].group}": is it mistyped? If it is not, '
                f'put the rows of group "{around[0].group}" together'
            )
            faults.append(TableError(why, run[0].number, "group"))
            continue
        if name in blocks:
            apart.add(name)
        blocks.setdefault(name, []).extend(run)
    whole = {name: block for name, block in blocks.items() if name not in torn}
    return whole, [block for name, block in whole.items() if name in apart], faults


def _apart(blocks: Sequence[Sequence[Row]]) -> List[str]:
    """A note on groups whose rows are apart."""
    if not blocks:
        return []
    first, count = blocks[0], len(blocks)
    which = f'group "{first[0].group}": {_rows(first)}' + (f", and {count - 1} more groups" if count > 1 else "")
    return [f"rows of one group that are apart are taken together: {which}"]


def _alike(names: Iterable[str]) -> List[str]:
    """Notes on names that differ only in case or inner blanks."""
    seen: Dict[str, str] = {}
    notes = []
    for name in names:
        key = " ".join(name.split()).casefold()
        if key in seen:
            notes.append(f'groups "{seen[key]}" and "{name}" differ only in case or blanks')
        seen.setdefault(key, name)
    return notes


def _plain_aspects(name: str, block: List[Row]) -> Optional[Tuple[Aspect, ...]]:
    """The aspects of a usual group, with nothing to refuse or to note. None is inconclusive."""
    if len(block) == 1:
        return (Aspect("" if block[0].aspect == EVERY else block[0].aspect, tuple(block)),)
    columns: List[Tuple[Any, ...]] = list(zip(*block))
    layout = _layout(columns[COLUMN["aspect"]], columns[COLUMN["balise"]])
    if layout is None or len(set(columns[COLUMN["track"]])) > 1 or len(set(columns[COLUMN["nominal"]])) > 1:
        return None
    for column in ("name", "km"):
        values = columns[COLUMN[column]]
        if len(set(values)) == 1 and (len(layout[1]) == 1 or values[0] in ("", name, None)):
            continue
        known = [values[rows[0]] for rows in layout[1]]
        if any(values[row] != value for value, rows in zip(known, layout[1]) for row in rows):
            return None
        if UNKNOWN & set(known) or (len(set(known)) < len(known) if column == "name" else not _rise_or_fall(known)):
            return None
    return tuple([Aspect(aspect, tuple([block[row] for row in rows])) for aspect, rows in layout[0]])


@lru_cache(maxsize=1 << 10)
def _layout(
    names: Tuple[str, ...], balises: Tuple[Optional[int], ...]
) -> Optional[Tuple[List[Tuple[str, List[int]]], List[List[int]]]]:
    """Of a group with these columns: each aspect with its rows, counted from 0, and the rows of each balise."""
    rows = [Row(row, "", "", aspect=name, balise=balise) for row, (name, balise) in enumerate(zip(names, balises))]
    try:
        aspects, notes = _aspects("", rows, False)
    except (TableError, TableErrors):
        return None
    members = [(aspect.name, [row.number for row in aspect.rows]) for aspect in aspects]
    return None if notes else (members, [sorted(set(places)) for places in zip(*(rows for _, rows in members))])


def _aspects(name: str, block: List[Row], by_position: bool) -> Tuple[Tuple[Aspect, ...], List[str]]:
    members = _members(block)
    named = any(row.name != name for row in block)  # (else the column has the group's name, and tells no balise)
    repeated = _repeated(members.values(), "balise") or (_repeated(members.values(), "name") if named else [])
    if repeated:
        raise TableErrors(repeated)
    notes: List[str] = []
    aspects = [Aspect(aspect, _order(rows, notes)) for aspect, rows in members.items()]
    _look_at_counts(name, aspects)
    if len(aspects) > 1:
        notes += _numbered_otherwise(name, aspects)
        _look_at_places(aspects)
    for column in ("nominal", "track"):
        _look_at_values(block, column, " of the group says")
    if not by_position:
        why = "the order of the rows" if block[0].balise is None else "the column balise"
        _look_at_balises(aspects, why)
    return tuple(aspects), list(dict.fromkeys(notes))


def _look_at_balises(aspects: Sequence[Aspect], why: str) -> None:
    """Raises TableError if a balise has several names or kilometres, or those of the group rise and fall.

    `why` says what tells which rows are of one balise.
    """
    for column in ("name", "km") if len(aspects) > 1 else ():
        for rows in zip(*(aspect.rows for aspect in aspects)):
            _look_at_values(rows, column, f", the same balise by {why}, has")
    _look_at_kilometres(aspects[0].rows)


def _members(block: List[Row]) -> Dict[str, List[Row]]:
    """The rows of each aspect, those of every aspect among them, in the order of the table."""
    members: Dict[str, List[Row]] = {}
    for row in block:
        members.setdefault(row.aspect, []).append(row)
    if "" in members and len(members) > 1:
        why = f"empty, but the group has named aspects: write {EVERY} for a telegram that is sent in every aspect"
        raise TableError(why, members[""][0].number, "aspect")
    every = members.pop(EVERY, [])
    if not every:
        return members
    names = list(members or [""])[: 1 if len(every) > GREATEST_COUNT else None]  # (if too many, one is refused)
    return {name: sorted([*every, *members.get(name, [])]) for name in names}


def _repeated(members: Iterable[Sequence[Row]], column: str) -> List[TableError]:
    """A fault for each row of an aspect that is of the same balise as an earlier one by this column."""
    faults: Dict[int, TableError] = {}
    for rows in members:
        keys = [row[COLUMN[column]] for row in rows]
        if len(set(keys)) == len(keys):
            continue
        firsts: Dict[object, Row] = {}
        for key, row in zip(keys, rows):
            first = row if key in UNKNOWN else firsts.setdefault(key, row)
            if first is not row:
                faults[row.number] = _repeated_by(column, first, row)
    return list(faults.values())


def _repeated_by(column: str, first: Row, row: Row) -> TableError:
    """The fault of a row, at its aspect, or at this column if the other column distinguishes the balises."""
    aspect = f' of aspect "{first.aspect}"' if first.aspect else ""
    said = f"row {first.number} has {KEYS[column].format(getattr(row, column))}"
    said += (" of every aspect" if first.aspect == EVERY else aspect) + " too"
    other = "name" if column == "balise" else "balise"
    one, two = getattr(first, other), getattr(row, other)
    apart = one != two and not {one, two} & UNKNOWN
    said += f", as {KEYS[other].format(one)}" if apart else "" if row.aspect else ": are they of two aspects?"
    return TableError(said, row.number, "aspect" if row.aspect and not apart else column)


def _order(rows: List[Row], notes: List[str]) -> Tuple[Row, ...]:
    """The balises of an aspect by the column `balise`, else by row. A gap in the numbers is noted."""
    numbers = sorted(row.balise for row in rows if row.balise is not None)
    if not numbers:
        return tuple(rows)
    if len(numbers) < len(rows):
        empty = next(row for row in rows if row.balise is None)
        raise TableError("empty, but the group has numbered balises", empty.number, "balise")
    if numbers[-1] - numbers[0] + 1 != len(numbers):
        notes.append(f'group "{rows[0].group}": the balises are numbered {", ".join(map(str, numbers))}')
    return tuple(sorted(rows, key=attrgetter("balise")))


def _look_at_counts(name: str, aspects: List[Aspect]) -> None:
    for aspect in aspects:
        count = len(aspect.rows)
        if count > GREATEST_COUNT:
            raise TableError(
                f'group "{name}" has {count} balises, and at most {GREATEST_COUNT} are possible: '
                "are they of several aspects?",
                row=aspect.rows[GREATEST_COUNT].number,
            )
    if len({len(aspect.rows) for aspect in aspects}) > 1:
        members = [aspect.rows for aspect in aspects]
        apart = any(len({row.km for row in rows}) == len(rows) > 1 for rows in members)
        raise TableErrors(_lacking(name, aspects) or apart and _repeated(members, "km") or _uneven(name, aspects))


def _lacking(name: str, aspects: List[Aspect]) -> List[TableError]:
    """A fault for each balise that lacks aspects, if a column identifies the balises of the aspects."""
    for column, words in KEYS.items():
        keys = [{row[COLUMN[column]]: row for row in aspect.rows} for aspect in aspects]
        if any(UNKNOWN & known.keys() or len(known) < len(aspect.rows) for known, aspect in zip(keys, aspects)):
            continue
        counts = Counter(key for known in keys for key in known)
        first = {key: row for known in reversed(keys) for key, row in known.items()}
        return [
            TableError(
                f'{words.format(key)} of group "{name}" has no telegram for '
                f"{_described((one for one, known in zip(aspects, keys) if key not in known), len(aspects) - count)}: "
                f"add the row, or write {EVERY} as the aspect of a telegram that is sent in every aspect",
                row=first[key].number,
            )
            for key, count in counts.items()
            if count < len(aspects)
        ]
    return []


def _described(aspects: Iterable[Aspect], count: int) -> str:
    """A number of aspects in words: the first ones are named with their rows."""
    names = [f'"{aspect.name}" ({_rows(sorted(aspect.rows))})' for aspect in islice(aspects, NAMED)]
    return f"aspect{'s' if count > 1 else ''} {listed(names, NAMED, count)}"


def _rows(rows: Sequence[Row]) -> str:
    """The numbers of these rows, which rise. Of many that have others between them the first are named."""
    first, last, count = rows[0].number, rows[-1].number, len(rows)
    if count > 2 and last - first + 1 == count:
        return f"rows {first} to {last}"
    numbers = listed([str(row.number) for row in rows[:NAMED]], NAMED, count)
    return f"row{'s' if count > 1 else ''} {numbers}"


def _numbered_otherwise(name: str, aspects: List[Aspect]) -> List[str]:
    """A note if aspects have different numbers in the column `balise`: only their order counts."""
    numbers = [row.balise for row in aspects[0].rows]
    for other in aspects:
        if [row.balise for row in other.rows] != numbers:
            return [f'group "{name}": aspects "{aspects[0].name}" and "{other.name}" number their balises differently']
    return []


def _uneven(name: str, aspects: List[Aspect]) -> List[TableError]:
    """A fault for each aspect that does not have as many balises as most have."""
    sizes = Counter(len(aspect.rows) for aspect in aspects)
    usual = max(aspects, key=lambda aspect: (sizes[len(aspect.rows)], len(aspect.rows)))
    return [
        TableError(
            f'aspect "{aspect.name}" of group "{name}" has {len(aspect.rows)} balise{"s" * (len(aspect.rows) > 1)} '
            f'({_rows(sorted(aspect.rows))}), and aspect "{usual.name}" has {len(usual.rows)} '
            f"({_rows(sorted(usual.rows))}): a row is missing, or one too many; the column balise or name tells which",
            row=next(row.number for row in aspect.rows if row.aspect == aspect.name),
        )
        for aspect in aspects
        if len(aspect.rows) != len(usual.rows)
    ]


def _look_at_places(aspects: List[Aspect]) -> None:
    """Raises TableError if a row of every aspect does not have the same position in all of them."""
    places: Dict[int, int] = {}
    for aspect in aspects:
        for place, row in enumerate(aspect.rows):
            if row.aspect == EVERY and places.setdefault(row.number, place) != place:
                why = "its place differs between aspects: number the balises in the column balise"
                raise TableError(why, row.number)


def _look_at_values(rows: Sequence[Row], column: str, says: str) -> None:
    """Raises TableError if rows of a balise, or of a group, have different values in this column."""
    values = [row[COLUMN[column]] for row in rows]
    if len(set(values)) == 1:
        return
    known = [(row, value) for row, value in zip(rows, values) if value not in UNKNOWN]
    for row, value in known:
        first, other = known[0]
        if value != other:
            raise TableError(f"{value}, and row {first.number}{says} {other}", row.number, column)


def _look_at_kilometres(rows: Sequence[Row]) -> None:
    known = [row for row in rows if row.km is not None]
    if not _rise_or_fall([row.km for row in known]):
        raise TableError("the kilometres of the group rise and fall", known[-1].number, "km")


def _rise_or_fall(values: List[Any]) -> bool:
    return len(values) < 3 or values in (sorted(values), sorted(values, reverse=True))

"""The track plan: a CSV file that says what the track is, with a row for each thing, and what is read of it.

The columns are `kind, km, km_to, track, way, value, name`, in any order:

- `km`: where it is or begins, as in the table: `13.850`, `13,850` or `13+850`. An aspect and a radio need none.
- `km_to`: where a speed or gradient ends, a greater kilometre. Without it, it ends where the next row of its kind
  begins, and the last one never ends. Of a jump: the kilometre behind it. Restrictions, conditions and areas for
  reversing are from `km` to `km_to` too.
- `track`: the track's name, as in the table.
- `way`: `rising` or `falling`, for trains for which the kilometres go that way. Without it for both.
- `value`, by the kind:
  - `speed`: the line speed in km/h, in steps of 5.
  - `gradient`: whole per mille, uphill positive for a train of the row's way. Without a way that is a rising train, and
    a falling one has the opposite.
  - `signal`: none. It is a place at which authorities end: a signal, a marker board or a buffer stop.
  - `aspect`: `v=120 end=1400 overlap=100 release=20`. V_MAIN in km/h; the end of authority in metres from the group;
    the overlap's length in metres, or `none`; the release speed in km/h, `onboard` or `national`. So are `danger`,
    `end_start` and `overlap_start`, lengths in metres or `none`; `loa_time`, `end_time` and `overlap_time`, seconds or
    `none`; and `loa` in km/h. `sections=500,700` has the lengths of the sections in metres, and `to=Signal 7` the name
    of a row `signal` at which the authority ends. `authority=none` says that there is no packet 12. Other packets have
    `mode=OS:0:300:40:100`, which is OS, SH or LS with begin, length, speed and the length in which it is acknowledged;
    `stop=sr,sh` for the modes in which trains are stopped; and `links=3` for the number of groups that packet 5 names,
    or `links=352/17,352/18`. `mode` and `stop` may be `none`. A key that is missing is not compared.
  - `level`: the levels behind the border in the order of priority: `2`, or `2 NTC:7 0` with NID_NTC.
  - `rbc`: the radio block centre behind the border: `NID_C/NID_RBC`.
  - `group`: `id=352/17 balises=2 linked=yes at=12.300,12.303`. NID_C and NID_BG; how many balises it has; Q_LINK; the
    kilometres of its balises in the order of N_PIG. `km` is that of the first one, and `way` that of the nominal
    direction. A key that is missing is not compared.
  - `tsr`: a temporary speed restriction, `v=40 id=12 front=no`: V_TSR in km/h; NID_TSR, or `none` if it cannot be
    revoked; and whether the speed only holds until the front of the train passes its end (Q_FRONT 1).
  - `condition`: a track condition of packet 68, `type=0` with the number of M_TRACKCOND.
  - `reversing`: an area in which trains may reverse, `v=30 distance=500` with V_REVERSE and D_REVERSE of packet 139.
  - `repositioning`: at a group that sends packet 16, `section=700` with L_SECTION in metres.
  - `crossing`: a level crossing of packet 88, `id=5 v=40 protected=no stop=yes` with NID_LX, V_LX in km/h, Q_LXSTATUS
    and Q_STOPLX. `traction`: a change of the traction system by packet 39, `voltage=2 country=352` with the numbers of
    M_VOLTAGE and NID_CTRACTION. Both are compared only if `layouts` names the packet.
  - `stop_in_sr`: at a group that sends packet 137, `stop=yes` for Q_SRSTOP 0, or `stop=no`.
  - `shunting`: at a group that sends packet 132 or 49, `stop=no balises=352/17,352/18`. `stop=yes` is Q_ASPECT 0, and
    the balises are those that trains may pass, in the order of packet 49, or `none`.
  - `radio`: `rbc=352/17 phone=0123456`, an RBC with its telephone number or `short`, or `network=123456`, a radio
    network. It has no kilometre.
  - `jump`: none. The kilometres jump from `km` to `km_to`.
  - `point`: none. At it trains of the row's way may leave the track.
- `name`: of an aspect `SIGNAL/ASPECT`, by the columns `group` and `aspect` of the table, or `SIGNAL` if its one aspect
  has no name. Of a group it is that of the column `group`. Of the other kinds it is free.
"""
from __future__ import annotations

from dataclasses import dataclass
from decimal import Decimal
from functools import cached_property
from typing import Callable, Dict, Iterable, Iterator, List, Mapping, NamedTuple, Optional, Sequence, Tuple, TypeVar

from balisekit.errors import TableError, TableErrors, faults_of
from balisekit.io import inputs
from balisekit.io.csv_writing import plain
from balisekit.tables import csv as csv_file, decimal_commas, plan_things, plan_values as values
from balisekit.tables.cells import GREATEST_NAME, Sheet, is_error, kind_and_text
from balisekit.tables.headings import KILOMETRE, Headings, alike, compared, look_at_cells
from balisekit.tables.names import clean, kilometre, rows_words
from balisekit.tables.own_headings import DESIGN
from balisekit.tables.plan_values import GroupTerms, Terms, Value
from balisekit.tables.reader import head_of, kilometre_of

COLUMNS = ("kind", "km", "km_to", "track", "way", "value", "name")
NEEDED = COLUMNS[:1]
WAYS = {"rising": 1, "falling": -1, "": 0}
WAY_WORDS = {way: word for word, way in WAYS.items()}
WITHOUT_PLACE = ("aspect", "radio")
"""The kinds whose rows need no kilometre."""
STRETCHES = ("speed", "gradient")
"""The kinds that hold from one kilometre to another."""
BORDERS = ("level", "rbc")
"""The kinds of which one place has one."""
READERS: Mapping[str, Optional[Callable[[str], Value]]] = {
    "speed": values.speed,
    "gradient": values.gradient,
    "signal": None,
    "aspect": values.terms,
    "level": values.levels,
    "rbc": values.rbc,
    "group": values.group,
    **{kind: plan_things.reader(kind) for kind in plan_things.KEYS},
    "radio": plan_things.radio,
    "jump": None,
    "point": None,
}
"""The kinds, and how the value of each is read. Those without have no value."""

NAMED_KINDS = {"aspect": "an aspect needs a name: SIGNAL/ASPECT", "group": "a group needs its name in the table"}
"""The kinds whose rows are found by their names, and what is said if there is none."""

THE_PLAN = "the plan"
"""What a sentence calls the only file of a design that is named as a plan."""
MADE = "Made from the telegrams: it confirms nothing. A row confirms once an engineer has written a name in who."
"""The first line of a design that `balisekit design` has written."""
MARK = MADE.index(":")
"""How many letters of this line show that a design was made, whatever follows."""
ROWS_OF_SHEET = 1 << 32
"""More rows than a sheet can have."""
Meaning = TypeVar("Meaning")
Lane = Tuple[str, str, int]
"""A kind, a track and a way."""


class PlanRow(NamedTuple):
    """A row of the plan."""

    number: int
    """As a spreadsheet counts. Those of each further sheet begin with a greater number: no two rows have one number."""
    kind: str
    km: Decimal
    km_to: Optional[Decimal] = None
    track: str = ""
    """With the escapes of all outputs, as the name: a plan that was written is read as the same."""
    way: int = 0
    """1 for rising kilometres, -1 for falling ones, 0 for both."""
    value: Value = None
    name: str = ""
    source: str = THE_PLAN
    """What a sentence calls the sheet that the row is in."""
    who: str = ""
    """Who has confirmed it."""
    is_made: bool = False
    """Whether it is in a design that was made from telegrams."""

    @property
    def is_unconfirmed(self) -> bool:
        """Whether it confirms nothing: it was made from telegrams, and nobody has confirmed it."""
        return self.is_made and not self.who

    @property
    def shown(self) -> int:
        """Its number as a spreadsheet counts."""
        return self.number % ROWS_OF_SHEET

    @property
    def number_value(self) -> int:
        """The value of a speed or gradient."""
        assert isinstance(self.value, int)
        return self.value

    @property
    def text_value(self) -> str:
        """The value of a level or RBC border."""
        return str(self.value)

    @property
    def group_terms(self) -> GroupTerms:
        """The value of a group."""
        assert isinstance(self.value, GroupTerms)
        return self.value

    @property
    def terms(self) -> Terms:
        """The value of an aspect, and of all other kinds with keys except groups."""
        assert isinstance(self.value, dict)
        return self.value


class Stretch(NamedTuple):
    """A speed or gradient for trains of one way."""

    row: PlanRow
    begin: Decimal
    end: Optional[Decimal]
    """Without it there is no end."""
    value: int
    """A speed as it is sent, or a gradient in per mille, uphill positive for a train of that way."""


class DesignFile(NamedTuple):
    """A file of a design that was read."""

    path: str
    sha256: str
    rows: int
    """How many rows it has below its headings."""
    sheets: Tuple[str, ...] = ()
    """Of a workbook: the sheets that were read."""
    others: Tuple[str, ...] = ()
    """Of a workbook: the sheets without any heading of a design, which were not read."""
    notes: Tuple[str, ...] = ()
    """How it was read."""


@dataclass(frozen=True)
class Plan:
    """A track plan, or the design of a line: one or more files with rows."""

    path: str = ""
    """That of the first file."""
    sha256: str = ""
    rows: Tuple[PlanRow, ...] = ()
    files: Tuple[DesignFile, ...] = ()

    def of_kind(self, kind: str) -> Sequence[PlanRow]:
        """All rows of a kind, in the order of the file."""
        return self._kinds.get(kind, ())

    def places(self, kind: str, track: str, way: int) -> Sequence[PlanRow]:
        """The rows of a kind for trains of one way of a track, in the order of the kilometres."""
        return self._lanes.get((kind, clean(track), way), ())

    @cached_property
    def _kinds(self) -> Mapping[str, Sequence[PlanRow]]:
        kinds: Dict[str, List[PlanRow]] = {}
        for row in self.rows:
            kinds.setdefault(row.kind, []).append(row)
        return kinds

    @cached_property
    def _lanes(self) -> Mapping[Lane, Sequence[PlanRow]]:
        return _lanes(self.rows)

    def stretches(self, kind: str, track: str, way: int) -> Sequence[Stretch]:
        """The speeds or gradients for trains of one way of a track, in the order of the kilometres."""
        rows = self.places(kind, track, way)
        ends = [*(row.km for row in rows[1:]), None]
        sign = -1 if kind == "gradient" and way < 0 else 1
        return [
            Stretch(row, row.km, row.km_to or end, row.number_value * (1 if row.way else sign))
            for row, end in zip(rows, ends)
        ]

    @cached_property
    def jumps(self) -> Sequence[Tuple[Decimal, Decimal, str]]:
        """Where the kilometres jump: the kilometres before and after it, and the track."""
        return [(row.km, row.km_to or row.km, row.track) for row in self.of_kind("jump")]

    @cached_property
    def aspects(self) -> Mapping[str, Sequence[PlanRow]]:
        """What the aspects give, by SIGNAL/ASPECT. A signal for both ways has a row for each."""
        found: Dict[str, List[PlanRow]] = {}
        for row in self.of_kind("aspect"):
            found.setdefault(row.name, []).append(row)
        return found

    def points_between(self, track: str, begin: Decimal, end: Decimal, way: int = 0) -> Sequence[PlanRow]:
        """The points between two kilometres of a track, both included, at which trains of this way may leave it."""
        low, high = min(begin, end), max(begin, end)
        rows = self.places("point", track, way) if way else self.of_kind("point")
        return [row for row in rows if row.track == clean(track) and low <= row.km <= high]


def aspect_name(group: str, aspect: str) -> str:
    """What a plan calls an aspect of the table."""
    return clean(group if aspect in ("", "*") else f"{group}/{aspect}")


def rows_named(rows: Iterable[PlanRow]) -> str:
    """Rows in a sentence: `rows 3 and 5 of the plan`, and of each sheet if a design has several."""
    numbers: Dict[str, List[int]] = {}
    for row in rows:
        numbers.setdefault(row.source, []).append(row.shown)
    return " and ".join(f"{rows_words(own)} of {source}" for source, own in numbers.items())


def read(path: str) -> Plan:
    """The plan of this file. TableError or TableErrors is raised if it cannot be read."""
    file = inputs.read_settings(path)
    with faults_of(path):
        headings = Headings(DESIGN, NEEDED)
        sheet = csv_file.read(file.content, headings)
        rows = rows_of(sheet, headings)
        if not rows:
            raise TableError("the plan has no row below its heading")
        refuse_clashes(rows)
    return Plan(path, file.sha256, rows, (DesignFile(path, file.sha256, len(rows), notes=sheet.notes),))


def rows_of(
    sheet: Sheet, headings: Headings, kind: str = "", source: str = THE_PLAN, before: int = 0
) -> Tuple[PlanRow, ...]:
    """The rows of a sheet. All that is wrong with them is raised together.

    `kind` is that of rows whose column `kind` is empty, and `before` is added to their numbers.
    """
    place, places = _head(sheet, headings, kind)
    sheet.look_at_calculated(place + 1, len(sheet.rows[place]), places)
    is_made = any(cell.strip().startswith(MADE[:MARK]) for row in sheet.rows[:place] for cell in row)
    rows = _rows(sheet, place, places, kind)
    return tuple(row._replace(number=before + row.number, source=source, is_made=is_made) for row in rows)


def refuse_clashes(rows: Sequence[PlanRow]) -> None:
    """TableErrors is raised if rows contradict each other about a place or a name, or name a signal that none has."""
    faults = [*_clashes(rows), *_unknown_signals(rows)]
    if faults:
        raise TableErrors(faults)


def cells(row: PlanRow) -> Sequence[str]:
    """A row as a plan writes it, in the order of COLUMNS."""
    km = "" if row.kind in WITHOUT_PLACE and not row.km else kilometre(row.km)
    km_to = "" if row.km_to is None else kilometre(row.km_to)
    return row.kind, km, km_to, clean(row.track), WAY_WORDS[row.way], _value_text(row), clean(row.name)


def _value_text(row: PlanRow) -> str:
    if row.kind == "speed":
        return values.speed_word(row.number_value)
    if row.kind == "aspect":
        return values.terms_text(row.terms)
    if row.kind == "group":
        return values.group_text(row.group_terms)
    if row.kind in plan_things.KEYS or row.kind == "radio":
        return plan_things.text(row.terms)
    return "" if row.value is None else str(row.value)


def _head(sheet: Sheet, headings: Headings, of_kind: str = "") -> Tuple[int, Dict[str, int]]:
    """The row of the headings, and where each column is. A column that is not known is refused: it may be mistyped.

    So is a row of the plan above the headings, which would be passed over: it has the word of a kind, or, in the sheet
    of a kind, a kilometre and something else.
    """
    place = headings.row_of(sheet.rows)
    if place is None:
        raise TableError(f"no column kind: the columns of a track plan are {', '.join(COLUMNS)}", row=1)
    for number, row in enumerate(sheet.rows[:place], 1):
        filled = [cell.strip().lower() for cell in row if cell.strip()]
        is_row = any(map(KILOMETRE.fullmatch, filled)) if of_kind else not READERS.keys().isdisjoint(filled)
        if len(filled) > 1 and is_row:
            raise TableError("it is above the headings: put one row with headings above all others", row=number)
    _, places = head_of(sheet, headings)
    for at, name in enumerate(compared(sheet.rows[place])):
        if name and at not in places.values():
            meant = alike(name, headings.known)
            hint = f'did you mean "{meant}"?' if meant else f"the columns are {', '.join(headings.known)}"
            raise TableError(f"there is no column {name[:40]}: {hint}", row=place + 1)
    return place, places


def _rows(sheet: Sheet, place: int, places: Mapping[str, int], kind: str) -> Sequence[PlanRow]:
    """The rows below the headings. All that is wrong with them is raised together."""
    rows: List[PlanRow] = []
    faults: List[TableError] = []
    width = len(sheet.rows[place])
    for number, cells in enumerate(sheet.rows[place + 1 :], place + 2):
        if any(map(str.strip, cells)):
            try:
                look_at_cells(cells, width, places)
                found = {name: cells[at] if at < len(cells) else "" for name, at in places.items()}
                read = {name: _cell(name, found.get(name, "")) for name in DESIGN}
                rows.append(_row(number, {**read, "kind": _kind(read["kind"], kind)}))
            except TableError as fault:
                fault.row = number
                faults.append(fault)
    for name in ("km", "km_to"):
        faults += decimal_commas.faults(sheet, place + 1, width, places, name)
    if faults:
        raise TableErrors(faults)
    return rows


def _kind(cell: str, of_sheet: str) -> str:
    """The kind of a row: that of its cell, or that of its sheet."""
    if cell and of_sheet and cell.lower() != of_sheet:
        raise TableError(f"{cell[:40]} is in the sheet {of_sheet}", column="kind")
    return cell or of_sheet


def _cell(name: str, cell: str) -> str:
    """The text of a cell."""
    of_cell, text = kind_and_text(cell)
    if of_cell in ("date", "truth value"):
        raise TableError(f"a {of_cell}: the spreadsheet has changed it; make the column text", column=name)
    text = plain(text.strip())
    if "\n" in text or "\r" in text:
        raise TableError("the cell contains a line end", column=name)
    if is_error(text):
        raise TableError(f"{text} is an error of the spreadsheet: its formula failed", column=name)
    if len(text) > GREATEST_NAME:
        raise TableError(f"it has more than {GREATEST_NAME:,} characters", column=name)
    return text


def _row(number: int, cells: Mapping[str, str]) -> PlanRow:
    """A row of the plan, whose cells fit its kind."""
    kind = cells["kind"].lower()
    if kind not in READERS:
        meant = alike(kind, READERS)
        hint = f'did you mean "{meant}"?' if meant else f"the kinds are {', '.join(READERS)}"
        raise TableError(f"{cells['kind'][:40] or 'nothing'} is no kind: {hint}", column="kind")
    way = WAYS.get(cells["way"].lower())
    if way is None:
        raise TableError(f"{cells['way'][:40]} is neither rising nor falling", column="way")
    if kind in NAMED_KINDS and not cells["name"]:
        raise TableError(NAMED_KINDS[kind], column="name")
    km, km_to = _kilometres(kind, cells)
    value = _read("value", lambda text: _value(kind, text), cells)
    track, name, who = (clean(cells[column]) for column in ("track", "name", "who"))
    return PlanRow(number, kind, km, km_to, track, way, value, name, who=who)


def _kilometres(kind: str, cells: Mapping[str, str]) -> Tuple[Decimal, Optional[Decimal]]:
    """Where a row begins and ends."""
    km, km_to = (_read(name, lambda text: kilometre_of(text, ""), cells) for name in ("km", "km_to"))
    if km is None and kind not in WITHOUT_PLACE:
        raise TableError(f"empty: a {kind} needs a kilometre", column="km")
    areas = (*STRETCHES, *plan_things.WITH_LENGTH)
    if km_to is not None and kind not in (*areas, "jump"):
        raise TableError(f"{cells['km_to']}: a row of this kind has one kilometre only", column="km_to")
    if km_to is None and kind in ("jump", *plan_things.ENDING):
        what = "the kilometre after it" if kind == "jump" else "the kilometre at its other end"
        raise TableError(f"empty: a {kind} needs {what}", column="km_to")
    if km is not None and km_to is not None and (km_to == km or km_to < km and kind in areas):
        why = f"{kilometre(km_to)} is {'the same as' if km_to == km else 'before'} km {kilometre(km)}"
        raise TableError(why, column="km_to")
    return km or Decimal(), km_to


def _value(kind: str, text: str) -> Value:
    reader = READERS[kind]
    if reader is None and text:
        raise TableError(f"{text[:40]}: a {kind} has no value")
    return reader(text) if reader else None


def _read(name: str, meaning: Callable[[str], Meaning], cells: Mapping[str, str]) -> Meaning:
    """What a cell means. TableError is raised with the column if it means nothing."""
    try:
        return meaning(cells[name])
    except TableError as fault:
        fault.column = name
        raise


def _lanes(rows: Sequence[PlanRow]) -> Mapping[Lane, Sequence[PlanRow]]:
    """The rows by kind, track and way, in the order of the kilometres. A row for both ways is in two lanes."""
    lanes: Dict[Lane, List[PlanRow]] = {}
    for row in sorted(rows, key=lambda row: row.km):
        for way in (row.way,) if row.way else (1, -1):
            lanes.setdefault((row.kind, row.track, way), []).append(row)
    return lanes


def _clashes(rows: Sequence[PlanRow]) -> Iterator[TableError]:
    """Rows that contradict each other about a place or aspect. Each is named once."""
    named: Dict[int, TableError] = {}
    for (kind, _, _), lane in _lanes(rows).items():
        if kind in (*STRETCHES, *BORDERS):
            far = lane[0]
            for row in lane[1:]:
                if row.km < (far.km_to or far.km) or row.km == far.km:
                    fault = _clash(*sorted((far, row), key=lambda each: each.number))
                    named.setdefault(fault.row or 0, fault)
                far = row if (row.km_to or row.km) >= (far.km_to or far.km) else far
    first: Dict[Tuple[str, str, int], PlanRow] = {}
    for row in (row for row in rows if row.kind == "radio" and "rbc" in row.terms):
        earlier = first.setdefault((row.kind, str(row.terms["rbc"]), 0), row)
        if earlier is not row:
            why = f"the RBC {row.terms['rbc']} is in {_earlier(earlier, row)} already"
            named.setdefault(row.number, TableError(why, row.number, "value"))
    for row in (row for row in rows if row.kind in NAMED_KINDS):
        for way in (row.way,) if row.way and row.kind == "aspect" else (1, -1):
            earlier = first.setdefault((row.kind, row.name, way), row)
            if earlier is not row:
                why = f"the {row.kind} {row.name} is in {_earlier(earlier, row)} already"
                named.setdefault(row.number, TableError(why, row.number, "name"))
    yield from named.values()


def _unknown_signals(rows: Sequence[PlanRow]) -> Iterator[TableError]:
    """Aspects that lead to a signal that no row has."""
    names = {row.name for row in rows if row.kind == "signal"}
    for row in (row for row in rows if row.kind == "aspect"):
        name = str(row.terms.get("to", ""))
        if name and name not in names:
            meant = alike(name, sorted(names))
            hint = f': did you mean "{meant}"?' if meant else ""
            yield TableError(f"to: no row has the signal {name}{hint}", row.number, "value")


def _clash(earlier: PlanRow, row: PlanRow) -> TableError:
    """What is wrong with a row that has a border or holds where an earlier row of the file does."""
    if row.kind in BORDERS:
        return TableError(f"{_earlier(earlier, row)} has a border at this kilometre already", row.number, "km")
    reach = f" to {kilometre(earlier.km_to)}" if earlier.km_to is not None else ""
    why = f"it overlaps {_earlier(earlier, row)}, which holds from km {kilometre(earlier.km)}{reach}"
    return TableError(why, row.number, "km")


def _earlier(earlier: PlanRow, row: PlanRow) -> str:
    """An earlier row, with its sheet if that is another one."""
    return f"row {earlier.shown}{f' of {earlier.source}' if earlier.source != row.source else ''}"

"""Track plans that cannot be read, each with the row, the column and the reason."""

from __future__ import annotations

from decimal import Decimal
from pathlib import Path
from typing import Callable, Dict, List, Sequence, Tuple

import pytest

from balisekit.errors import KitError
from balisekit.tables import plan

Write = Callable[..., Path]
HEADING = "kind,km,km_to,track,way,value,name"
KINDS = (
    "the kinds are speed, gradient, signal, aspect, level, rbc, group, tsr, condition, reversing, repositioning, "
    "crossing, traction, stop_in_sr, shunting, radio, jump, point"
)
OF_PLAN = "kind, km, km_to, track, way, value, name"
COLUMNS = f"{OF_PLAN}, who"
SPEED = "is no speed: write km/h in steps of 5, at most 600"
GRADIENT = "is no gradient: write whole per mille with sign, such as -5"
LEVELS = "is no list of levels: write 0, 1, 2, 3 or NTC:7, in the order of priority"
OVERLAPS = "column km: it overlaps row 2, which holds from km"
LENGTH = "is no length: write metres, such as 1400 or 1400.5"
ASPECT = (
    "is none of authority=.., v=.., end=.., overlap=.., release=.., danger=.., loa=.., loa_time=.., end_time=.., "
    "end_start=.., overlap_time=.., overlap_start=.., sections=.., to=.., mode=.., stop=.., links=.."
)

ROWS: Dict[str, str] = {
    "train,12,,,,,": 'row 2, column kind: train is no kind: did you mean "traction"?',
    ",12,,,,120,": f"row 2, column kind: nothing is no kind: {KINDS}",
    "sped,12,,,,120,": 'row 2, column kind: sped is no kind: did you mean "speed"?',
    "speed,,,,,120,": "row 2, column km: empty: a speed needs a kilometre",
    "signal,,,,,,A": "row 2, column km: empty: a signal needs a kilometre",
    "speed,12.5 km,,,,120,": "row 2, column km: 12.5 km is no kilometre: one is written like 13.850, 13,850 or 13+850",
    "speed,NaN,,,,120,": "row 2, column km: NaN is no kilometre: one is written like 13.850, 13,850 or 13+850",
    "speed,#REF!,,,,120,": "row 2, column km: #REF! is an error of the spreadsheet: its formula failed",
    "speed,12,x,,,120,": "row 2, column km_to: x is no kilometre: one is written like 13.850, 13,850 or 13+850",
    "speed,12,11.999,,,120,": "row 2, column km_to: 11.999 is before km 12.000",
    "gradient,12,12,,,-5,": "row 2, column km_to: 12.000 is the same as km 12.000",
    "jump,12,12,,,,": "row 2, column km_to: 12.000 is the same as km 12.000",
    "jump,12,,,,,": "row 2, column km_to: empty: a jump needs the kilometre after it",
    "signal,12,13,,,,A": "row 2, column km_to: 13: a row of this kind has one kilometre only",
    "speed,12,,,up,120,": "row 2, column way: up is neither rising nor falling",
    "speed,12,,,,,": f"row 2, column value: nothing {SPEED}",
    "speed,12,,,,123,": f"row 2, column value: 123 {SPEED}",
    "speed,12,,,,605,": f"row 2, column value: 605 {SPEED}",
    "speed,12,,,,120 km/h,": f"row 2, column value: 120 km/h {SPEED}",
    "speed,12,,,,-5,": f"row 2, column value: -5 {SPEED}",
    "speed,12,,,,١٢٠,": f"row 2, column value: ١٢٠ {SPEED}",
    "gradient,12,,,,3.5,": f"row 2, column value: 3.5 {GRADIENT}",
    "gradient,12,,,,255,": f"row 2, column value: 255 {GRADIENT}",
    "gradient,12,,,,--5,": f"row 2, column value: --5 {GRADIENT}",
    "gradient,12,,,,,": f"row 2, column value: nothing {GRADIENT}",
    "signal,12,,,,120,A": "row 2, column value: 120: a signal has no value",
    "point,12,,,,left,W1": "row 2, column value: left: a point has no value",
    "aspect,,,,,v=120,": "row 2, column name: an aspect needs a name: SIGNAL/ASPECT",
    "aspect,,,,,,A/red": "row 2, column value: empty: an aspect needs a value such as v=120 end=1400 overlap=100 "
    "release=20",
    "aspect,,,,,V_MAIN=120,A/red": f"row 2, column value: V_MAIN=120 {ASPECT}",
    "aspect,,,,,v=120 km/h,A/red": f"row 2, column value: km/h {ASPECT}",
    "aspect,,,,,v=120 v=100,A/red": "row 2, column value: v is given twice",
    "aspect,,,,,v=,A/red": f"row 2, column value: v: nothing {SPEED}",
    "aspect,,,,,v=onboard,A/red": f"row 2, column value: v: onboard {SPEED}",
    "aspect,,,,,v=12 0,A/red": f"row 2, column value: v: 12 {SPEED}",
    "aspect,,,,,end=1400m,A/red": f"row 2, column value: end: 1400m {LENGTH}",
    "aspect,,,,,end=none,A/red": f"row 2, column value: end: none {LENGTH}",
    "aspect,,,,,overlap=-1,A/red": f"row 2, column value: overlap: -1 {LENGTH}",
    "aspect,,,,,release=21,A/red": f"row 2, column value: release: 21 {SPEED}",
    "group,12,,,,id=352/17,": "row 2, column name: a group needs its name in the table",
    "group,,,,,id=352/17,A": "row 2, column km: empty: a group needs a kilometre",
    "group,12,,,,,A": "row 2, column value: empty: a group needs a value such as id=352/17 balises=2 linked=yes",
    "group,12,,,,nid=17,A": "row 2, column value: nid=17 is none of id=.., balises=.., linked=.. and at=..",
    "group,12,,,,id=352,A": "row 2, column value: id: 352 is no identity: write NID_C/NID_BG, such as 352/17",
    "group,12,,,,id=352/16383,A": "row 2, column value: id: 352/16383 is no identity: write NID_C/NID_BG, such as "
    "352/17",
    "group,12,,,,id=1/2 id=1/3,A": "row 2, column value: id is given twice",
    "group,12,,,,balises=9,A": "row 2, column value: balises: 9 is no number from 1 to 8",
    "group,12,,,,linked=1,A": "row 2, column value: linked: 1 is neither yes nor no",
    "group,12,,,,at=12+300,A": "row 2, column value: at: 12+300 is no list of kilometres: write 12.300,12.303",
    'group,12,,,,"balises=2 at=12.3,12.4,12.5",A': "row 2, column value: at: 3 kilometres for 2 balises",
    "group,12,,,,linked=no,A\ngroup,13,,,,linked=no,A": "row 3, column name: the group A is in row 2 already",
    "aspect,,,,,loa_time=1023,A/red": "row 2, column value: loa_time: 1023 is no time: write "
    "seconds, at most 1022, or none",
    "aspect,,,,,danger=50m,A/red": f"row 2, column value: danger: 50m {LENGTH}",
    "level,12,,,,,": f"row 2, column value: nothing {LEVELS}",
    "level,12,,,,4,": f"row 2, column value: 4 {LEVELS}",
    "level,12,,,,NTC,": f"row 2, column value: NTC {LEVELS}",
    "level,12,,,,NTC:256,": "row 2, column value: NTC:256 is no national system: NID_NTC is at most 255",
    "rbc,12,,,,17,": "row 2, column value: 17 is no RBC: write NID_C/NID_RBC, such as 352/17",
    "rbc,12,,,,1024/1,": "row 2, column value: 1024/1 is no RBC: write NID_C/NID_RBC, such as 352/17",
    "rbc,12,,,,352/16384,": "row 2, column value: 352/16384 is no RBC: write NID_C/NID_RBC, such as 352/17",
    "speed,12,,,,120,A,13": "row 2: it has 8 cells, and the heading 7",
    'speed,12,,"a\nb",,120,': "row 2, column track: the cell contains a line end",
    f"speed,12,,{'x' * 1001},,120,": "row 2, column track: it has more than 1,000 characters",
    "speed,12,14,,,120,\nspeed,13,15,,,100,": f"row 3, {OVERLAPS} 12.000 to 14.000",
    "speed,13,15,,,100,\nspeed,12,14,,,120,": f"row 3, {OVERLAPS} 13.000 to 15.000",
    "speed,12,20,,,120,\nspeed,13,14,,rising,100,": f"row 3, {OVERLAPS} 12.000 to 20.000",
    "speed,12,20,,,120,\nspeed,13,13.5,,,100,\nspeed,14,15,,,90,": f"row 3, {OVERLAPS} 12.000 to 20.000|"
    f"row 4, {OVERLAPS} 12.000 to 20.000",
    "gradient,12,,,,1,\ngradient,12,,,,1,": f"row 3, {OVERLAPS} 12.000",
    "level,12,,,,2,\nlevel,12.000,,,falling,1,": "row 3, column km: row 2 has a border at this kilometre already",
    "aspect,,,,,v=120,A/red\naspect,,,,falling,v=100,A/red": "row 3, column name: the aspect A/red is in row 2 already",
    "speed,,,,,120,\ntrain,12,,,,,": "row 2, column km: empty: a speed needs a kilometre|"
    'row 3, column kind: train is no kind: did you mean "traction"?',
}


def faults(path: Path) -> List[str]:
    """Why a plan cannot be read, without the path."""
    with pytest.raises(KitError) as raised:
        plan.read(str(path))
    assert raised.value.status == 2
    return [line.replace(f"{path}: ", "") for line in raised.value.lines()]


@pytest.mark.parametrize("rows", ROWS, ids=[f"{number}" for number, _ in enumerate(ROWS)])
def test_rows(table: Write, rows: str) -> None:
    """Each row that is wrong is named, with its column."""
    assert faults(table(HEADING, rows)) == ROWS[rows].split("|")


FILES: List[Tuple[bytes, str]] = [
    (b"", f"row 1: no column kind: the columns of a track plan are {OF_PLAN}"),
    (b"km,value\n12,120\n", f"row 1: no column kind: the columns of a track plan are {OF_PLAN}"),
    (b"kind,km,speed\nspeed,12,120\n", f"row 1: there is no column speed: the columns are {COLUMNS}"),
    (b"kind,km,valeu\nspeed,12,120\n", 'row 1: there is no column valeu: did you mean "value"?'),
    (b"kind,km,km,value\nspeed,12,12,120\n", "row 1: columns 2 and 3 have one heading, km"),
    (b"kind,km,value\n\n,,\n", "the plan has no row below its heading"),
    (b'kind,km,value\nspeed,12,"120\n', "row 2: a quote is not closed"),
    (
        b'kind,km,value,\npoint,11,,"old\nspeed,12,120,\npoint,13,,12"\n',
        "row 2: cell 4 is not empty, and has no heading",
    ),
    (
        b"kind,km,value\nspeed,12,120\nkind,km,value,name\nspeed,13,100,\n",
        "row 2: it is above the headings: put one row with headings above all others",
    ),
    (b"PK\x03\x04", "it is a workbook or another zip: save it as text, such as CSV"),
    (b"kind,km\0,value\n", "character 8 is NUL: this is no text file"),
]


@pytest.mark.parametrize("content, wanted", FILES, ids=[f"{number}" for number, _ in enumerate(FILES)])
def test_files(table: Write, content: bytes, wanted: str) -> None:
    """A file that is no plan is refused, with the reason."""
    path = table(name="plan.csv", content=content or b"\n")
    assert faults(path) == [wanted]


@pytest.mark.uncovered
def test_many_faults_are_counted(table: Write) -> None:
    """The first 20 are shown, and a plan of 20,000 rows with an overlap in each is refused in a second."""
    path = table(HEADING, *(f"speed,12,{13 + number % 7},{number % 100},,120," for number in range(20_000)))
    lines = faults(path)
    assert len(lines) == 21 and lines[-1] == "and 19880 more"


def test_spellings(table: Write) -> None:
    """A plan with semicolons, rows above the headings, other cases and columns in another order is read."""
    rows = ["Plan of the line;;;;", "Way;Value;KM;Kind;km_to", "Rising;120;12,3;Speed;13+500", ";2 ntc:7,0;14;LEVEL;"]
    read = plan.read(str(table(*rows)))
    assert read.rows[0] == plan.PlanRow(3, "speed", Decimal("12.3"), Decimal("13.5"), "", 1, 24, "")
    assert (read.rows[1].kind, read.rows[1].value) == ("level", "2 NTC:7 0")


def shown(stretches: Sequence[plan.Stretch]) -> List[str]:
    """Stretches in short: from, to and value."""
    return [f"{each.begin.normalize():f} {each.end and each.end.normalize():f} {each.value}" for each in stretches]


def test_gradients_by_way(table: Write) -> None:
    """Without a way the sign is that of a rising train, and a falling one meets the opposite."""
    read = plan.read(str(table(HEADING, "gradient,12,13,,,-5,", "gradient,13,14,,falling,-3,", "gradient,15,16,,,2,")))
    assert shown(read.stretches("gradient", "", 1)) == ["12 13 -5", "15 16 2"]
    assert shown(read.stretches("gradient", "", -1)) == ["12 13 5", "13 14 -3", "15 16 -2"]
    assert read.stretches("gradient", "other", 1) == []


def test_stretches_end_where_the_next_begins(table: Write) -> None:
    """A row for both ways ends for a rising train at a row that is only for it. The last row never ends."""
    read = plan.read(str(table(HEADING, "speed,12,,,,120,", "speed,13,,,rising,100,", "speed,14,,,,80,")))
    rising, falling = (read.stretches("speed", "", way) for way in (1, -1))
    assert shown(rising[:-1]) == ["12 13 24", "13 14 20"] and shown(falling[:-1]) == ["12 14 24"]
    assert rising[-1].end is None and falling[-1].end is None


def test_jumps_and_points(table: Write) -> None:
    """What rules need of them: where the kilometres jump, and the points between two places."""
    rows = ["jump,15,16,1,,,", "jump,20,18,1,,,", "point,14,,1,rising,,W1", "point,17,,1,,,W2", "point,17,,2,,,W3"]
    read = plan.read(str(table(HEADING, *rows)))
    assert list(read.jumps) == [(Decimal(15), Decimal(16), "1"), (Decimal(20), Decimal(18), "1")]

    def names(begin: int, end: int, way: int = 0) -> List[str]:
        return [each.name for each in read.points_between("1", Decimal(begin), Decimal(end), way)]

    assert names(10, 20) == ["W1", "W2"] and names(20, 17) == ["W2"] and names(10, 16) == ["W1"]
    assert names(10, 20, -1) == ["W2"] and names(10, 20, 1) == ["W1", "W2"] and names(18, 20) == []

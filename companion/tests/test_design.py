"""What a design lets one expect of a group, worked out here by hand from rows of a plan, without telegrams."""
from __future__ import annotations

from decimal import Decimal
from pathlib import Path
from typing import List, Tuple

import pytest

from balisekit.design.tracks import Start, Tracks, nearest
from balisekit.tables import plan
from balisekit.tables.chainage import Jump

PLAN = """kind,km,km_to,track,way,value,name
speed,10.000,,1,rising,80,
speed,11.000,,1,rising,120,
speed,12.000,14.000,1,rising,60,
speed,10.000,14.000,1,falling,100,
gradient,10.000,12.500,1,,5,
gradient,12.500,14.000,1,,-3,
signal,11.500,,1,rising,,Signal 2
signal,13.500,,1,rising,,Signal 3
point,13.000,,1,rising,,
tsr,10.500,11.000,1,rising,v=40,
tsr,11.800,13.500,1,,v=60,
stop_in_sr,12.000,,1,rising,stop=yes,
"""
Said = List[Tuple[int, int, int, int]]
"""From one distance to another one in metres, what is sent, and the row of the plan."""


@pytest.fixture
def tracks(tmp_path: Path) -> Tracks:
    """The tracks of this plan, on which the kilometres jump from 12.200 to 12.300."""
    path = tmp_path / "p.csv"
    path.write_text(PLAN, "utf-8")
    return Tracks(plan.read(str(path)), [Jump(Decimal("12.200"), Decimal("12.300"), "1")])


def expected(tracks: Tracks, kind: str, start: Start, begin: int, end: int) -> Said:
    """What a profile has to say between two distances in metres."""
    found = tracks.profile(kind, start, begin * 10, end * 10)
    return [(each.begin // 10, each.end // 10, each.value, each.row.number) for each in found]


@pytest.mark.parametrize(
    "kind, way, km, begin, end, said",
    [
        ("speed", 1, "10.400", 0, 1000, [(0, 600, 16, 2), (600, 1000, 24, 3)]),
        ("speed", 1, "10.400", 700, 900, [(700, 900, 24, 3)]),
        ("speed", 1, "10.400", 600, 4000, [(600, 1600, 24, 3), (1600, 3500, 12, 4)]),
        ("speed", -1, "10.400", 0, 900, [(0, 400, 20, 5)]),
        ("gradient", 1, "12.000", 0, 600, [(0, 400, 5, 6), (400, 600, -3, 7)]),
        ("gradient", -1, "13.000", 0, 1000, [(0, 500, 3, 7), (500, 1000, -5, 6)]),
        ("gradient", 1, "15.000", 0, 900, []),
    ],
)
def test_a_profile(tracks: Tracks, kind: str, way: int, km: str, begin: int, end: int, said: Said) -> None:
    """In the order of passing, by the jump of the kilometres, only between the two distances."""
    place = tracks.place("1", Decimal(km))
    assert place is not None and expected(tracks, kind, Start("1", way, place), begin, end) == said


def test_places_with_one_row(tracks: Tracks) -> None:
    """Signals have their places behind the jump. A kilometre that the jump leaves out has no place."""
    spots = tracks.spots("signal", "1", 1)
    assert [(spot.row.name, spot.place) for spot in spots] == [("Signal 2", 115_000), ("Signal 3", 134_000)]
    assert nearest(spots, 120_000) is spots[0] and nearest(spots, 130_000) is spots[1]
    assert not tracks.spots("signal", "1", -1) and not tracks.spots("signal", "2", 1)
    assert tracks.place("1", Decimal("12.250")) is None and tracks.place("2", Decimal("12.250")) == 122_500
    assert not tracks.is_lost("signal", Start("1", 1, 100_000), 134_000, 10)
    assert tracks.spots("point", "1", 1)[0].place == 129_000


@pytest.mark.parametrize(
    "kind, way, km, begin, end, said",
    [
        ("tsr", 1, "10.400", 0, 50, []),
        ("tsr", 1, "10.400", 0, 100, [(100, 600, 11)]),
        ("tsr", 1, "10.400", 0, 9000, [(100, 600, 11), (1400, 3000, 12)]),
        ("tsr", 1, "12.000", 0, 100, [(-200, 1400, 12)]),
        ("tsr", -1, "13.600", 0, 100, [(100, 1700, 12)]),
        ("tsr", -1, "10.400", -9000, 9000, [(-3000, -1400, 12)]),
        ("stop_in_sr", 1, "12.000", 0, 0, [(0, 0, 13)]),
        ("stop_in_sr", -1, "12.000", 0, 0, []),
    ],
)
def test_areas(
    tracks: Tracks, kind: str, way: int, km: str, begin: int, end: int, said: List[Tuple[int, int, int]]
) -> None:
    """Those of which anything is between the two distances, whole, in the direction of passage."""
    place = tracks.place("1", Decimal(km))
    assert place is not None
    found = tracks.areas(kind, Start("1", way, place), begin * 10, end * 10)
    assert [(each.begin // 10, each.end // 10, each.row.number) for each in found] == said

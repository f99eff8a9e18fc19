"""Places: the figures of the examples, in decimetres."""
from __future__ import annotations

import json
from decimal import Decimal
from typing import Any, List, Optional, Tuple

import pytest
from cases_of_program import TOP

from balisekit.drawing.ways import passages, ways
from balisekit.engine.records import Form
from balisekit.etcs.geometry import (
    DIRECTIONS,
    NOMINAL,
    REVERSE,
    Kilometres,
    Site,
    authority,
    kilometre,
    kilometres,
    profile,
)
from balisekit.tables.model import Aspect, Group, Row

HERE = Site(0, 0)


def _packet(name: str, number: int) -> Any:
    form = json.loads((TOP / "examples" / f"{name}.json").read_text())
    return next(packet for packet in form["packets"] if packet["nid_packet"] == number)


def test_authority_of_level_1() -> None:
    """Two sections, three timers, a danger point and an overlap."""
    found = authority(HERE, _packet("movement-authority-level-1", 12))
    assert (found.cuts, found.end, found.danger_point, found.overlap) == ((12000, 16500), 22500, 23500, 24000)
    assert (found.supervised, found.timer_stops, found.end_timer, found.overlap_timer) == (
        24000,
        (3000, 17000),
        18500,
        19000,
    )


def test_authority_by_radio() -> None:
    """In units of 10 m."""
    found = authority(HERE, _packet("movement-authority-radio", 15))
    assert (found.cuts, found.end, found.danger_point, found.overlap, found.overlap_timer) == (
        (25000,),
        43000,
        44000,
        45000,
        39000,
    )


def test_supervised_location_without_overlap() -> None:
    """The danger point, else the end; an overlap of length 0 counts."""
    base: Form = {"nid_packet": 12, "q_dir": 1, "q_scale": 1, "sections": [], "l_endsection": 100}
    assert authority(HERE, base).supervised == 1000
    base["danger_point"] = {"d_dp": 50, "v_releasedp": 0}
    assert authority(HERE, base).supervised == 1500
    base["overlap"] = {"d_ol": 0, "d_startol": 0, "t_ol": 0, "v_releaseol": 0}
    assert authority(HERE, base).supervised == 1000


PROFILES: List[Tuple[str, int, Tuple[int, ...], int]] = [
    ("gradients", 21, (0, 8000, 20500, 25000), 32000),
    ("speeds", 27, (0, 15000), 37500),
    ("authority-with-profiles", 21, (0,), 10000),
    ("authority-with-profiles", 27, (0,), 10000),
]


@pytest.mark.parametrize("name, number, begins, reach", PROFILES)
def test_profiles(name: str, number: int, begins: Tuple[int, ...], reach: int) -> None:
    """Where the elements begin, and how far the profile reaches."""
    found = profile(HERE, _packet(name, number))
    assert (tuple(element.begin for element in found.elements), found.reach) == (begins, reach)


def _gradients(scale: int, *elements: Tuple[int, int]) -> Form:
    return {
        "nid_packet": 21,
        "q_dir": 1,
        "q_scale": scale,
        "elements": [{"d_gradient": distance, "g_a": value, "q_gdir": 1} for distance, value in elements],
    }


def test_the_first_end_mark_counts() -> None:
    """Elements after it have no meaning. Without an end mark the profile is open."""
    found = profile(HERE, _gradients(1, (10, 5), (20, 255), (30, 6), (40, 255)))
    assert (found.first, found.reach, len(found.elements), [one.begin for one in found.beyond]) == (100, 300, 1, [600])
    assert profile(HERE, _gradients(1, (10, 5))).reach is None
    assert profile(HERE, _gradients(1, (10, 255))).elements == ()


def test_scales_give_the_same_places() -> None:
    """100 units of 10 cm, 10 of 1 m and 1 of 10 m."""
    reached = [
        profile(HERE, _gradients(scale, (0, 5), (distance, 255))).reach
        for scale, distance in ((0, 500), (1, 50), (2, 5))
    ]
    assert reached == [500, 500, 500]


def _telegram(dup: int, *packets: Any) -> Any:
    return {"m_dup": dup, "packets": list(packets)}


def test_silent_balises_and_directions() -> None:
    """Only the balise of a pair that is passed first counts, and each packet counts only in its directions."""
    one = _gradients(1, (0, 5), (50, 255))
    pair = [_telegram(1, one), _telegram(2, one)]
    nominal, reverse = ways(pair)
    assert [profile.site for profile in nominal.gradients] == [Site(0, 0)] and not reverse
    both = ways([_telegram(1, {**one, "q_dir": 2}), _telegram(2, {**one, "q_dir": 2})])
    assert [[profile.site.balise for profile in each.gradients] for each in both] == [[0], [1]]
    assert [each.direction for each in both] == list(DIRECTIONS)
    values = [[element.value for element in each.gradients[0].elements] for each in both]
    assert values[0] == values[1]


def test_infill_counts_from_another_group() -> None:
    """What is passed after a packet 136 has a row of its own."""
    one = _gradients(1, (0, 5), (50, 255))
    forms = [_telegram(0, one, {"nid_packet": 136, "q_dir": 1}, one), _telegram(0, one)]
    assert [[site for site, _ in each] for each in passages(forms, NOMINAL)] == [[Site(0, 0)], [Site(0, 2), Site(1, 0)]]
    assert [profile.site for profile in ways(forms)[0].gradients] == [Site(0, 0)]
    assert [profile.site for profile in ways(forms, True)[0].gradients] == [Site(0, 2), Site(1, 0)]


def _group(kms: List[Optional[str]], nominal: str = "") -> Group:
    rows = [
        Row(2 + place, "G", "", km=None if km is None else Decimal(km), nominal=nominal) for place, km in enumerate(kms)
    ]
    return Group("G", (Aspect("", tuple(rows)),))


@pytest.mark.parametrize(
    "kms, nominal, wanted",
    [
        (["1.000", "1.003"], "", 1),
        (["1.003", "1.000"], "", -1),
        (["1.000"], "", None),
        (["1.000"], "falling", -1),
        (["1.000", "1.000"], "rising", 1),
        (["1.000", None, "1.006"], "falling", 1),
    ],
)
def test_kilometres(kms: List[Optional[str]], nominal: str, wanted: Optional[int]) -> None:
    """A group's own kilometres count first, then the column `nominal`."""
    assert kilometres(_group(kms, nominal)) == Kilometres(Decimal(kms[0] or "0"), wanted)


def test_kilometres_of_places() -> None:
    """Both directions, along rising and falling kilometres."""
    for rising, direction, wanted in (
        (1, NOMINAL, "2.0005"),
        (1, REVERSE, "1.9995"),
        (-1, NOMINAL, "1.9995"),
        (-1, REVERSE, "2.0005"),
    ):
        assert Kilometres(Decimal("2"), rising).words(5, direction) == wanted
    assert Kilometres(Decimal("2")).words(5, NOMINAL) == ""
    assert [kilometre(Decimal(one)) for one in ("2", "2.0005", "13.85")] == ["2.000", "2.0005", "13.850"]

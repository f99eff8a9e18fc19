"""The data as a train gets them: passages, places, profiles, links and infill of sound lines."""
from __future__ import annotations

import json
from decimal import Decimal
from pathlib import Path
from typing import Any, List

import pytest
from meaning_line import Line, Row, random_line
from test_meaning import written

from balisekit.drawing import ways
from balisekit.engine.program import Program
from balisekit.etcs.geometry import DIRECTIONS
from balisekit.rules import checking, telegrams
from balisekit.rules.decoded import Decoded
from balisekit.rules.line import Line as LineOfTable
from balisekit.rules.telegrams import allowance
from balisekit.tables import reader

pytestmark = pytest.mark.uncovered


def data_of(program: Program, path: Path) -> Decoded:
    """The data of a table."""
    return LineOfTable.of(checking.check(program, reader.read(str(path)))).decoded


@pytest.mark.parametrize("seed", range(3))
def test_it_is_what_pictures_show(program: Program, tmp_path: Path, seed: int) -> None:
    """Each passage has the packets, authorities and profiles that pictures of the same telegrams have, in order."""
    data = data_of(program, written(program, tmp_path / "t.csv", random_line(seed)))
    for group in data.groups:
        for passage in group.passages:
            (aspect,) = [each for each in group.group.group.aspects if each.name == passage.aspect]
            own = [group.telegrams[row.number] for row in aspect.rows]
            records: List[Any] = [
                {"m_dup": each.header.m_dup, "packets": [packet.form for packet in each.packets]} for each in own
            ]
            said, infill = ways.passages(records, passage.direction)
            assert [each.form for each in passage.said] == [packet for _, packet in said]
            assert [each.form for each in passage.infill] == [packet for _, packet in infill]
            way = ways.ways(records)[DIRECTIONS.index(passage.direction)]
            assert [each.authority.end for each in passage.authorities] == [each.end for each in way.authorities]
            for number, profiles in ((21, way.gradients), (27, way.speeds)):
                made = [[(each.begin, each.end) for each in packet.stretches] for packet in passage.of(number)]
                assert made == [[(each.begin, each.end) for each in profile.elements] for profile in profiles]


@pytest.mark.parametrize("way", [1, -1])
def test_places_and_links(program: Program, tmp_path: Path, way: int) -> None:
    """The authority of green ends at the second signal ahead, and each link leads to its group."""
    data = data_of(program, written(program, tmp_path / "t.csv", Line(way=way, begin=30_000)))
    group = next(each for each in data.groups if each.group.group.name in ("Signal 8",))
    green = next(each for each in group.passages if each.aspect == "green")
    assert green.way == way and green.track == "" and group.place is not None
    (authority,) = green.authorities
    end = green.place(authority.authority.end)
    assert end == group.place + way * 30_000 and data.is_inside("", end)
    near = data.nearest("", end + 20)
    assert near is not None and near.place == end and data.between("", end, end) == [near]
    assert data.km("", end) == f"km {Decimal(end).scaleb(-4):.3f}"
    assert list(green.links)
    for link in green.links:
        assert link.target is not None and link.target.place == green.place(link.total)
    assert data.resolution == 10 and data.tolerance(Decimal("1.5"), allowance(authority, 3)) == 15 + 10 + 20
    gradient = green.of(21)[0].stretches[0]
    assert gradient.value == (1 if gradient.element["q_gdir"] else -1) * gradient.element["g_a"]
    assert green.at(authority).packet_words.startswith("packet 12 (movement authority of level 1), first in the")
    assert data.nearest("other", 0) is None and not data.is_inside("other", 0) and not data.between("other", 0, 9)


def test_infill_and_raw_packets(program: Program, tmp_path: Path, monkeypatch: pytest.MonkeyPatch) -> None:
    """What follows a packet 136 is separate. A packet that is kept as bits has fields in addition to its body."""
    monkeypatch.setattr(telegrams, "FIELDS_OF", lambda packet: {"nid_bg": int(packet["body"], 16) >> 1})
    data = data_of(program, written(program, tmp_path / "t.csv", Line(infill=(3,))))
    group = next(each for each in data.groups if each.group.group.name == "Infill of Signal 4")
    for passage in group.passages:
        assert [each.number for each in passage.said] == [5]
        assert [each.number for each in passage.infill] == [12, 21, 27]
        assert passage.reference is not None and json.dumps(passage.reference.form).count("nid_bg") == 1
        assert dict(passage.reference.form)["nid_bg"] == 4 and "body" in passage.reference.form


def test_groups_at_one_place(program: Program, tmp_path: Path) -> None:
    """Without a direction along the kilometres the group has a place, and nothing ahead of it has one."""

    def nowhere(rows: List[Row]) -> None:
        for row in rows:
            row.place = 0

    data = data_of(program, written(program, tmp_path / "t.csv", Line(5), nowhere))
    green = next(each for each in data.passages if each.aspect == "green")
    assert green.place(0) == 0 and green.place(10) is None and green.way is None

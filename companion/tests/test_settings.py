"""What a project states about its line: by options, or by [check] of balisekit.toml beside the table."""
from __future__ import annotations

from decimal import Decimal
from pathlib import Path
from typing import List, Sequence, Tuple

import pytest
from conftest import Run
from meaning_line import Line, Row
from meaning_mistakes_of_groups import packets_added, raw
from test_meaning import written

from balisekit.engine.program import Program
from balisekit.rules.chainage import Chainage, Jump


def test_a_project_states_its_line_once(run: Run, program: Program, tmp_path: Path) -> None:
    """Balises 2.8 m apart are far enough up to 180 km/h only. An option overrides the key."""
    path = written(program, tmp_path / "t.csv", Line())
    path.write_text(path.read_text("utf-8").replace(",14.503,", ",14.5028,"), "utf-8")
    assert run("check", path)[0] == 0
    assert run("check", path, "--line-speed", "200")[0] == 1
    file = tmp_path / "balisekit.toml"
    file.write_text(
        "[check]\nline_speed = 200\nrules = ['E7', 'E11']\ntolerance = 2.5\n[columns]\nkm = 'km'\n", "utf-8"
    )
    assert run("check", path)[0] == 1
    assert run("check", path, "--line-speed", "180")[0] == 0
    assert run("check", path, "--only", "F")[0] == 0


def test_layouts_that_a_project_has_compared(run: Run, program: Program, tmp_path: Path) -> None:
    """A Q_SCALE 3 in a packet 88, whose layout is less certain, is reported once the project has compared it."""
    crossing = raw(88, f"11{5:08b}{500:015b}{20:015b}0")
    path = written(program, tmp_path / "t.csv", Line(6), packets_added(3, "red", crossing))
    assert run("check", path)[0] == 0
    (tmp_path / "balisekit.toml").write_text("[check]\nlayouts = [39, 88]\n", "utf-8")
    status, out, _ = run("check", path)
    assert status == 1 and "check.layouts=39,88" in "\n".join(out).replace(" ", "")
    assert any(": E1: packet 88" in line and "Q_SCALE has the spare number 3" in line for line in out)
    assert run("check", path, "--only", "L")[0] == 0


@pytest.mark.parametrize(
    "toml, why",
    [
        ("[check]\nspeed = 1", "[check] has an unknown key speed: the keys are line_speed, release_speed, "),
        ("[check]\nline_sped = 1", '[check] has an unknown key line_sped: did you mean "line_speed"?'),
        ("[check]\nline_speed = 900", "[check] line_speed: 900 is no speed in km/h from 1 to 500"),
        ("[check]\nline_speed = true", "[check] line_speed is true or false: write line_speed = 160"),
        ("[check]\ntolerance = 'x'", "[check] tolerance is a text: write tolerance = 2.5"),
        ("[check]\nrules = ['E99']", "[check] rules: E99 is no rule: write all or E7,E11; the rules are E"),
        ("check = 3", "check is no table: write [check], and a line for each key below it"),
    ],
)
def test_bad_values(run: Run, program: Program, tmp_path: Path, toml: str, why: str) -> None:
    path = written(program, tmp_path / "t.csv", Line(5))
    (tmp_path / "balisekit.toml").write_text(toml, "utf-8")
    status, out, err = run("check", path)
    assert (status, out) == (2, []) and err[0].startswith(f"balisekit: {tmp_path / 'balisekit.toml'}: {why}"), err


@pytest.mark.parametrize(
    "words, why",
    [
        (["--line-speed", "0"], "0 is no speed in km/h from 1 to 500"),
        (["--release-speed", "4.5"], "4.5 is no speed in km/h from 1 to 100"),
        (["--rules", "E7,"], "nothing is no rule: write all or E7,E11"),
        (["--rules", "L1"], "L1 is no rule"),
        (["--only", "F,L", "--rules", "all"], "--rules is not used with --only F,L"),
        (["--only", "L", "--line-speed", "100"], "--line-speed is not used with --only L"),
    ],
)
def test_bad_options(run: Run, program: Program, tmp_path: Path, words: List[str], why: str) -> None:
    status, out, err = run("check", written(program, tmp_path / "t.csv", Line(5)), *words)
    assert (status, out) == (2, []) and why in err[-1]


def test_links_finds_what_check_finds(run: Run, program: Program, tmp_path: Path) -> None:
    """With a jump and a tolerance that are given as options, by [check] of balisekit.toml or by its track plan."""

    def shifted(rows: List[Row]) -> None:
        for row in rows:
            row.place += 20 if row.place > 14_000 else 0

    path = written(program, tmp_path / "t.csv", Line(5), shifted)
    (tmp_path / "j.csv").write_text("km,km_after\n14.0,14.020\n", "utf-8")
    (tmp_path / "p.csv").write_text("kind,km,km_to,value\njump,14.0,14.020,\nspeed,10,,80\n", "utf-8")
    file = tmp_path / "balisekit.toml"
    jumps, metres = ["--jumps", tmp_path / "j.csv"], ["--tolerance", "20"]
    stated: Sequence[Tuple[str, Sequence[object]]] = [
        ("", []),
        ("", jumps),
        ("", metres),
        ("jumps = 'j.csv'", []),
        ("plan = 'p.csv'", []),
        ("tolerance = 20", []),
        ("jumps = 'j.csv'", ["--tolerance", "0"]),
    ]
    for text, words in stated:
        file.write_text(f"[check]\nline_speed = 200\n{text}\n", "utf-8")
        status, out, _ = run("links", path, *words)
        assert status == int(not text and not words), (text, words, out)
        assert run("check", path, "--only", "L", *words)[0] == status
    file.write_text("[check]\ntolerance = 'x'\n", "utf-8")
    assert run("links", path)[2] == [f"balisekit: {file}: [check] tolerance is a text: write tolerance = 2.5"]
    file.unlink()
    unused = ["balisekit: --jumps is not used with --only F"]
    assert run("check", path, "--only", "F", *jumps)[2] == unused


JUMPS = [
    ("km,km_after,track\n12.0,x,\n", "row 2, column km_after: x is no kilometre"),
    ("km,km_after\n12,12\n", "row 2: km and km_after are the same: that is no jump"),
    ("km,km_after\n12,\n", "row 2, column km_after: there is no kilometre"),
    ("a,b\n1,2\n", "no row has the headings km and km_after"),
]


@pytest.mark.parametrize("text, why", JUMPS)
def test_bad_jumps(run: Run, program: Program, tmp_path: Path, text: str, why: str) -> None:
    """The path is relative to the folder of balisekit.toml."""
    path = written(program, tmp_path / "t.csv", Line(5))
    (tmp_path / "j.csv").write_text(text, "utf-8")
    (tmp_path / "balisekit.toml").write_text("[check]\njumps = 'j.csv'\n", "utf-8")
    status, out, err = run("check", path)
    assert (status, out) == (2, []) and err[0].startswith(f"balisekit: {tmp_path / 'j.csv'}: {why}"), err
    assert run("check", path, "--jumps", tmp_path / "none.csv")[0] == 2


def test_places_do_not_jump() -> None:
    """A gap of 200 m at km 12, and 100 m that are there twice at km 20."""
    jumps = [
        Jump(Decimal("12.000"), Decimal("12.200")),
        Jump(Decimal("20.1"), Decimal("20.0")),
        Jump(Decimal(1), Decimal(2), "2"),
    ]
    chainage = Chainage.of(jumps, "")
    kilometres = ("11.9", "12.0", "12.1", "12.2", "13", "20.05", "20.2")
    places = [chainage.place(Decimal(km)) for km in kilometres]
    assert places == [119_000, 120_000, None, 120_000, 128_000, None, 201_000]
    assert [chainage.words(place) for place in (119_000, 120_000, 120_001, 128_000, 201_000)] == [
        "11.900",
        "12.000",
        "12.2001",
        "13.000",
        "20.200",
    ]
    assert Chainage().place(None) is None
    assert Chainage.of([*jumps, *jumps], "") == chainage, "--jumps and the plan may state the same jump"

"""Remarks `look: ..` on names that look alike, and on a column km in metres."""
from __future__ import annotations

from pathlib import Path
from typing import Callable, List, Sequence

import pytest
from conftest import Run
from telegrams import ALONE, OTHER

pytestmark = pytest.mark.uncovered
Write = Callable[..., Path]


def looks(out: Sequence[str]) -> List[str]:
    """The remarks of an answer."""
    return [line for line in out if line.startswith("look: ")]


@pytest.mark.parametrize(
    "one, other, differing",
    [
        ("Signal A", "Signal\u200b A", "U+200B ZERO WIDTH SPACE"),
        ("Signal A", "Signal A\u061c", "U+061C ARABIC LETTER MARK"),
        ("Signal A", "Signal A\u3164", "U+3164 HANGUL FILLER"),
        ("Signal A", "Signal A\U000e0041", "U+E0041 TAG LATIN CAPITAL LETTER A"),
        ("Signal A", "Signal \u0410", "U+0410 CYRILLIC CAPITAL LETTER A"),
        ("Sign\u0430l A", "Signal A", "U+0430 CYRILLIC SMALL LETTER A"),
        ("na\u00efve", "nai\u0308ve", "U+00EF LATIN SMALL LETTER I WITH DIAERESIS, U+0308 COMBINING DIAERESIS"),
        ("A-1", "A\u20131", "U+2013 EN DASH"),
        ("Signal A", "Signal\u00ad A", "U+00AD SOFT HYPHEN"),
        ("Signal A", "Signal\x1a A", "U+001A"),
        ("Signal A", "Sig\x07nal\x1a A", "U+0007, U+001A"),
        ("Signal\u200b A", "Signal\u200b\u200b A", "U+200B ZERO WIDTH SPACE"),
        ("Sig\u200bnal A", "Signal\u200b A", "the order of their characters"),
    ],
)
def test_names_that_look_alike(run: Run, table: Write, one: str, other: str, differing: str) -> None:
    status, out, _ = run("check", table("group,telegram", f"{one},{ALONE}", f"{other},{OTHER}"))
    (line,) = looks(out)
    assert status == 0 and line.startswith("look: groups ") and line.endswith(f" look alike, and differ by {differing}")


@pytest.mark.parametrize("column, what", [("aspect", "aspects"), ("track", "tracks")])
def test_aspects_and_tracks_that_look_alike(run: Run, table: Write, column: str, what: str) -> None:
    lines = [f"A,red,{ALONE}", f"B,r\u0435d,{OTHER}"]
    out = run("check", table(f"group,{column},telegram", *lines))[1]
    assert [line for line in looks(out) if "look alike" in line] == [
        f'look: {what} "red" and "r\u0435d" look alike, and differ by U+0435 CYRILLIC SMALL LETTER IE'
    ]


@pytest.mark.parametrize("one, other", [("Gleis 1", "gleis 1"), ("Gleis 1", "Gleis\u00a01"), ("A 1", "A  1")])
def test_tracks_that_differ_in_case_or_blanks(run: Run, table: Write, one: str, other: str) -> None:
    """Groups have a note. Rules over the line would compare nothing between two tracks that are meant to be one."""
    out = run("check", table("group,track,telegram", f"A,{one},{ALONE}", f"B,{other},{OTHER}"))[1]
    assert looks(out) == [f'look: tracks "{one}" and "{other}" differ only in case or blanks']
    out = run("check", table("group,telegram", f"{one},{ALONE}", f"{other},{OTHER}"))[1]
    assert looks(out) == [] and f'note: groups "{one}" and "{other}" differ only in case or blanks' in out


@pytest.mark.parametrize(
    "one, other, words",
    [
        ("Track 1", "Track-1", "punctuation or blanks"),
        ("Track 1", "track_1", "punctuation or blanks"),
        ("Track 1", "Track1", "punctuation or blanks"),
        ("Up.Main", "Up/Main", "punctuation or blanks"),
        ("Track 01", "Track-1", "punctuation, blanks or how a number is written"),
        ("1-2", "12", ""),
        ("1.2", "1-2", ""),
        ("Up+", "Up-", ""),
        ("-", "?", ""),
        ("1", "-1", ""),
        ("Track A", "Track-B", ""),
    ],
)
def test_tracks_that_differ_in_punctuation(run: Run, table: Write, one: str, other: str, words: str) -> None:
    """Between two digits, and at an end of the name, a sign may be what makes two tracks of it."""
    out = run("check", table("group;track;telegram", f"A;{one};{ALONE}", f"B;{other};{OTHER}"))[1]
    assert looks(out) == ([f'look: tracks "{one}" and "{other}" differ only in {words}'] if words else [])


@pytest.mark.parametrize(
    "one, other, is_named",
    [
        ("1", "01", 1),
        ("1", "1.0", 1),
        ("01", "1,00", 1),
        ("Gleis 1", "gleis 01", 1),
        ("1", "10", 0),
        ("1.2", "1.20", 0),
    ],
)
def test_tracks_whose_numbers_are_written_otherwise(
    run: Run, table: Write, one: str, other: str, is_named: bool
) -> None:
    """A spreadsheet drops the first zeros of a number, and adds decimals. Parts of a name such as 1.2 are no number."""
    out = run("check", table("group;track;telegram", f"A;{one};{ALONE}", f"B;{other};{OTHER}"))[1]
    assert looks(out) == [f'look: tracks "{one}" and "{other}" differ only in how a number is written'] * is_named


@pytest.mark.parametrize(
    "one, other", [("Signal A", "SIGNAL A"), ("Zug", "Z\u00fcg"), ("A1", "AI"), ("\u0410", "\u0411")]
)
def test_names_that_differ_to_the_eye(run: Run, table: Write, one: str, other: str) -> None:
    """Those that differ in case have a note."""
    assert looks(run("check", table("group,telegram", f"{one},{ALONE}", f"{other},{OTHER}"))[1]) == []


@pytest.mark.parametrize(
    "kms, remark",
    [
        (["1850", "2850", "3850"], "1850 to 3850"),
        (["100", "150", "200"], "100 to 200"),
        (["1850", "1850.5", "3850"], ""),
        (["10", "12", "13"], ""),
        (["10", "112"], ""),
        (["", ""], ""),
    ],
)
def test_kilometres_that_look_like_metres(run: Run, table: Write, kms: Sequence[str], remark: str) -> None:
    """One balise a group; `check` says no for the identity, which is the same."""
    rows = [f"G{number},{km},{ALONE}" for number, km in enumerate(kms)]
    out = run("check", table("group,km,telegram", *rows))[1]
    wanted = [f"look: the column km has whole numbers only, {remark}: are they metres?"] if remark else []
    assert looks(out) == wanted


@pytest.mark.parametrize("km, is_refused", [("9999", False), ("10000", True)])
def test_metres_with_five_digits_are_refused(run: Run, table: Write, km: str, is_refused: bool) -> None:
    """They are no kilometres, so nobody has to ask whether they are metres."""
    status, _, errors = run("check", table("group,km,telegram", f"G,{km},{ALONE}"))
    assert (status == 2) == is_refused and bool(errors) == is_refused
    assert f"{km} is no kilometre" in "".join(errors) or not is_refused


def test_balises_of_a_group_in_metres(run: Run, table: Write) -> None:
    out = run("check", table("group,km,telegram", f"G,1850,{ALONE}", f"G,1853,{OTHER}"))[1]
    assert looks(out)[-1] == "look: the column km has whole numbers only, 1850 to 1853: are they metres?"


@pytest.mark.parametrize(
    "odd, others, said",
    [
        (
            ["gr\u00fcn"],
            7,
            ['look: S0 has an aspect "gr\u00fcn", and 7 groups with the same other aspects have "green": '],
        ),
        (["Green"] * 3, 7, ['look: S0, S1, S2 have an aspect "Green", and 7 groups with the same other aspects have ']),
        (["grun", "Green"], 5, ['look: S0 has an aspect "grun", and 5 ', 'look: S1 has an aspect "Green", and 5 ']),
        (["Green"] * 4, 9, []),
        (["Green"], 3, []),
        (["Green"] * 3, 6, []),
        ([], 8, []),
    ],
)
def test_spellings_of_aspects(run: Run, table: Write, odd: List[str], others: int, said: List[str]) -> None:
    """A name that few groups have in the place of that of most."""
    names = [*odd, *["green"] * others]
    lines = [f"S{place},{aspect},{ALONE}" for place, name in enumerate(names) for aspect in ("red", "yellow", name)]
    found = looks(run("check", table("group,aspect,telegram", *lines))[1])
    assert len(found) == len(said) and all(line.startswith(start) for line, start in zip(found, said))


def test_groups_of_many_aspects(run: Run, table: Write) -> None:
    """They take no time. No signal has so many."""
    lines = [f"S{place},{aspect},{ALONE}" for place in range(2) for aspect in range(3000)]
    assert looks(run("check", table("group,aspect,telegram", *lines))[1]) == []

"""What is made once for several groups, with holes for kilometres, is what would be made for each of them."""
from __future__ import annotations

import json
import re
from decimal import Decimal
from pathlib import Path
from typing import Any, Callable, Dict, Iterator, List

import picture_lines
import pytest
from cases_of_program import EXAMPLES, cases

from balisekit.cli import main as cli
from balisekit.drawing.letters import advance
from balisekit.engine.program import Program, Record
from balisekit.etcs.geometry import NOMINAL, REVERSE, Kilometres
from balisekit.etcs import holes
from balisekit.etcs.holes import FIRST, MOST, Holes, Kept, Pattern, own_hole

pytestmark = pytest.mark.uncovered
SHIFTS = ("0", "0.0005", "7.25", "7.2505", "87.4", "987.65", "-12.55", "0.00005")
"""By how much the kilometres of further groups are greater: their texts have other lengths, or a sign."""
PLACE = Kilometres(Decimal("9.5"), -1)


@pytest.fixture(name="pages")
def pages_of(program: Program, tmp_path: Path, monkeypatch: pytest.MonkeyPatch) -> Callable[[str], Iterator[str]]:
    """The report on a repeated line: as it is written, and with everything made anew for each group."""
    pytest.importorskip("jinja2")
    monkeypatch.setenv("SOURCE_DATE_EPOCH", "1700000000")

    def written(name: str) -> Iterator[str]:
        rows: List[Any] = [
            (f"{group} {place}", balise, f"{Decimal(str(km)) + Decimal(shift)}", *rest, _renumbered(form, place, at))
            for place, shift in enumerate(SHIFTS)
            for at, (group, balise, km, *rest, form) in enumerate(picture_lines.LINES[name]())
        ]
        table, page = tmp_path / "table.csv", tmp_path / "page.html"
        table.write_text(picture_lines.table(program, rows), "utf-8")
        for _ in range(2):
            words = ["report", str(table), "--only", "F", "--force", "--html", str(page), "--program", program.path]
            assert cli.main(words) in (0, 1)
            yield page.read_text("utf-8")
            monkeypatch.setattr(Kept, "of", lambda self, key, held, where, make: (make(where), ()))

    return written


def _renumbered(form: Any, place: int, at: int) -> Any:
    """With other identities, of other lengths. Some telegrams have one that no other balise of their group has."""
    text = re.sub('(?<="nid_bg": )[0-9]+', lambda found: str(int(found[0]) + 97 * place), json.dumps(form))
    odd: Dict[int, Any] = {9: {"nid_bg": 16_383}, 12: {"nid_bg": 2000 * place + 1}, 14: {"nid_c": 5 + 10 * place}}
    return {**json.loads(text), "nid_c": 1 + 2 * place, **odd.get(at, {})}


@pytest.mark.parametrize("name", ["both directions", "falling", "level borders", "restrictions", "close"])
def test_a_page_is_the_same(name: str, pages: Callable[[str], Iterator[str]]) -> None:
    """For groups with the same content at kilometres of several lengths, below 0 and of parts of a decimetre."""
    as_it_is, for_each = pages(name)
    assert as_it_is == for_each and as_it_is.count("<svg") > len(SHIFTS)
    assert not any(FIRST <= ord(letter) for letter in as_it_is)


def _words(place: Kilometres) -> Pattern:
    return Pattern(f"to {place.words(10_000, NOMINAL)}, {place.words(0, REVERSE)}; {place.words(10_000, NOMINAL)}")


def test_it_is_made_once_for_each_length() -> None:
    """Of one key, from the second time on. Another key, or kilometres that go the other way, are made by themselves."""
    kept: Kept[Pattern] = Kept(8)
    made = []

    def make(place: Kilometres) -> Pattern:
        made.append(place)
        return _words(place)

    def said(key: str, km: str, rising: int = 1) -> str:
        pattern, kilometres = kept.of(key, None, Kilometres(Decimal(km), rising), make)
        return pattern.filled(kilometres)

    assert said("a", "3.5") == said("a", "3.5") == "to 4.500, 3.500; 4.500"
    assert len(made) == 2 and said("a", "7.25") == "to 8.250, 7.250; 8.250" and len(made) == 2
    assert said("a", "9.5") == "to 10.500, 9.500; 10.500" and len(made) == 3
    assert said("a", "9.5", -1) == "to 8.500, 9.500; 8.500" and said("b", "3.5") == "to 4.500, 3.500; 4.500"
    assert len(made) == 5
    assert (
        said("a", "0.25", -1) == "to -0.750, 0.250; -0.750" and said("a", "3.25005") == "to 4.25005, 3.25005; 4.25005"
    )
    assert [said_of_no_place(kept) for _ in range(3)] == ["to , ; "] * 3


def said_of_no_place(kept: Kept[Pattern]) -> str:
    """What is made without known kilometres."""
    pattern, kilometres = kept.of("c", None, Kilometres(), _words)
    return pattern.filled(kilometres)


def test_it_forgets(monkeypatch: pytest.MonkeyPatch) -> None:
    """It keeps a limited number of keys, and has no more holes than there are letters for them."""
    kept: Kept[Pattern] = Kept(2)
    monkeypatch.setattr(holes, "ASKED", 8)
    for key in "abcabcabcdefghijk":
        pattern, kilometres = kept.of(key, None, PLACE, _words)
        assert pattern.filled(kilometres) == "to 8.500, 9.500; 8.500" and len(vars(kept)["_known"]) <= 2
        assert len(vars(kept)["_once"]) <= 8
    several: Kept[List[str]] = Kept(2)
    for _ in range(3):
        many, none = several.of("a", None, PLACE, lambda place: [place.words(at, NOMINAL) for at in range(MOST + 1)])
        assert not none and many[1:3] == ["9.4999", "9.4998"]


def test_a_hole_is_as_wide_as_a_kilometre() -> None:
    """All digits have one width, in both fonts."""
    for is_bold in (False, True):
        assert len({advance(digit, is_bold) for digit in "0123456789"}) == 1
        for place in (0, 1, 10_000):
            hole = Holes(PLACE.group, PLACE.rising).words(place, NOMINAL)
            assert advance(f"km {hole}", is_bold) == advance(f"km {PLACE.words(place, NOMINAL)}", is_bold)


def test_own_words_of_a_group() -> None:
    """They have holes of their own, beside those of kilometres."""
    place = Holes(PLACE.group, PLACE.rising)
    text = f"{own_hole(1)} at {place.words(0, NOMINAL)}, {place.words(5000, REVERSE)}; {own_hole(0)}"
    assert Pattern(text, True).filled(["1.000", "2.000"], ["first", "second"]) == "second at 1.000, 2.000; first"
    assert Pattern(Pattern(text).filled(["1.000", "2.000"]), True).filled([], ["a", "b"]) == "b at 1.000, 2.000; a"


def test_equal_packets_are_one_object() -> None:
    """The shared object of each record, of a telegram or a message, is equal to its own object."""
    lines = [case.answer for case in (*cases(), *EXAMPLES[False], *EXAMPLES[True])]
    records = [Record(line) for line in lines if line.startswith("{")]
    assert len(records) > 500 and any("nid_message" in record.form for record in records)
    assert all(record.shared == record.form == json.loads(record.line) for record in records)
    for record in records:
        assert all(one is other for one, other in zip(record.shared["packets"], record.shared["packets"]))
        assert all(one is not other for one, other in zip(record.form["packets"], record.shared["packets"]))

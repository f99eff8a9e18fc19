"""Groups, tracks and aspects by name: `show --group`, and known names that resemble an unknown one."""
from __future__ import annotations

import re
from pathlib import Path
from typing import Callable, List

import pytest
from cases_of_program import TOP
from conftest import Run
from telegrams import ALONE, MESSAGE, OTHER, SPARE

from balisekit.cli.selection import groups_named, meant
from balisekit.tables import reader

Write = Callable[..., Path]
LINE = TOP / "examples" / "table" / "line.csv"


def _blocks(out: List[str]) -> List[str]:
    """The blocks of telegrams, without the legend."""
    return [block for block in "\n".join(out).split("\n\n") if block.startswith("row ")]


def test_the_groups_that_are_named_are_shown_as_without_a_name(run: Run) -> None:
    everything = _blocks(run("show", LINE)[1])
    status, out, _ = run("show", LINE, "--group", "Signal E", "--group", "Signal A")
    chosen = [block for block in everything if re.match(r"row \d+  Signal [AE]  ", block)]
    assert status == 0 and _blocks(out) == chosen and len(chosen) == 8


def test_a_refused_telegram_of_another_group_does_not_matter(run: Run, table: Write) -> None:
    path = table("group,telegram", f"A,{ALONE}", f"B,{SPARE}")
    assert run("show", path)[0] == 2
    assert run("show", path, "--group", "A")[0] == 0
    status, out, err = run("show", path, "--group", "B")
    assert (status, out[-1]) == (2, "INCOMPLETE: 1 of 1 telegrams refused") and err == [f"balisekit: {out[-1]}"]


def test_a_name_that_is_none(run: Run, tmp_path: Path) -> None:
    """`show`, `draw` and `report` name what resembles it."""
    why = f'balisekit: there is no group "signal e" in {LINE} (did you mean "Signal E", '
    for words in (["show", LINE, "--group", "signal e"], ["draw", LINE, "--group", "signal e"]):
        status, out, err = run(*words)
        assert (status, out, len(err)) == (2, [], 1), (out, err)
        assert err[0].startswith(why)
    why = f'balisekit: there is no aspect "gren" in {LINE} (did you mean "green"?)'
    for words in (["report", LINE, "--html", tmp_path / "x.html"], ["draw", LINE, "--track"]):
        assert run(*words, "--aspect", "gren") == (2, [], [why])
    assert not list(tmp_path.iterdir())


def test_a_track_that_is_none(run: Run, table: Write) -> None:
    path = table("group,km,track,telegram", f"A,1,Upper line,{ALONE}", f"B,2,Lower line,{OTHER}")
    status, _, err = run("draw", path, "--track", "upper")
    assert status == 2 and err[0].startswith('balisekit: there is no track "upper" (did you mean "Upper line"?) with ')


@pytest.mark.parametrize(
    "words, why",
    [
        (["--group", ""], "argument --group: the name is empty"),
        (["--group", "Signal E", "--messages", "m.txt"], "--messages is not used with --group"),
    ],
)
def test_bad_words(words: List[str], why: str, run: Run, tmp_path: Path, monkeypatch: pytest.MonkeyPatch) -> None:
    monkeypatch.chdir(tmp_path)
    (tmp_path / "m.txt").write_text(f"{MESSAGE}\n", "utf-8")
    status, out, err = run("show", LINE, *words)
    assert (status, out) == (2, []) and err[-1].endswith(why)
    assert run("show", *words)[0] == 2


def test_names_that_resemble_one() -> None:
    assert meant("x", []) == meant("", ["a"]) == meant("Signal A", ["7"]) == ""
    assert meant("SIGNAL A", ["Signal A", "x"]) == ' (did you mean "Signal A"?)'
    assert meant("abcd", ["abce", "ABCD", "abc\u202e"]) == ' (did you mean "ABCD", "abc\\u202e" or "abce"?)'
    assert meant("a" * 10_000, ["a" * 9_999]).startswith(' (did you mean "aaa')


def test_the_table_of_some_groups_has_their_rows() -> None:
    table = reader.read(str(LINE))
    chosen = groups_named(table, ["Signal B", "Signal A", "Signal A"])
    assert [group.name for group in chosen.groups] == ["Signal A", "Signal B"]
    assert list(chosen.rows) == [row for row in table.rows if row.group in ("Signal A", "Signal B")]

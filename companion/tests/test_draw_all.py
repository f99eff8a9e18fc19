"""`draw --all`: every picture of a table, in a folder that has all of them or none."""
from __future__ import annotations

import os
import re
import signal
import subprocess
import sys
import xml.etree.ElementTree as ElementTree
from pathlib import Path
from typing import Callable, Dict, Iterator, List, Set, Tuple

import link_tables
import pytest
from cases_of_program import TOP
from conftest import Run
from telegrams import ALONE, MESSAGE, OTHER, SPARE

from balisekit.cli import draw_all
from balisekit.drawing.sheet import Picture
from balisekit.engine.program import Program
from balisekit.errors import NoAnswer, TableError
from balisekit.io.output_folder import OutputFolder
from balisekit.io.outputs import check_outputs, placing
from balisekit.present.pictures import FileNames, picture_page

pytest.importorskip("jinja2")
Write = Callable[..., Path]
LINE = TOP / "examples" / "table" / "line.csv"


def _contents(folder: Path) -> Dict[str, bytes]:
    return {path.name: path.read_bytes() for path in folder.iterdir() if path.is_file()}


def _named(out: List[str], folder: Path) -> Set[str]:
    """The files that the index names, each once."""
    names = [line.split(": ")[1] for line in out if line.startswith("written: ")]
    assert len(names) == len(set(names)) and all(os.path.dirname(name) == str(folder) for name in names)
    return {os.path.basename(name) for name in names}


@pytest.mark.parametrize("exists", [False, True])
def test_every_picture_is_there_and_in_the_index(exists: bool, run: Run, tmp_path: Path) -> None:
    """A file for each aspect, as `--group` draws it, and for the track. What was refused is named, with status 2."""
    folder = tmp_path / "pictures"
    if exists:
        folder.mkdir()
    status, out, err = run("draw", LINE, "--all", folder)
    files = _contents(folder)
    assert status == 2 and set(files) == _named(out, folder) and len(files) == 24
    assert len(err) == 1 and err[0].endswith(": program: spare at 178 end 180")
    assert "left out: rows 24 to 27  Signal F  km 19.800: refused: row 26" in out
    run("draw", LINE, "--group", "Signal E", "--aspect", "green", "--svg", tmp_path / "e.svg")
    run("draw", LINE, "--track", "--svg", tmp_path / "track.svg")
    assert files["group-Signal-E-green.svg"] == (tmp_path / "e.svg").read_bytes()
    assert files["track.svg"] == (tmp_path / "track.svg").read_bytes()
    assert sorted(path.name for path in tmp_path.iterdir()) == ["e.svg", "pictures", "track.svg"]


def test_aspects_with_one_picture_share_it(run: Run, table: Write, program: Program, tmp_path: Path) -> None:
    """They differ only in M_MCOUNT, or in packets that are not drawn. The heading names all of them."""
    authority = link_tables.authority()
    forms = [
        {**link_tables.telegram(1, 0, 0, 1, *(authority if place == 2 else ()), size=830), "m_mcount": place + 1}
        for place in range(4)
    ]
    lines = [f"A,{place},{text.line}" for place, text in enumerate(program.encode(forms))]
    status, out, _ = run("draw", table("group,aspect,telegram", *lines), "--all", tmp_path / "out")
    assert status == 0 and out == [
        f'written: {tmp_path}/out/group-A-0.svg: rows 2 to 5  A  aspects "0", "1", "3"',
        f'written: {tmp_path}/out/group-A-2.svg: row 4  A  aspect "2"',
        "on no track, no kilometre: A",
    ]
    heads = [
        [one.text for head in ElementTree.fromstring(text).findall(".//*[@class='head']") for one in head]
        for _, text in sorted(_contents(tmp_path / "out").items())
    ]
    assert heads == [['aspects "0", "1", "3"'], ['aspect "2"']]


def test_names_of_files_are_safe_and_unique(run: Run, table: Write, tmp_path: Path) -> None:
    """No name of the table leads out of the folder, and none replaces another."""
    groups = [
        "../x",
        "/etc/passwd",
        "A",
        "a",
        "A-2",
        "..",
        "\u00e4",
        "a\u0308",
        "CON",
        "-",
        "x" * 300,
        "x" * 299,
        "\u2603",
    ]
    lines = [f"{name},{ALONE}" for name in groups]
    status, out, _ = run("draw", table("group,telegram", *lines), "--all", tmp_path / "out")
    files = set(_contents(tmp_path / "out"))
    assert status == 0 and files == _named(out, tmp_path / "out") and len(files) == len(groups)
    assert all(re.fullmatch(r"group[\w-]*\.svg", name) and len(name.encode()) < 250 for name in files)
    assert len({name.casefold() for name in files}) == len(files)
    assert sorted(path.name for path in tmp_path.iterdir()) == ["out", "table.csv"]


@pytest.mark.uncovered
def test_many_names_that_are_alike() -> None:
    names = FileNames()
    made = [names.svg("group", "?" * (1 + place % 7)) for place in range(20_000)]
    assert made[:2] == ["group.svg", "group-2.svg"] and len(set(made)) == 20_000


def test_messages_and_tracks(run: Run, table: Write, tmp_path: Path) -> None:
    """A message is drawn as `--message` draws it. One without a picture is named, and so is a group on no track."""
    path = table("group,km,track,telegram", f"A,1,one,{ALONE}", f"B,2,two,{OTHER}")
    report = (TOP / "examples" / "radio-position-report.txt").read_text("utf-8").strip()
    messages = table(f"{MESSAGE};<one>", report, name="m.txt")
    status, out, _ = run("draw", path, "--messages", messages, "--all", tmp_path / "out")
    files = _contents(tmp_path / "out")
    assert status == 0 and set(files) == _named(out, tmp_path / "out")
    assert set(files) == {"group-A.svg", "group-B.svg", "track-one.svg", "track-two.svg", "message-1-one.svg"}
    assert out[-1] == "left out: message of line 2: it has no authority, gradient or speed profile"
    words = ["--messages", messages, "--message", "1", "--svg", tmp_path / "m.svg"]
    assert run("draw", path, *words)[:2] == (0, [f"written: {tmp_path / 'm.svg'}"])
    assert files["message-1-one.svg"] == (tmp_path / "m.svg").read_bytes()


def test_groups_on_no_track(run: Run, table: Write, tmp_path: Path) -> None:
    """They are named once, as `draw --track` names them, however many tracks there are."""
    rows = [f"G{place},{place if place < 2 else ''},{place},{ALONE}" for place in range(9)]
    path = table("group,km,track,telegram", *rows)
    _, out, _ = run("draw", path, "--all", tmp_path / "out")
    said = [line for line in out if "no kilometre" in line]
    assert said == ["on no track, no kilometre: G2, G3, G4, G5, G6 and 2 more"]
    _, out, _ = run("draw", path, "--track", "0", "--svg", tmp_path / "track.svg")
    assert [line.partition(": ")[2] for line in out if "no kilometre" in line] == [said[0].partition(": ")[2]]


def test_nothing_to_draw(run: Run, table: Write, tmp_path: Path) -> None:
    status, out, err = run("draw", table("group,telegram", f"A,{SPARE}"), "--all", tmp_path / "out")
    said = ["left out: row 2  A: refused: row 2", "on no track, no kilometre: A"]
    assert (status, out, len(err)) == (2, said, 1)
    assert not (tmp_path / "out").exists()


@pytest.mark.parametrize(
    "name, status, why",
    [
        ("full", 2, "full: the folder is not empty: name a folder that is new or empty"),
        ("t.csv", 2, "t.csv: it is an input: an output never replaces one"),
        ("hard.csv", 2, "hard.csv: it is an input: an output never replaces one"),
        ("other", 2, "other: it is a file: name a folder that is new or empty"),
        ("-", 2, "several files cannot go to standard output: name a folder that is new or empty"),
        ("none/new", 3, "none/new: there is no folder "),
        ("other/new", 3, "other/new: there is no folder "),
        ("loop", 3, "loop: no file can be written there: "),
        ("", 2, "argument --all: the name is empty"),
    ],
)
def test_what_is_no_new_or_empty_folder(
    name: str, status: int, why: str, run: Run, tmp_path: Path, monkeypatch: pytest.MonkeyPatch
) -> None:
    """Nothing is written, before anything is read."""
    monkeypatch.chdir(tmp_path)
    Path("t.csv").write_text(f"group,telegram\nA,{ALONE}\n", "utf-8")
    os.link("t.csv", "hard.csv")
    Path("other").write_text("kept", "utf-8")
    Path("full").mkdir()
    Path("full", "kept").write_text("kept", "utf-8")
    Path("loop").symlink_to("loop")
    before = sorted(os.listdir()), _contents(Path("full"))
    answer, out, err = run("draw", "t.csv", "--all", name)
    assert (answer, out) == (status, []) and why in err[-1]
    assert (sorted(os.listdir()), _contents(Path("full"))) == before


def test_words_that_do_not_belong_together(run: Run, tmp_path: Path) -> None:
    cases: List[Tuple[List[str], str]] = [
        (["--force"], "--force is not used with --all"),
        (["--svg", str(tmp_path / "x.svg")], "--svg is not used with --all"),
        (["--aspect", "gren"], f'there is no aspect "gren" in {LINE} (did you mean "green"?)'),
    ]
    for words, why in cases:
        assert run("draw", LINE, "--all", tmp_path / "out", *words) == (2, [], [f"balisekit: {why}"])
    assert run("draw", LINE, "--all", tmp_path / "out", "--track")[0] == 2 and not list(tmp_path.iterdir())


@pytest.mark.parametrize("exists", [False, True])
def test_all_files_or_none(exists: bool, run: Run, tmp_path: Path, monkeypatch: pytest.MonkeyPatch) -> None:
    """A file that cannot be written in the middle, and one that cannot be placed, leave no other file."""
    folder = tmp_path / "out"
    if exists:
        folder.mkdir()
    before = sorted(path.name for path in tmp_path.rglob("*"))
    for function, calls in (("mkdir", 1), ("rename" if not exists else "replace", 1 if not exists else 3)):
        original, count = getattr(os, function), iter(range(1, 100))

        def failing(*words: object) -> object:
            if next(count) == calls:
                raise OSError(28, "No space left on device")
            return original(*words)

        with monkeypatch.context() as patched:
            patched.setattr(os, function, failing)
            status, _, err = run("draw", LINE, "--all", folder)
        assert status == 3 and err[-1].endswith("No space left on device")
        assert sorted(path.name for path in tmp_path.rglob("*")) == before


def test_a_stream_that_is_full_leaves_no_folder(tmp_path: Path) -> None:
    """The index is the answer: without it no picture appears."""
    known = {**os.environ, "PYTHONPATH": str(TOP / "companion" / "src")}
    words = [sys.executable, "-m", "balisekit", "draw", str(LINE), "--all", str(tmp_path / "out")]
    with open("/dev/full", "wb") as full:
        done = subprocess.run(words, env=known, stdout=full, stderr=subprocess.PIPE, check=False)
    assert done.returncode == 3 and b"No space left on device" in done.stderr and not list(tmp_path.iterdir())


def test_a_signal_leaves_nothing(run: Run, tmp_path: Path, monkeypatch: pytest.MonkeyPatch) -> None:
    page = picture_page

    def ended(picture: Picture) -> Iterator[str]:
        os.kill(os.getpid(), signal.SIGTERM)
        return page(picture)

    monkeypatch.setattr(draw_all, "picture_page", ended)
    assert run("draw", LINE, "--all", tmp_path / "out")[0] == 143 and not list(tmp_path.iterdir())


@pytest.mark.parametrize("exists", [False, True])
def test_of_two_commands_at_once_one_writes(exists: bool, tmp_path: Path) -> None:
    """The second one keeps what the first one has written."""
    folder = tmp_path / "out"
    if exists:
        folder.mkdir()
    first, second = OutputFolder(str(folder)), OutputFolder(str(folder))
    check_outputs([first], False)
    second.check(False)
    with pytest.raises(TableError, match="out: another command has just written it"):
        with placing([second], False):
            second.write("name.svg", ["second"])
            (folder if exists else tmp_path).joinpath("x").mkdir()
            if not exists:
                first.write("name.svg", ["first"])
                first.place(False)
    assert _contents(folder) == ({} if exists else {"name.svg": b"first"})
    assert not list(tmp_path.rglob(".balisekit-*"))


def test_a_name_with_a_nul() -> None:
    with pytest.raises((ValueError, NoAnswer)):
        OutputFolder("a\0b").check(False)

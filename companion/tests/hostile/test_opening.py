"""How answers begin: which program answered, which settings differ from their defaults, and by which day it is judged.

A forgotten file of settings, a program of the environment or a date of the environment made a table with a fault sound.
"""
from __future__ import annotations

import json
import os
import re
from hashlib import sha256
from pathlib import Path
from typing import Any, List, Sequence, Tuple
from xml.etree import ElementTree

import pytest
from cases_of_program import TOP
from conftest import Run, set_day
from fakes import fake

from balisekit.cli import main as cli
from balisekit.engine import find_program
from balisekit.errors import NoAnswer
from balisekit.io import clock, inputs
from balisekit.rules.accepted import COLUMNS

FAULT = TOP / "examples" / "links" / "distance-differs.csv"
TOML = '[check]\ntolerance = 20\njumps = "j.csv"\nrelease_speed = 40\n[columns]\nname = "Bezeichnung"\n'
TOML += '[report]\nproject = "P"\n'
JUMPS = "km,km_after\n90.0,91.0\n"
COMMANDS = {
    "check T": "tolerance jumps columns",
    "report T --html -": "tolerance jumps columns report",
    "links T": "tolerance jumps columns",
    "draw T --track --svg -": "tolerance jumps columns",
    "draw T --group N --svg -": "columns",
    "plan T": "jumps columns",
    "table T --csv -": "columns",
    "show T": "columns",
    "diff T T": "columns",
}
"""What each command uses of the file."""


BUILT_HERE = find_program.built_here
"""As it is before the tests replace it."""


def sum_of(path: Path) -> str:
    """The SHA-256 of a file."""
    return sha256(path.read_bytes()).hexdigest()


@pytest.fixture
def line(tmp_path: Path, monkeypatch: pytest.MonkeyPatch) -> Path:
    """A table with a wrong link, in the folder in which the command runs, beside a file of settings."""
    (tmp_path / "balisekit.toml").write_text(TOML, "utf-8")
    (tmp_path / "j.csv").write_text(JUMPS, "utf-8")
    (tmp_path / "t.csv").write_text(FAULT.read_text("utf-8").replace(",name,", ",Bezeichnung,", 1), "utf-8")
    monkeypatch.chdir(tmp_path)
    return tmp_path / "t.csv"


def said(capsys: pytest.CaptureFixture[str], *words: object) -> Tuple[int, List[str]]:
    """The status, and all lines of both outputs."""
    try:
        status = cli.main([str(word) for word in words])
    except SystemExit as ended:
        status = int(ended.code or 0)
    out, err = capsys.readouterr()
    return status, [*out.splitlines(), *err.splitlines()]


@pytest.mark.parametrize("command, used", COMMANDS.items())
def test_each_command_names_its_settings(
    command: str, used: str, line: Path, capsys: pytest.CaptureFixture[str]
) -> None:
    """A file that was found is named with its checksum, and so are the values that the command uses."""
    if command.startswith(("draw", "report")):
        pytest.importorskip("jinja2")
    group = line.read_text("utf-8").splitlines()[1].split(",")[0]
    lines = said(capsys, *[{"N": group, "T": "t.csv"}.get(word, word) for word in command.split()])[1]
    values = {
        "tolerance": "check.tolerance = 20",
        "jumps": f"check.jumps = j.csv (SHA-256 {sum_of(Path('j.csv'))})",
        "columns": "columns.name = Bezeichnung",
        "report": "report.project = P",
    }
    wanted = ", ".join(values[name] for name in used.split())
    toml = f"balisekit.toml (SHA-256 {sum_of(Path('balisekit.toml'))})"
    group_words = f"--group {group}" if re.fullmatch("[A-Za-z0-9]+", group) else f'--group "{group}"'
    given = f"{group_words}; " if "--group" in command else ""
    assert f"settings: {given}{toml}: {wanted}" in lines
    assert sum(each.startswith("balisecheck 0.") or "not a released program" in each for each in lines) == 1


def test_a_forgotten_tolerance_is_seen(line: Path, capsys: pytest.CaptureFixture[str]) -> None:
    """In the order: table, program, settings, entries; the verdict is last. Without the file the fault is found."""
    text = line.read_text("utf-8")
    status, lines = said(capsys, "check", "t.csv")
    assert lines[0].startswith("t.csv: ") and lines[1].startswith("balisecheck") and lines[2].startswith("settings: b")
    assert status in (0, 1) and text == line.read_text("utf-8")
    Path("balisekit.toml").unlink()
    status, lines = said(capsys, "check", "t.csv")
    assert (status, lines[2]) == (1, "settings: all have their defaults") and "L2" in lines[-1]


def test_a_file_that_changes_nothing_is_named(line: Path, capsys: pytest.CaptureFixture[str]) -> None:
    """If an option of the command line replaces its only value, that is named as well."""
    toml = Path("balisekit.toml")
    toml.write_text("[check]\nrelease_speed = 40\n", "utf-8")
    wanted = f"balisekit.toml (SHA-256 {sum_of(toml)}): all have their defaults"
    assert f"settings: {wanted}" in said(capsys, "check", "t.csv")[1]
    toml.write_text("[check]\ntolerance = 3\n", "utf-8")
    replaced = "check.tolerance = 3 (not used: --tolerance replaces it)"
    wanted = f"--only F,L, --tolerance 0; balisekit.toml (SHA-256 {sum_of(toml)}): {replaced}"
    assert f"settings: {wanted}" in said(capsys, "check", "t.csv", "--tolerance", "0", "--only", "F,L")[1]


def test_a_column_that_is_skipped_is_a_setting(line: Path, capsys: pytest.CaptureFixture[str]) -> None:
    """Without its kilometres the fault is not found, and no line says that all settings have their defaults."""
    Path("balisekit.toml").unlink()
    status, lines = said(capsys, "check", "t.csv", "--skip-column", "km", "--skip-column", "old text")
    assert (status, lines[2]) == (0, 'settings: --skip-column km, --skip-column "old text"')


def test_settings_in_outputs_for_others(line: Path, run: Run, tmp_path: Path, monkeypatch: pytest.MonkeyPatch) -> None:
    """JSON, JUnit, SARIF and the page have program and settings, with paths from the folder of the table."""
    pytest.importorskip("jinja2")
    (tmp_path / "other").mkdir()
    monkeypatch.chdir(tmp_path / "other")
    run("check", line, "--json", "a.json", "--junit", "a.xml", "--sarif", "a.sarif")
    run("report", line, "--html", "a.html")
    form = json.loads(Path("a.json").read_text("utf-8"))
    toml, jumps = sum_of(tmp_path / "balisekit.toml"), sum_of(tmp_path / "j.csv")
    values = [
        {"name": "check.tolerance", "value": "20", "sha256": None},
        {"name": "check.jumps", "value": "j.csv", "sha256": jumps},
        {"name": "columns.name", "value": "Bezeichnung", "sha256": None},
    ]
    assert form["settings"] == [{"file": "balisekit.toml", "sha256": toml, "values": values}]
    assert form["table"]["path"] == "t.csv" and form["program"]["known_by"] in ("ABOUT", "RELEASES", "sources")
    stated = f"balisekit.toml (SHA-256 {toml}): check.tolerance = 20, check.jumps = j.csv (SHA-256 {jumps})"
    junit = ElementTree.parse("a.xml").findtext(".//system-out") or ""
    assert junit.splitlines()[2].startswith(f"settings: {stated}")
    run_of_tool = json.loads(Path("a.sarif").read_text("utf-8"))["runs"][0]
    assert run_of_tool["tool"]["driver"]["properties"]["settings"] == form["settings"]
    notes = [note["message"]["text"] for note in run_of_tool["invocations"][0]["toolExecutionNotifications"]]
    assert notes[2].startswith(f"settings: {stated}") and form["program"]["sha256"] in notes[1]
    page = Path("a.html").read_text("utf-8")
    assert (
        f"<bdi>{stated}" in page and form["program"]["sha256"] in page and str(tmp_path) not in page.split("papers")[0]
    )


def test_a_program_of_the_environment(
    tmp_path: Path, capsys: pytest.CaptureFixture[str], monkeypatch: pytest.MonkeyPatch
) -> None:
    """Only --program makes balisekit ask a program that nobody knows, which says yes to everything here."""
    decodes = f"""decode) {{ printf '%s\\n' "$line"; cat; }} | {os.environ['BALISECHECK']} decode ;;"""
    path = fake(tmp_path / "other", f'case "$1" in check) echo "yes: groups 4, messages 0" ;; {decodes} esac')
    monkeypatch.setenv("BALISECHECK", str(path))
    status, err = said(capsys, "check", FAULT, "--only", "F")
    assert (status, len(err)) == (3, 1)
    assert err[0].startswith(f"balisekit: BALISECHECK names {path}, which is not a released program: neither ABOUT ")
    assert sum_of(path) in err[0] and err[0].endswith("if you want this one, name it by --program")
    status, out = said(capsys, "check", FAULT, "--only", "F", "--program", path)
    wanted = f"balisecheck, SHA-256 {sum_of(path)}: not a released program: it was named by --program"
    assert (status, out[1], out[-1]) == (0, wanted, 'program: "yes: groups 4, messages 0"')


def test_who_knows_a_program(tmp_path: Path, monkeypatch: pytest.MonkeyPatch) -> None:
    """ABOUT comes before RELEASES, and what was built from the sources of the clone after both."""
    (tmp_path / "dist" / "one").mkdir(parents=True)
    (tmp_path / "dist" / "one" / "ABOUT").write_text("version 2\nprogram bb\n", "utf-8")
    (tmp_path / "dist" / "RELEASES").write_text("# ..\n1 c s aa 2026-01-01\n2 d s bb 2026-01-02\n", "utf-8")
    monkeypatch.setattr(find_program, "TOP", str(tmp_path))
    monkeypatch.setattr(find_program, "built_here", lambda sum_: sum_ == "cc")
    known = [find_program.known(None, "p", each) for each in ("aa", "bb", "cc")]
    assert [(each.by, each.papers.get("version")) for each in known] == [
        ("RELEASES", "1"),
        ("ABOUT", "2"),
        ("sources", None),
    ]
    assert find_program.known("p", "p", "dd") == find_program.Known()
    monkeypatch.delenv("BALISECHECK", raising=False)
    with pytest.raises(NoAnswer, match="^found p, which is not a released program: "):
        find_program.known(None, "p", "dd")


def test_what_was_built_here(tmp_path: Path) -> None:
    """The environment can name what the start script of the clone would run, since that is of these sources."""
    (tmp_path / "companion").mkdir()
    (tmp_path / "companion" / "pyproject.toml").touch()
    built = tmp_path / "built"
    built.write_bytes(b"one")
    (tmp_path / "balisecheck").write_text(f"#!/bin/sh\necho {built}\n", "utf-8")
    with pytest.MonkeyPatch.context() as patch:
        patch.setattr(find_program, "TOP", str(tmp_path))
        for name, wanted in (("built", True), ("other", False)):
            patch.setenv("BALISECHECK", str(tmp_path / name))
            assert BUILT_HERE(sha256(b"one" if wanted else b"two").hexdigest()) == wanted
        patch.delenv("BALISECHECK")
        assert BUILT_HERE("")
        (tmp_path / "balisecheck").write_bytes(b"\x7fELF")
        assert not BUILT_HERE("")


@pytest.mark.parametrize("until, is_past", [("2026-05-27", True), ("2026-05-28", False)])
def test_a_date_of_the_environment_revives_no_entry(
    until: str, is_past: bool, run: Run, tmp_path: Path, monkeypatch: pytest.MonkeyPatch
) -> None:
    """Entries are judged by the clock, and the answer has the day. SOURCE_DATE_EPOCH only dates outputs."""
    file = tmp_path / "a.csv"
    run("check", FAULT, "--propose", file)
    heads, *rows = file.read_text("utf-8").splitlines()
    signed = [dict(zip(heads.split(","), row.split(","))) for row in rows]
    for row in signed:
        row.update(reason="looked at", who="J. Doe", date="2026-01-02", until=until)
    text = "\n".join([heads, *(",".join(row[name] for name in COLUMNS) for row in signed)])
    file.write_text(f"{text}\n", "utf-8")
    set_day(monkeypatch, 1780000000)
    monkeypatch.setenv("SOURCE_DATE_EPOCH", "1770000000")
    status, out, _ = run("check", FAULT, "--accepted", file, "--json", tmp_path / "a.json")
    assert status == int(is_past)
    many = f"{len(signed)} entr{'y' if len(signed) == 1 else 'ies'} of {file} (SHA-256 {sum_of(file)})"
    only = "judged on 2026-05-28 by the clock; SOURCE_DATE_EPOCH, 2026-02-02, only dates outputs"
    assert f"entries: {many}, {only}" in out
    assert json.loads((tmp_path / "a.json").read_text("utf-8"))["accepted"]["day"] == "2026-05-28"
    assert (f"{file}: row 2: expired: until 2026-05-27 is past" in out) == is_past


def test_the_clock_has_a_day(monkeypatch: pytest.MonkeyPatch) -> None:
    """That of the environment is another one."""
    monkeypatch.setenv("SOURCE_DATE_EPOCH", "0")
    assert clock.today().year > 2025 and str(clock.dated()) == "1970-01-01"
    monkeypatch.delenv("SOURCE_DATE_EPOCH")
    assert clock.dated() is None


def test_a_file_of_settings_that_changes_meanwhile(line: Path, run: Run, monkeypatch: pytest.MonkeyPatch) -> None:
    """The checksum in the answer is that of the values which were used."""
    read, count = inputs.read, iter(range(100))

    def changing(path: Any) -> inputs.Input:
        file = read(path)
        return file._replace(content=file.content + b"\n" * next(count)) if str(path).endswith(".toml") else file

    monkeypatch.setattr(inputs, "read", changing)
    answer: Tuple[int, Sequence[str], Sequence[str]] = run("check", "t.csv")
    assert answer == (2, [], ["balisekit: balisekit.toml: the file has changed while the command ran"])

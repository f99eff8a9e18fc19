"""Files of settings whose values have a wrong type, or are beyond what makes sense: refused with key and file."""
from __future__ import annotations

import json
import os
from hashlib import sha256
from pathlib import Path
from typing import Callable, List

import pytest
from cases_of_program import TOP
from conftest import Run
from telegrams import ALONE

from balisekit.cli.settings import NAMES

LINE = TOP / "examples" / "table" / "line.csv"
LINES = Path(__file__).with_name("settings.txt").read_text("utf-8").split("\n")
CASES = [line.split(" => ") for line in LINES if line and line[0] != "#"]
NO_FILE = {"link": "No such file or directory", "pipe": "it is a device or pipe, no file", "folder": "it is a folder"}
LONG = {"{5000}": "1" * 5000, "{f}": "f" * 5000, r"\n": "\n"}


def _beside(folder: Path, text: str) -> Path:
    """A copy of the example beside a file of settings."""
    for word, meaning in LONG.items():
        text = text.replace(word, meaning)
    (folder / "balisekit.toml").write_text(text, "utf-8")
    (folder / "t.csv").write_bytes(LINE.read_bytes())
    return folder / "t.csv"


@pytest.mark.parametrize("text, why", CASES, ids=[text for text, _ in CASES])
def test_a_value_that_is_refused(text: str, why: str, run: Run, tmp_path: Path) -> None:
    command = ["report", "--html", tmp_path / "r.html"] if text.startswith("[report]") else ["check"]
    status, out, err = run(*command[:1], _beside(tmp_path, text), *command[1:])
    why = why.replace("{folder}", str(tmp_path)).replace("{rules}", ", ".join(NAMES))
    assert (status, out, err) == (2, [], [f"balisekit: {tmp_path / 'balisekit.toml'}: {why}"])


UNUSED = [
    ('[columns]\nkm = "kmx"\nname = "Bezeichnung"', "", "all have their defaults"),
    ('[columns]\nvariable = "Variable"', "", "all have their defaults"),
    ('[expect]\nraw = "Raw"', "", "all have their defaults"),
    ('[report]\nproject = "P"', "", "all have their defaults"),
    ("[check]\nline_speed = 200\ntolerance = 3", "--only F", "all have their defaults"),
    ("[check]\nline_speed = 200\ntolerance = 3", "--only F,L", "check.tolerance = 3"),
    ("[check]\nline_speed = 200\ntolerance = 3", "--only E", "check.line_speed = 200, check.tolerance = 3"),
    ('[check]\nrules = "E2"', "--only F,L", "all have their defaults"),
]


@pytest.mark.parametrize("text, words, wanted", UNUSED)
def test_settings_that_are_not_used(text: str, words: str, wanted: str, run: Run, tmp_path: Path) -> None:
    """The file is named, and only what has changed the answer."""
    path = _beside(tmp_path, text)
    status, out, _ = run("check", path, *words.split())
    file = tmp_path / "balisekit.toml"
    (line,) = [line for line in out if line.startswith("settings: ")]
    assert line.endswith(f"{file} (SHA-256 {sha256(file.read_bytes()).hexdigest()}): {wanted}") and status < 3


@pytest.mark.parametrize("option", ["--tolerance=20.1", "--tolerance=99999", "--line-speed=501", "--release-speed=101"])
def test_options_have_the_same_limits(option: str, run: Run) -> None:
    status, out, err = run("check", LINE, option)
    assert (status, out) == (2, []) and f"argument {option.split('=')[0]}: {option.split('=')[1]} is no " in err[-1]


def test_a_file_that_is_too_long(run: Run, tmp_path: Path) -> None:
    path = _beside(tmp_path, "#" * 1_000_001)
    why = "it has 1,000,001 bytes, more than 1,000,000: is it a file of settings?"
    assert run("check", path) == (2, [], [f"balisekit: {tmp_path / 'balisekit.toml'}: {why}"])


@pytest.mark.parametrize("kind, why", list(NO_FILE.items()))
def test_what_is_no_file(kind: str, why: str, run: Run, tmp_path: Path) -> None:
    """It may state the line, so it is not passed over without a word."""
    path, place = _beside(tmp_path, ""), tmp_path / "balisekit.toml"
    place.unlink()
    if kind == "link":
        place.symlink_to("gone")
    elif kind == "pipe":
        os.mkfifo(place)
    else:
        place.mkdir()
    assert run("check", path) == (2, [], [f"balisekit: {place}: {why}"])


@pytest.mark.parametrize("value, option", [("200", ["--line-speed", "160"]), ("160", ["--line-speed", "160"])])
def test_a_value_that_an_option_replaces(
    value: str, option: List[str], run: Run, table: Callable[..., Path], tmp_path: Path
) -> None:
    """The line has both, and says which one is in force. So has JSON."""
    path = table("group,telegram", f"A,{ALONE}")
    (tmp_path / "balisekit.toml").write_text(f"[check]\nline_speed = {value}\n", "utf-8")
    _, out, _ = run("check", path, *option)
    (line,) = [line for line in out if line.startswith("settings: ")]
    assert line.startswith("settings: --line-speed 160; ")
    assert line.endswith(f"): check.line_speed = {value} (not used: --line-speed replaces it)")
    _, out, _ = run("check", path, *option, "--json", "-")
    given, stated = json.loads("\n".join(out))["settings"]
    assert given["values"] == [{"name": "--line-speed", "value": "160", "sha256": None}]
    wanted = {"name": "check.line_speed", "value": value, "sha256": None, "replaced_by": "--line-speed"}
    assert stated["values"] == [wanted]

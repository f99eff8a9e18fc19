"""An output format of `check` is found by its module: option, help and checks know it then."""
from __future__ import annotations

from pathlib import Path
from typing import Callable

import pytest
from conftest import Run
from telegrams import ALONE, OTHER
from test_help import _parser
from test_lines_of_answers import OUTPUTS

from balisekit.cli import check
from balisekit.io.outputs import Output
from balisekit.present import formats
from balisekit.present.formats import FORMATS, Format
from balisekit.rules.families import Outcome

pytestmark = pytest.mark.uncovered
Write = Callable[..., Path]
NAMES = [each.name for each in FORMATS]


NO_ANSWER = {"document", "propose"}
"""What these write has no lines of the answer: the document that was checked, and entries to be signed."""


def write(output: Output, outcome: Outcome) -> None:
    """The status as a file."""
    output.write([f"{outcome.status}\n"])


def test_each_module_is_a_format() -> None:
    """Its file has the name of its option."""
    modules = [path.stem for path in Path(formats.__file__).parent.glob("*.py") if path.stem != "__init__"]
    assert NAMES == sorted(modules) and all(each.help for each in FORMATS)


def test_the_lines_of_each_are_compared() -> None:
    """A new format is in the list of outputs that have all lines of an answer, unless it has none of them."""
    assert {*NAMES} - NO_ANSWER == {*OUTPUTS} - {"html"}


@pytest.mark.parametrize("name", NAMES)
def test_what_is_checked_of_each(run: Run, table: Write, tmp_path: Path, name: str) -> None:
    """No two outputs share a file, none replaces another file without --force, and a page of a rule needs none."""
    path, file = table("group,telegram", f"A,{ALONE}", f"B,{OTHER}"), tmp_path / "out"
    other = next(each for each in NAMES if each != name)
    status, _, err = run("check", path, f"--{name}", file, f"--{other}", file)
    assert status == 2 and err[0].endswith(f"{file}: it is named twice")
    assert run("check", path, "--only", "F", f"--{name}", file)[0] == 0 and file.stat().st_size
    assert run("check", path, f"--{name}", file)[0] == 2
    assert run("check", "E9", "--explain", f"--{name}", tmp_path / "new")[2] == [
        f"balisekit: --{name} is not used with the page of a rule"
    ]


def test_a_format_is_added(run: Run, table: Write, tmp_path: Path, monkeypatch: pytest.MonkeyPatch) -> None:
    """By its module alone."""
    own = Format("status", "write the status", write, lacking="note: it is only a number")
    monkeypatch.setattr(check, "FORMATS", (*FORMATS, own))
    assert "--status FILE" in _parser("check").format_help()
    path, file = table("group,telegram", f"A,{ALONE}", f"B,{OTHER}"), tmp_path / "s"
    assert run("check", path, "--only", "F", "--status", file)[0] == 0 and file.read_text("utf-8") == "0\n"
    assert own.lacking not in run("check", path, "--status", file, "--force")[1]
    assert run("check", path, "--status", file)[0] == 2
    status, out, _ = run("check", table("group,telegram", f"A,{ALONE}", "B,00"), "--status", file, "--force")
    assert status == 2 and own.lacking in out and file.read_text("utf-8") == "2\n"

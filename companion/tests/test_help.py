"""The pages name only what a command has, and the help of each command is complete."""
from __future__ import annotations

import argparse
import re
from importlib import import_module
from typing import Dict, List, Set

import pytest
from cases_of_program import TOP

from balisekit.cli import main as cli
from balisekit.tables.cells import COLUMNS

pytestmark = pytest.mark.uncovered
DOCS = TOP / "docs"
PAGE = (DOCS / "commands.md").read_text("utf-8")
GUIDE = (DOCS / "guide.md").read_text("utf-8")
README = (TOP / "README.md").read_text("utf-8")
SECTIONS: Dict[str, str] = dict(re.findall(r"^## (.+?)\n(.+?)(?=^## |\Z)", PAGE, re.MULTILINE | re.DOTALL))
COMMANDS = list(cli.COMMANDS)
OF_ALL = {"--help", "--version", "--debug"}


def _parser(command: str) -> argparse.ArgumentParser:
    parser = argparse.ArgumentParser(add_help=False)
    import_module(f"balisekit.cli.{command}").add_options(parser)
    return parser


def _options(command: str) -> Set[str]:
    """The words of a command that begin with hyphens."""
    return set(_named(_parser(command).format_help()))


def _named(text: str) -> List[str]:
    """The words of a text that begin with hyphens."""
    return re.findall("--[a-z][a-z-]*", text)


@pytest.mark.parametrize("command", COMMANDS)
def test_the_section_of_a_command(command: str) -> None:
    """It names only words of this command, or those of another one together with that command."""
    own = re.sub(r"`(\w+) --[^`]+`", "", SECTIONS[command])
    assert set(_named(own)) - _options(command) == set()


@pytest.mark.parametrize("command", COMMANDS)
def test_each_word_has_its_help(command: str) -> None:
    """A line of help has at least two words, because the page does not repeat it."""
    for action in _parser(command)._actions:
        assert len((action.help or "").split()) >= 2, action.option_strings


@pytest.mark.parametrize("text", [README, PAGE, GUIDE], ids=["README", "commands", "guide"])
def test_no_page_has_a_word_that_is_none(text: str) -> None:
    """Each option on a page is one of a command, and an option after a command is one of that command."""
    verifies = _named((TOP / "scripts" / "verify-release").read_text("utf-8"))
    others = {"--radio", "--anew", "--all-files", *verifies}  # (of balisecheck, .ci/run, pre-commit and verify-release)
    known = set().union(*map(_options, COMMANDS)) | OF_ALL | others
    assert set(_named(text)) - known == set()
    shown = re.findall(r"(?:balisekit|`)\s?(" + "|".join(COMMANDS) + r")\b([^|`\n]*)", text)
    assert shown and not any(set(_named(words)) - _options(command) - OF_ALL for command, words in shown)


def test_readme_has_each_command() -> None:
    """A row of its table for each."""
    rows = re.findall(r"^\| `(\w+) [A-Z][^|]*` \|", README, re.MULTILINE)
    assert sorted(rows) == sorted(COMMANDS)


def test_columns_and_statuses() -> None:
    """The page has a row for each column, and the guide a row for each status, as the help has a line."""
    columns = re.findall(r"^\| `([a-z]+)` \|", SECTIONS["The table"], re.MULTILINE)
    assert sorted(columns) == sorted(COLUMNS)
    rows = GUIDE.split("## Exit statuses")[1]
    statuses = re.findall(r"^\| ([0-3]) \|", rows, re.MULTILINE)
    assert statuses == re.findall(r"^  ([0-3])  ", cli.STATUSES, re.MULTILINE) == ["0", "1", "2", "3"]
    for text in (rows.split("\n| 2 |")[1].split("|")[1], cli.STATUSES.split("\n  2  ")[1]):
        why = "INCOMPLETE: a telegram or message was refused, telegrams of the table were not read, or a rule L, E "
        why += "or X compared none of what it had to"
        assert " ".join(text.split()).startswith(why)
    assert all(
        number in rows for number in re.findall(r"with (?:status )?(\d+)", cli.STATUSES.split("\n  an interrupt")[1])
    )


@pytest.mark.parametrize("words", [["--help"], *[[command, "--help"] for command in COMMANDS]])
def test_help_ends_with_0(words: List[str], capsys: pytest.CaptureFixture[str]) -> None:
    """And it names the statuses, or the words."""
    with pytest.raises(SystemExit) as ended:
        cli.main(words)
    said = capsys.readouterr().out
    assert ended.value.code == 0 and ("exit status:" in said if len(words) == 1 else "--program" in said)


@pytest.mark.parametrize("words", ["chek", "--debug chek", "--help", "--help check", "--debug --help check"])
def test_help_and_a_wrong_command_name_all_commands(words: str, capsys: pytest.CaptureFixture[str]) -> None:
    """Though only the parser of the named command is made if the words begin with it."""
    with pytest.raises(SystemExit):
        cli.main(words.split())
    said = capsys.readouterr()
    assert set(COMMANDS) <= set(re.findall("[a-z]+", said.out + said.err))


def test_the_packages_of_the_tests() -> None:
    """Each package that companion/test and the tests look for is one that tests/all installs, except a browser."""
    script = (TOP / "companion" / "test").read_text("utf-8")
    packages = set(re.findall(r"(?m)^(?!#).*(?:has|check \w+) \w+ ([\w-]+)", script))
    for path in (*(TOP / "companion" / "tests").rglob("test_*.py"), *(TOP / "tests").glob("*.py")):
        text = path.read_text("utf-8")
        packages |= {f"python3-{name}" for name in re.findall(r'importorskip\("(\w+)"\)', text)}
        packages |= set(re.findall(r'(?:skip\(|reason ?= ?)"[^"\n]*\(([\w-]+)\)"', text))
    packages -= {"chromium", "toolchain"}
    text = (TOP / "tests" / "packages.sh").read_text("utf-8")
    listed = " ".join(re.findall(r"(?m)^(?:packages|systems)='([^']*)'", text))
    assert {"mypy", "python3-jinja2"} <= packages and packages <= {word.split("=")[0] for word in listed.split()}

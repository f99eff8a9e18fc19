"""`show`: each number of the program's JSON is shown, once, and nothing else is in brackets."""
from __future__ import annotations

import io
import json
import re
from collections import Counter
from decimal import Decimal
from pathlib import Path
from typing import Any, List

import pytest
from cases_of_program import EXAMPLES, TOP, Case, accepted, value_at
from conftest import Run
from telegrams import ALONE, OTHER, SPARE, with_contents

from balisekit.cli import main as cli
from balisekit.errors import NoAnswer
from balisekit.etcs.geometry import Kilometres
from balisekit.etcs.places import Here
from balisekit.present.bit_table import bit_lines
from balisekit.present.telegram_text import WIDTH, form_lines, text
from balisekit.rules import checking

pytestmark = pytest.mark.uncovered
NAME = r"(?:user bits|body|other data|[A-Z]+_[A-Z0-9_]+(?: of NID_PRVLRBG| \(2\))?)"
SHOWN = re.compile(
    rf"(?:^|(?<=  ))({NAME}) (?:(?P<plain>[0-9]+|(?<=other data )[0-9a-f]*)(?=  |$)|[^\[\]]+? \[(?P<raw>[0-9a-f]*)\])"
)


def read() -> List[Case]:
    """The cases and examples that the program reads."""
    return [*accepted(), *EXAMPLES[False], *EXAMPLES[True]]


def _values_in(said: str) -> "Counter[str]":
    """The raw values of a text as a reader finds them."""
    found: "Counter[str]" = Counter()
    for line in said.split("\n"):
        for one in SHOWN.finditer(line.split("  = ")[0]):
            found[one["raw"] if one["plain"] is None else one["plain"]] += 1
    return found


def test_every_number_is_shown() -> None:
    """The values of the JSON, and of bodies that are read, are those of the text, each as often."""
    assert len(read()) > 500
    for case in read():
        form = json.loads(case.answer)
        wanted = Counter(str(value) for _, value in value_at(with_contents(form)))
        assert _values_in(text(form, Here(Kilometres(Decimal("13.85"), 1)))) == wanted, case


def test_every_path_is_shown() -> None:
    """Each path of the JSON, and of bodies that are read, comes with its own value."""
    for case in read():
        form = json.loads(case.answer)
        shown = {value.path: value.raw for line in form_lines(form) for value in line.values}
        assert shown == dict(value_at(with_contents(form))), case


def test_a_key_that_is_not_known_is_shown() -> None:
    """A later program may write further keys."""
    form: Any = {
        "nid_c": 1,
        "packets": [
            {
                "nid_packet": 12,
                "q_dir": 1,
                "q_scale": 1,
                "sections": [],
                "l_endsection": 5,
                "later": {"t_later": 77},
                "many": [7, 8],
            }
        ],
        "x_new": 99,
    }
    shown = [value.raw for line in form_lines(form) for value in line.values]
    assert set(shown) >= {77, 7, 8, 99}


def test_bits_name_each_field() -> None:
    """Places are without a gap from the first bit to the last, and each value of the JSON has its own.

    The variables of a body are listed after it, and begin where it begins.
    """
    for case in read():
        form = json.loads(case.answer)
        lines = list(bit_lines(case.text, form))
        at = inside = 0
        for line in lines:
            place = re.match(r" +bits? (\d+)(?: to (\d+))? ", line)
            if place and line.startswith(" " * 8):
                assert int(place[1]) == inside < at, case
                inside = int(place[2] or place[1]) + 1
            elif place:
                assert int(place[1]) == at, case
                inside, at = at, int(place[2] or place[1]) + 1
        assert at == (form["user_bits"] if "user_bits" in form else 4 * len(case.text)), case


def test_bits_of_another_form_are_no_answer() -> None:
    """Tables that disagree with the program are not shown."""
    case = EXAMPLES[False][0]
    form = json.loads(case.answer)
    form["nid_bg"] += 1
    with pytest.raises(NoAnswer, match="/nid_bg"):
        list(bit_lines(case.text, form))


def test_lines_are_not_too_long() -> None:
    """No line but one with a long value is wider than a page."""
    for case in read():
        for line in text(json.loads(case.answer)).split("\n"):
            assert len(line) <= WIDTH or "body" in line or line.count("  ") < 12, line


def test_places_have_kilometres_in_either_direction() -> None:
    """The first gradient of the example begins 800 m ahead, up the kilometres or down."""
    form = json.loads((TOP / "examples" / "gradients.json").read_text())
    assert "from 800 m, km 14.650" in text(form, Here(Kilometres(Decimal("13.85"), 1)))
    assert "from 800 m, km 13.050" in text(form, Here(Kilometres(Decimal("13.85"), -1)))
    assert "from 0 m, km 13.850" in text(form, Here(Kilometres(Decimal("13.85"), None)))
    assert "from 800 m\n" in text(form, Here(Kilometres(Decimal("13.85"), None)))


def _input(monkeypatch: pytest.MonkeyPatch, content: bytes) -> None:
    monkeypatch.setattr("sys.stdin", io.TextIOWrapper(io.BytesIO(content)))


@pytest.mark.parametrize("content", [b"\xff\xfe\n", b"a1\x0000\n", b"a1\ra1\r\n", b"\xe2\x80\xae\n", b"\x1b[2J\n"])
def test_standard_input_that_is_no_text(
    content: bytes, monkeypatch: pytest.MonkeyPatch, capsys: pytest.CaptureFixture[str]
) -> None:
    """It is refused as any other line, and nothing of it moves the cursor."""
    _input(monkeypatch, content)
    assert cli.main(["show"]) == 2
    assert not set(capsys.readouterr().out) & set("\x00\x1b\u202e\r")


@pytest.mark.parametrize("encoding", ["utf-8", "utf-8-sig", "utf-16"])
def test_standard_input_as_windows_writes_it(
    encoding: str, monkeypatch: pytest.MonkeyPatch, capsys: pytest.CaptureFixture[str]
) -> None:
    """With a mark before the first telegram, which is none of its digits."""
    _input(monkeypatch, f"{ALONE}\r\n{OTHER}\r\n".encode(encoding))
    assert cli.main(["show"]) == 0
    assert [line for line in capsys.readouterr().out.split("\n") if line.startswith("line ")] == ["line 1", "line 2"]


def test_no_standard_input(monkeypatch: pytest.MonkeyPatch, run: Run, tmp_path: Path) -> None:
    monkeypatch.setattr("sys.stdin", None)
    monkeypatch.chdir(tmp_path)
    assert run("show") == (2, [], ["balisekit: standard input is closed: name a TABLE, or --messages"])
    assert run("check", "-") == (2, [], ["balisekit: -: standard input is not read: name a file"])


def test_the_document_has_what_is_shown(capsys: pytest.CaptureFixture[str], monkeypatch: pytest.MonkeyPatch) -> None:
    """The block of docs/commands.md has lines of what the command writes."""
    block = (
        (TOP / "docs" / "commands.md").read_text("utf-8").split("$ ./balisekit show < examples/linking.txt | sed ")[1]
    )
    _input(monkeypatch, (TOP / "examples" / "linking.txt").read_bytes())
    assert cli.main(["show"]) == 0
    written = iter(capsys.readouterr().out.splitlines())
    lines = block.split("\n```\n")[0].splitlines()[1:]
    assert len(lines) == 5 and all(line in written for line in lines)


def test_a_refused_telegram_is_named(capsys: pytest.CaptureFixture[str], monkeypatch: pytest.MonkeyPatch) -> None:
    """The others are shown all the same, and the status is 2."""
    _input(monkeypatch, (TOP / "examples" / "pad-bits-set.txt").read_bytes())
    assert cli.main(["show"]) == 2
    said = capsys.readouterr().out
    assert "NID_BG 1" in said and "line 3: " in said and "    program: pad bits set" in said


def test_messages_are_shown(tmp_path: Path, capsys: pytest.CaptureFixture[str]) -> None:
    """A file of messages beside a table, one of them refused."""
    table, messages = tmp_path / "t.csv", tmp_path / "m.txt"
    table.write_text("group,telegram\nA," + (TOP / "examples" / "header-only.txt").read_text())
    text_of_message = (TOP / "examples" / "radio-position-report.txt").read_text().strip()
    messages.write_text(f"{text_of_message};from the train\n0304\n")
    assert cli.main(["show", str(table), "--messages", str(messages)]) == 2
    said = capsys.readouterr().out
    assert "from the train" in said and "D_LRBG 500 m [500]" in said and "    program: " in said


def test_messages_are_shown_without_a_table(tmp_path: Path, capsys: pytest.CaptureFixture[str]) -> None:
    """With only `--messages`, nothing is read from standard input."""
    messages = tmp_path / "m.txt"
    messages.write_text((TOP / "examples" / "radio-position-report.txt").read_text().strip() + ";from the train\n")
    assert cli.main(["show", "--messages", str(messages)]) == 0
    said = capsys.readouterr().out
    assert "\n\nmessage of line 1  from the train\n" in said and "D_LRBG 500 m [500]" in said


@pytest.mark.parametrize("line", ["{}", " 0x{}", '"{}"', "{}h", "'{}", "\u00a0{}H\t"])
def test_standard_input_is_cleaned_as_cells_are(
    line: str, capsys: pytest.CaptureFixture[str], monkeypatch: pytest.MonkeyPatch
) -> None:
    """Blanks, quotes, 0x, h, and what is between pairs of digits."""
    digits = (TOP / "examples" / "linking.txt").read_text().strip()
    pairs = [digits[at : at + 2] for at in range(0, len(digits), 2)]
    texts = [line.format(one) for one in (digits, " ".join(pairs), ":".join(pairs), "-".join(pairs))]
    _input(monkeypatch, "\n".join([digits, *texts]).encode())
    assert cli.main(["show"]) == 0
    said = capsys.readouterr().out.split("\n\n")
    assert len({one.split("\n", 1)[1] for one in said[1:6]}) == 1


def test_an_empty_body_has_no_bits() -> None:
    """A packet with only its head, in words and bit by bit."""
    case = next(case for case in read() if '"body":""' in case.answer)
    form = json.loads(case.answer)
    assert "body no bits []" in text(form)
    assert any(re.fullmatch(r" +no bits +body no bits \[\]", line) for line in bit_lines(case.text, form))


@pytest.mark.parametrize("words", [[], ["--all"]])
def test_show_stops_after_too_many_refused(
    words: List[str], tmp_path: Path, monkeypatch: pytest.MonkeyPatch, capsys: pytest.CaptureFixture[str]
) -> None:
    """As `check` does, and it says how many were not looked at."""
    monkeypatch.setattr(checking, "GREATEST_REFUSED", 3)
    table = tmp_path / "t.csv"
    table.write_text("group,telegram\n" + "".join(f"G{place},{SPARE}\n" for place in range(5)))
    assert cli.main(["show", str(table), *words]) == 2
    said = capsys.readouterr().out
    assert said.count("    program: spare at 15 end 17\n") == (5 if words else 3)
    assert ("\nand 2 rows not looked at: --all continues\n" in said) == (not words)
    _input(monkeypatch, f"{SPARE}\n".encode() * 7)
    assert cli.main(["show", *words]) == 2
    assert ("\nand 4 lines not looked at: --all continues\n" in capsys.readouterr().out) == (not words)

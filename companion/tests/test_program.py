"""Answers of the program in order, and programs with wrong answers."""
from __future__ import annotations

import json
import os
import random
from pathlib import Path
from typing import Any, Callable, List, Mapping

import pytest
from fakes import RECORD, fake
from telegrams import ALONE, FAULTY, MESSAGE, OTHER, SPARE

from balisekit.engine import find_program
from balisekit.engine.grammar import Refusal
from balisekit.engine.program import Program, Record, Report, Text
from balisekit.errors import NoAnswer

Stand = Callable[..., Program]


def spoken(program: Program, *lines: str) -> List[str]:
    """The answer to each line: the words of a refusal, or `read`."""
    return [one.text if isinstance(one, Refusal) else "read" for one in program.decode(lines)]


@pytest.mark.parametrize("places", [(), (0,), (3,), (0, 1, 2, 3), (1, 2), (0, 3)])
def test_refused_lines_at_any_place(program: Program, places: List[int]) -> None:
    lines = [FAULTY if place in places else ALONE for place in range(4)]
    wanted = ["spare at 127 end 129" if place in places else "read" for place in range(4)]
    assert spoken(program, *lines) == wanted


def test_many_lines_in_any_order(program: Program) -> None:
    dice = random.Random(7)
    lines = [dice.choice((ALONE, OTHER, ALONE, SPARE, FAULTY, "zz")) for _ in range(1000)]
    words = {
        ALONE: "read",
        OTHER: "read",
        SPARE: "spare at 15 end 17",
        FAULTY: "spare at 127 end 129",
        "zz": "not hexadecimal",
    }
    assert spoken(program, *lines) == [words[line] for line in lines]


def test_no_line_and_no_message(program: Program) -> None:
    assert list(program.decode([])) == [] == list(program.messages([]))


@pytest.mark.parametrize("text", ["", "a\n", "\r", f"{ALONE}\n{ALONE}"])
def test_a_text_is_a_line(program: Program, text: str) -> None:
    with pytest.raises(ValueError):
        list(program.decode([text]))


def test_records_are_written_again(program: Program) -> None:
    records = [one for one in program.decode([ALONE, OTHER]) if isinstance(one, Record)]
    assert [one.form["nid_bg"] for one in records] == [1, 3]
    forms: List[Mapping[str, Any]] = [records[0].form, {**records[0].form, "n_pig": 8}, records[1].form]
    written = list(program.encode(forms))
    assert [one.line if isinstance(one, Text) else one.text for one in written] == [
        ALONE,
        "form range at /n_pig",
        OTHER,
    ]


def test_messages_are_no_stream(program: Program) -> None:
    cut, wrong = MESSAGE[:-2], "0300c000" + MESSAGE[8:]
    answers = list(program.messages([MESSAGE, cut, wrong, "030", bytes.fromhex(MESSAGE)]))
    assert [one.text if isinstance(one, Refusal) else one.form["t_train"] for one in answers] == [
        100,
        "length at 8 end 18",
        "length at 8 end 18",
        "not hexadecimal",
        100,
    ]


def test_more_messages_than_a_part(program: Program) -> None:
    answers = list(program.messages([MESSAGE] * 1500 + ["0304"] + [MESSAGE] * 700))
    assert [place for place, one in enumerate(answers) if isinstance(one, Refusal)] == [1500]
    again = next(program.encode([answers[0].form if isinstance(answers[0], Record) else {}], radio=True))
    assert isinstance(again, Text) and again.line == MESSAGE


def test_documents(program: Program) -> None:
    document = {"groups": [{"balises": [ALONE]}], "messages": []}
    whole = program.check(document)
    assert isinstance(whole, Report) and whole.verdict.yes and whole.verdict.groups == 1
    assert program.check(json.dumps(document)) == program.check(json.dumps(document).encode()) == whole
    refused = program.check({"groups": [{"balises": []}], "messages": []})
    assert isinstance(refused, Refusal) and (refused.group, refused.text) == (0, "count")


@pytest.fixture
def stand(tmp_path: Path) -> Stand:
    """A program that shakes hands as the right one does, and then does this."""

    def make(does: str, first: str = "") -> Program:
        return Program.find(str(fake(tmp_path / "stand", does, first)))

    return make


@pytest.mark.parametrize(
    "does, said",
    [
        ("exit 1", "status 1, 0 lines in place of 2"),
        ("exit 0", "status 0, 0 lines in place of 2"),
        (f"echo '{RECORD}'; exit 0", "status 0, 1 lines in place of 2"),
        (f"echo '{RECORD}'; echo '{RECORD}'; echo '{RECORD}'; exit 0", "more lines than it was given"),
        ("echo 'balisecheck: memory' >&2; exit 3", "status 3, balisecheck: memory"),
        ("kill -9 $$", "killed by signal 9"),
        ("echo 'refused: usage is balisecheck check'; exit 2", "refused: usage is"),
        ("echo 'refused: line 2: wrong size'; exit 2", "refused: line 2: wrong size"),
        (f"echo 'refused: line 1: wrong size'; echo '{RECORD}'; exit 2", "a line follows a refusal"),
        ("echo 'refused: line 1: wrong size'; exit 0", "status 0"),
        (
            f"echo '{RECORD}'; echo '{RECORD}'; echo 'refused: line 3: wrong size'; exit 2",
            "more lines than it was given",
        ),
    ],
)
def test_no_answer_of_decode(stand: Stand, does: str, said: str) -> None:
    with pytest.raises(NoAnswer) as raised:
        list(stand(does).decode([ALONE, ALONE]))
    assert said in str(raised.value)


@pytest.mark.parametrize(
    "does",
    [
        "echo 'yes: groups 1, messages 0'; exit 1",
        "echo 'no: findings 2'; echo 'F14 group 0: identity used before'; exit 1",
        "echo 'no: findings 1'; echo 'F14 group 0: total wrong'; exit 1",
        "exit 0",
        "echo 'refused: line 1: wrong size'; exit 2",
    ],
)
def test_no_answer_of_check(stand: Stand, does: str) -> None:
    with pytest.raises(NoAnswer):
        stand(does).check({"groups": [{"balises": [ALONE]}], "messages": []})


@pytest.mark.parametrize("first", ["exit 0", "echo 'yes: groups 0, messages 1'; exit 0", "echo other; exit 2"])
def test_another_program_is_not_taken(stand: Stand, first: str) -> None:
    with pytest.raises(NoAnswer, match="is not the program that this version knows"):
        stand("", first)


@pytest.mark.parametrize("first", ["exit 1", "echo 'no GLIBC_2.34' >&2; echo 'no GLIBC_2.33' >&2; exit 1"])
def test_a_released_program_that_does_not_start(
    stand: Stand, tmp_path: Path, monkeypatch: pytest.MonkeyPatch, first: str
) -> None:
    """The metadata tell what it needs, and the first line of the loader what is missing. It is not another program."""
    monkeypatch.setattr(find_program, "papers", lambda _: {"glibc": "2.34"})
    with pytest.raises(NoAnswer) as raised:
        stand("", first)
    needs, *missing = str(raised.value).split(" does not start here: ")[1].split(": ")
    assert needs.startswith("it needs x86-64-v2 and glibc 2.34 or later, and this is ")
    assert missing == ["no GLIBC_2.34"] * ("GLIBC" in first)


def test_no_program(monkeypatch: pytest.MonkeyPatch, tmp_path: Path) -> None:
    with pytest.raises(NoAnswer, match="there is no program"):
        Program.find(str(tmp_path / "none"))
    with pytest.raises(NoAnswer):
        Program.find(str(tmp_path))
    (tmp_path / "text").write_text("text")
    os.chmod(tmp_path / "text", 0o755)
    with pytest.raises(NoAnswer):
        Program.find(str(tmp_path / "text"))

"""Each kind of line that an answer can have is in each output (lines_of_answers.csv).

A cell has `line` if the output has each of these lines as it is. Otherwise it has a text of the output that stands for
them, or for JSON a key. `-` is for lines that describe a rule or another output, and no data.
"""
from __future__ import annotations

import csv
import html
import json
import re
from functools import reduce
from pathlib import Path
from typing import Any, Callable, Dict, Iterator, List

import pytest
from cases_of_program import TOP
from conftest import Run
from telegrams import ALONE, MESSAGE, OTHER, SPARE

from balisekit.present import outcome_text
from balisekit.present.outcome_text import AnswerLine, Kind
from balisekit.rules import checking
from balisekit.rules.accepted import COLUMNS

Write = Callable[..., Path]
with open(Path(__file__).with_name("lines_of_answers.csv"), encoding="utf-8", newline="") as _file:
    PLACED = {row["kind"]: row for row in csv.DictReader(_file)}
OUTPUTS = ("json", "html", "junit", "sarif", "xlsx")
RAW = "a1027fac0000c1503620fa000111420fa0001d1721023{}c".format("f" * 162)
"""The first telegram of the line, with a packet 200 for which nobody has a layout."""
Texts = Dict[str, str]


def _strings(value: Any) -> Iterator[str]:
    """All texts of an object of JSON."""
    if isinstance(value, dict):
        value = list(value.values())
    if isinstance(value, list):
        for item in value:
            yield from _strings(item)
    elif isinstance(value, str):
        yield value


def _texts(folder: Path) -> Texts:
    """The texts of each output."""
    openpyxl = pytest.importorskip("openpyxl")
    book = openpyxl.load_workbook(folder / "out.xlsx")
    cells = [str(cell) for sheet in book for row in sheet.iter_rows(values_only=True) for cell in row]
    page = (folder / "out.html").read_text("utf-8")
    return {
        "json": "\n".join(_strings(json.loads((folder / "out.json").read_text("utf-8")))),
        "html": " ".join(html.unescape(re.sub("<[^>]*>", "", page)).split()),
        "junit": html.unescape((folder / "out.junit").read_text("utf-8")),
        "sarif": "\n".join(_strings(json.loads((folder / "out.sarif").read_text("utf-8")))),
        "xlsx": "\n".join(cells),
    }


def _is_placed(line: AnswerLine, output: str, texts: Texts, form: Any) -> bool:
    """Whether an output has a line, in the way that the table states."""
    wanted = PLACED[line.kind.name][output]
    if wanted == "-":
        return True
    if wanted == "line":
        text = line.text if output != "html" else " ".join(line.text.split()).removeprefix("note: ")
        return text.strip().removeprefix("program: ") in texts[output]
    if output == "json":
        return bool(reduce(lambda value, key: value[key], wanted.split("."), form))
    return wanted in texts[output]


@pytest.fixture
def said(monkeypatch: pytest.MonkeyPatch) -> List[AnswerLine]:
    """The lines of all answers in words of a test."""
    lines: List[AnswerLine] = []
    answer = outcome_text.answer

    def kept(*words: Any, **options: Any) -> Iterator[AnswerLine]:
        for line in answer(*words, **options):
            lines.append(line)
            yield line

    monkeypatch.setattr(outcome_text, "answer", kept)
    return lines


def _line(with_kilometres: bool) -> List[str]:
    """A table with all that an answer can name. What is refused comes last, since nothing is tried after it."""
    rows = list(csv.DictReader((TOP / "examples/links/distance-differs.csv").read_text("utf-8").splitlines()))
    rows[0]["telegram"] = RAW
    lines = [f"{row['group']},{row['name']},{row['km']},{row['nominal']},{row['telegram']}," for row in rows]
    lines += [f"e,,,,{ALONE},", f"E,,,,{ALONE},", f"\u0410,,,,{OTHER},{OTHER}", f"R,,,,{SPARE},", f"S,,,,{SPARE},"]
    if not with_kilometres:
        lines = [",".join([*line.split(",")[:2], "", *line.split(",")[3:]]) for line in lines]
    return ["group,name,km,nominal,telegram,old", *lines]


def test_each_kind_has_a_row() -> None:
    assert list(PLACED) == [kind.name for kind in Kind]


@pytest.mark.parametrize("kilometres", [True, False])
def test_each_line_is_in_each_output(
    run: Run, table: Write, tmp_path: Path, monkeypatch: pytest.MonkeyPatch, said: List[AnswerLine], kilometres: bool
) -> None:
    pytest.importorskip("jinja2")
    monkeypatch.chdir(tmp_path)
    monkeypatch.setattr(checking, "GREATEST_REFUSED", 1)
    table(*_line(kilometres), name="t.csv")
    table(MESSAGE, name="m.txt")
    signed = {"reason": "by design", "who": "J. Doe", "date": "2026-01-02", "nid_c": "1"}
    rows = [{**signed, "rule": "F14", "nid_bg": "9"}, {**signed, "rule": "X1", "nid_bg": "1"}]
    table(",".join(COLUMNS), *(",".join(row.get(name, "") for name in COLUMNS) for row in rows), name="a.csv")
    words = ["t.csv", "--messages", "m.txt", "--accepted", "a.csv", "--rules", "all"]
    outputs = [word for name in OUTPUTS if name != "html" for word in (f"--{name}", f"out.{name}")]
    assert run("check", *words, "--explain", "--document", "line.json", *outputs)[0] == 2
    in_words = list(said)
    assert run("report", *words, "--html", "out.html")[0] == 2
    texts, form = _texts(tmp_path), json.loads(Path("out.json").read_text("utf-8"))
    lost = {(output, line) for output in OUTPUTS for line in in_words if not _is_placed(line, output, texts, form)}
    assert lost == set()
    other = {Kind.NOT_APPLIED} if kilometres else {Kind.COMPARED, Kind.NOT_COMPARED, Kind.NOTE}
    assert {line.kind for line in in_words} | other == set(Kind) - {Kind.DESIGN}


def test_the_line_of_a_design_is_in_each_output(
    run: Run, table: Write, tmp_path: Path, monkeypatch: pytest.MonkeyPatch, said: List[AnswerLine]
) -> None:
    pytest.importorskip("jinja2")
    monkeypatch.chdir(tmp_path)
    table(*_line(True)[:-2], name="t.csv")
    table("kind,km,value", "speed,1.000,40", name="d.csv")
    outputs = [word for name in OUTPUTS if name != "html" for word in (f"--{name}", f"out.{name}")]
    run("check", "t.csv", "--design", "d.csv", *outputs)
    (line,) = {line for line in said if line.kind is Kind.DESIGN}
    run("report", "t.csv", "--design", "d.csv", "--html", "out.html")
    texts, form = _texts(tmp_path), json.loads(Path("out.json").read_text("utf-8"))
    assert [output for output in OUTPUTS if not _is_placed(line, output, texts, form)] == []

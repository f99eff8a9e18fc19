"""The grammar is that of schemas/report-grammar.txt, and every text of the repository is of it."""
from __future__ import annotations

import re
import subprocess
import sys
from pathlib import Path
from typing import Iterator, List, Tuple

import pytest

from balisekit.engine import grammar

TOP = Path(__file__).resolve().parents[2]
LINES = re.compile(r"^(?:yes: |no: |F[0-9]+ |refused: ).*$", re.MULTILINE)


def blocks(path: str) -> str:
    """The blocks of a document, without their commands."""
    text = (TOP / path).read_text("utf-8")
    return "\n".join(re.findall(r"^```(?:console|text)\n(.*?)^```$", text, re.MULTILINE | re.DOTALL))


def listed_refusals() -> Iterator[str]:
    """The refusals that docs/refusals.md lists. A section may name what the words of its table follow."""
    for section in re.split("^##+ ", (TOP / "docs/refusals.md").read_text("utf-8"), flags=re.MULTILINE):
        yield from re.findall(r"`(refused: [^`]*[^:`])`", section)
        begin = re.search("These words follow `(refused: .+:)`", section)
        if begin:
            yield from (f"{begin[1]} {words}" for words in re.findall(r"^\| `([^`]+)` \|", section, re.MULTILINE))


def known(line: str) -> List[str]:
    """The names of the expressions that match the line."""
    return [
        name
        for name in dict(grammar.LINES)
        if any(expression.fullmatch(line) for expression in grammar.expressions(name))
        if name in ("verdict", "finding", "words", "check") or name.startswith(("decode", "encode"))
    ]


def repository() -> Iterator[Tuple[str, str]]:
    """Each text of the program that examples, cases and documents have."""
    for path in sorted((TOP / "examples").rglob("*.txt")):
        if path.parent.name != "table":
            yield from ((path.name, line) for line in LINES.findall(path.read_text("utf-8")))
    yield from (("documents.txt", one) for one in LINES.findall((TOP / "tests/cases/documents.txt").read_text("utf-8")))
    cases = subprocess.run([sys.executable, "-B", str(TOP / "tests/cases.py")], stdout=subprocess.PIPE, check=True)
    yield from (
        ("cases.py", line.split("\t")[2])
        for line in cases.stdout.decode().splitlines()
        if line.split("\t")[2].startswith("refused: ")
    )
    yield from (("refusals.md", line) for line in listed_refusals())
    for name in ("README.md", "examples/README.md", "docs/formats.md", "docs/refusals.md", "docs/findings.md"):
        # A recipe appends a name in parentheses to the lines of a report.
        yield from ((name, re.sub(r" \(Signal .*\)$", "", line)) for line in LINES.findall(blocks(name)))


def test_texts_of_the_repository() -> None:
    texts = list(repository())
    assert len(texts) > 2400
    assert [text for text in texts if not known(text[1])] == []


def test_each_refusal_is_listed() -> None:
    """Each word of the grammar for what is wrong has a row on the page."""
    lines, expressions = list(listed_refusals()), "\n".join(grammar.PARTS.values())
    words = {word for whys in re.findall(r"[(][?]P<why>(.+?)[)]", expressions) for word in whys.split("|")}
    assert len(words) == 14 and len(lines) >= 30
    words |= {"not hexadecimal", "wrong size", "pad bits set", "length below 3", "cut off"}
    words |= {"not JSON", "too big", "group 0: count", "group 0: aspects", "usage is"}
    assert [word for word in words if not any(re.search(rf": (?:form )?{word}\b", line) for line in lines)] == []


def test_texts_of_program_tests() -> None:
    runs = (TOP / "tests/cases/runs.txt").read_text("utf-8")
    forms = (TOP / "tests/cases/forms.txt").read_text("utf-8")
    lines = re.findall(r"^(?:> )?(refused: .*)$", runs + forms, re.MULTILINE)
    assert len(lines) >= 180
    assert [line for line in lines if not known(line) and "usage" not in line] == []


def test_file_has_the_grammar() -> None:
    lines = (TOP / "schemas/report-grammar.txt").read_text("utf-8").splitlines(keepends=True)
    assert "".join(line for line in lines if not line.startswith("#")) == grammar.GRAMMAR


def test_hostile_tests_have_the_same_grammar() -> None:
    """tests/corpus.py takes the expressions from here."""
    text = (TOP / "tests/corpus.py").read_text("utf-8")
    assert "\nfrom balisekit.engine import grammar" in text and "grammar." in text


def test_names_are_those_of_the_rules() -> None:
    headings = re.findall(r"^## F(\d+): (.+)$", (TOP / "docs/findings.md").read_text("utf-8"), re.MULTILINE)
    assert grammar.NAMES == {int(rule): name for rule, name in headings}


def test_findings_name_what_they_are_about() -> None:
    found = grammar.finding("F11 group 3 aspect 2 balise 1 packet 4 reverse: gradient short")
    assert found is not None
    assert (found.rule, found.group, found.aspect, found.balise, found.packet) == (11, 3, 2, 1, 4)
    assert (found.direction, found.message, found.name) == ("reverse", None, "gradient short")
    radio = grammar.finding("F9 message 2 packet 1: packet not modelled")
    assert radio is not None and (radio.message, radio.packet, radio.group) == (2, 1, None)


def test_refusals_name_what_they_are_about() -> None:
    one = grammar.refusal("decode", "refused: line 7: spare at 127 end 129")
    assert one is not None and (one.number, one.why, one.at, one.end) == (7, "spare", 127, 129)
    form = grammar.refusal("encode", "refused: line 1: form range at /packets/0/q_dir")
    assert form is not None and (form.why, form.path) == ("range", "/packets/0/q_dir")
    placed = grammar.refusal("check", "refused: group 0 aspect 1 balise 0: pad bits set")
    assert placed is not None and (placed.group, placed.aspect, placed.balise) == (0, 1, 0)


@pytest.mark.parametrize(
    "line",
    [
        "F1 group 0: position wrong",
        "F1 group 0 balise 8: position wrong",
        "F1 group 0 balise 0: total wrong",
        "F17 group 0: identity used before",
        "F14 group 00: identity used before",
        "F14 group 0: identity used before ",
        "F8 group 0 balise 0: packets of duplicates differ",
        "F10 group 0 balise 0 nominal: no gradient",
        "no: findings 0",
        "yes: groups 1",
        "yes: groups 01, messages 0",
        "refused: line 0: wrong size",
        "refused: line 1: spare at 1",
        "refused: line 1: spare at 15 end 17\n",
        "refused: not json",
    ],
)
def test_other_lines_are_not_known(line: str) -> None:
    assert known(line) == []

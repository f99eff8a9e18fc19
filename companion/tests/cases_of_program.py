"""The cases of tests/cases, of examples and random telegrams: a text, and what the program writes for it."""
from __future__ import annotations

import subprocess
import sys
import tempfile
from functools import lru_cache
from pathlib import Path
from typing import Any, Dict, Iterator, List, NamedTuple, Tuple, Union

TOP = Path(__file__).resolve().parents[2]


class Case(NamedTuple):
    """An input line of `decode`, and the line that is written for it."""

    name: str
    text: str
    answer: str


def _cases() -> Iterator[Case]:
    words = [sys.executable, "-B", str(TOP / "tests" / "cases.py")]
    for line in subprocess.run(words, stdout=subprocess.PIPE, check=True).stdout.decode().splitlines():
        name, text, answer = line.split("\t")
        yield Case(name, text, answer)


def _drawn(count: int) -> Iterator[Case]:
    with tempfile.TemporaryDirectory() as room:
        forms = Path(room, "forms")
        words = [sys.executable, "-B", str(TOP / "bench" / "records.py"), "telegrams", str(count), str(forms)]
        texts = subprocess.run(words, stdout=subprocess.PIPE, check=True).stdout.decode().split()
        for text, line in zip(texts, forms.read_text("utf-8").splitlines()):
            yield Case("a random telegram", text, line)


def _examples(radio: bool) -> Iterator[Case]:
    for path in sorted((TOP / "examples").glob("*.txt")):
        answers = path.with_suffix(".json")
        if path.name.startswith("radio-") == radio and answers.exists():
            texts, lines = path.read_text().split(), answers.read_text().splitlines()
            assert len(texts) == len(lines)
            for text, line in zip(texts, lines):
                yield Case(path.name, text, line)


@lru_cache(maxsize=None)
def cases() -> List[Case]:
    """All but the examples. They take seconds, so that no process makes them before it needs them."""
    return [*_cases(), *_drawn(300)]


@lru_cache(maxsize=None)
def accepted() -> List[Case]:
    """Those of them that the program reads."""
    return [case for case in cases() if not case.answer.startswith("refused: ")]


EXAMPLES: Dict[bool, List[Case]] = {radio: list(_examples(radio)) for radio in (False, True)}
"""The cases of `examples`, by whether they are radio messages."""


def value_at(form: Any, path: str = "") -> Iterator[Tuple[str, Union[int, str]]]:
    """Each value of an object with its path."""
    if isinstance(form, dict):
        for key in form:
            yield from value_at(form[key], f"{path}/{key}")
    elif isinstance(form, list):
        for place, item in enumerate(form):
            yield from value_at(item, f"{path}/{place}")
    else:
        yield path, form

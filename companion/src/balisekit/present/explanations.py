"""The pages of the rules: of findings from docs/findings.md, and of each rule of balisekit from its own docstring.

companion/tools/from_docs.py makes `findings.json` of findings.md.
"""
from __future__ import annotations

import json
import os
import re
from typing import Dict, Iterable, Iterator, Mapping, NamedTuple, Optional, Sequence, Tuple

from balisekit.expressions import expression
from balisekit.rules.discovery import ADDED
from balisekit.rules.families import FAMILIES, PROVED, Family
from balisekit.rules.rule import FALSE_ALARM, Rule

WIDTH = 116

WHOLE = (
    "What it says",
    "Why it matters",
    "Example",
    FALSE_ALARM,
    "Usual cause",
    "How to correct it",
    "How to accept it",
    "How sure",
)
"""All paragraphs of a page. Only rules of balisekit's remarks state how sure they are."""
EXPLAINED = tuple(head for head in WHOLE if head != "Example")
"""The paragraphs that `--explain` shows beside the findings of a table."""
ASSUMPTION = expression(
    r"(?<=\.) (?=(?:The rule|It|Finally, it)(?: also)? (?:assumes|takes|relies)\b|On a track for one direction)"
)
"""Where the next assumption of a rule begins."""
FOLDERS = ("docs/rules", "share/doc/balisecheck/docs/rules")
"""Where the page of each rule is as a file: in a clone or tarball, and below the prefix of a .deb or wheel."""
KEYS = ("says", "matters", "example", "false_alarm", "cause", "remedy", "acceptance")
"""The keys in `findings.json` of the paragraphs that each finding has, in the order of WHOLE."""


def explanations() -> Dict[int, Dict[str, str]]:
    """The paragraphs on each finding by its number, with its `name` and the KEYS."""
    with open(os.path.join(os.path.dirname(__file__), "findings.json"), encoding="utf-8") as file:
        return {int(rule): parts for rule, parts in json.load(file).items()}


class Page(NamedTuple):
    """The page of a rule as plain text."""

    title: str
    parts: Mapping[str, str]
    """The paragraphs, by their heads."""


def pages(family: Family) -> Iterator[Tuple[str, Page]]:
    """The pages of the rules of a family, by their names."""
    if family.letter == PROVED:
        for number, page in explanations().items():
            yield f"F{number}", Page(page["name"], dict(zip(WHOLE, (page[key] for key in KEYS))))
    for rule in family.rules:
        yield rule.name, Page(rule.title, {head: _plain(rule.parts[head]) for head in WHOLE if head in rule.parts})


def address_of_page(name: str) -> Optional[str]:
    """The address of the file with the page of a rule, if it was installed with this balisekit."""
    from pathlib import Path  # (only some outputs need it)

    tops = Path(__file__).resolve().parents[2:7]
    places = (top / folder / f"{name}.md" for top in tops for folder in FOLDERS)
    return next((place.as_uri() for place in places if place.is_file()), None)


def page_of(name: str, added: Sequence[Rule] = ()) -> Iterator[str]:
    """The complete page of the rule with this name, as lines of text: none if no rule has this name."""
    families = {**FAMILIES, ADDED: FAMILIES[ADDED]._replace(rules=added)}
    named = (one for family in families.values() for one in pages(family) if one[0] == name.upper())
    return page_lines(named, WHOLE)


def page_lines(named: Iterable[Tuple[str, Page]], heads: Sequence[str] = EXPLAINED) -> Iterator[str]:
    """The paragraphs of these pages with these heads, as lines of text."""
    import textwrap  # (only --explain needs it)

    for name, page in named:
        yield f"{name}: {page.title}"
        for head, text in ((head, page.parts[head]) for head in heads if head in page.parts):
            first, *items = with_items(head, text)
            yield from textwrap.wrap(first, WIDTH, initial_indent="    ", subsequent_indent="    ")
            for each in items:
                yield from textwrap.wrap(each, WIDTH, initial_indent="    - ", subsequent_indent="      ")


def with_items(head: str, text: str) -> Sequence[str]:
    """A paragraph of a page with its head, and then its items, or each assumption that makes it a false alarm."""
    first, *items = f"{head}. {text}".split("\n- ")
    return [*(ASSUMPTION.split(first) if head == FALSE_ALARM else [first]), *items]


def _plain(text: str) -> str:
    """The text without the marks of links and emphasis. Each of its items is a line."""
    return re.sub(r"\[([^]]+)\]\([^)]+\)", r"\1", text).replace("*", "")

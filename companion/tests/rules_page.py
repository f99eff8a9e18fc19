"""Makes docs/rules, and the tables of rules in docs/links.md, remarks.md and track-plan.md, which link its pages.

Run `python3 companion/tests/rules_page.py` after each change of the text of a rule.

A page has what `balisekit check --explain` prints. A row is made of the page of its rule: the title, the first
sentences of what it says and of its usual cause, and how sure it is. All else of a document is its own and stays as it
is.
"""
from __future__ import annotations

import re
import sys
from pathlib import Path
from typing import Dict, Iterator, List, Sequence, Tuple

HERE = Path(__file__).resolve().parent
sys.path.insert(0, str(HERE.parent / "src"))

from balisekit.present.explanations import Page, pages, with_items  # noqa: E402  (the path comes first)
from balisekit.rules import links, meaning, track_plan  # noqa: E402
from balisekit.rules.families import FAMILIES  # noqa: E402
from balisekit.rules.rule import Rule  # noqa: E402

DOCS = HERE.parents[1] / "docs"
DOCUMENTS: Dict[Path, Sequence[Rule]] = {
    DOCS / "links.md": links.RULES,
    DOCS / "remarks.md": meaning.RULES,
    DOCS / "track-plan.md": track_plan.RULES,
}
SURE = "How sure"
OWN = (
    "This rule is balisekit's own, and not proved. To see the example in a clone of the repository, run "
    "`./balisekit check FILE`."
)
PROVED = (
    "The program balisecheck reports this finding. A proof shows that every such finding is a fact about the "
    "telegrams. To see the example in a clone of the repository, run `./balisecheck check < FILE`."
)
TITLES = {
    "F": ("Findings", "findings.md", PROVED),
    "L": ("Links", "links.md", OWN),
    "E": ("Remarks", "remarks.md", OWN),
    "X": ("Track plan", "track-plan.md", OWN),
}
"""The heading of each family, the page about it, and what its rules are."""


def files() -> Iterator[Tuple[str, str]]:
    """The page of each rule, and the list of them, by the names of their files in docs/rules."""
    listed = "# Every rule in full\n\nFor engineers who look for the cause of a finding, link or remark.\n"
    for letter, (heading, about, _) in TITLES.items():
        family = FAMILIES[letter]
        listed += f"\n## {heading}\n\n[{about}](../{about}) has what these rules have in common.\n\n"
        for name, own in pages(family):
            listed += f"- [{name}: {own.title}]({name}.md)\n"
            yield f"{name}.md", file(name, own)
    yield "README.md", listed


def file(name: str, own: Page) -> str:
    """The page of a rule in Markdown. It has no links, because not every package has the other pages."""
    parts = [f"# {name}: {own.title}", f"For engineers whose data got {name}. {TITLES[name[0]][2]}"]
    for head, text in own.parts.items():
        first, *items = with_items(head, text)
        parts.append(first.replace(f"{head}.", f"**{head}.**", 1))
        parts += ["\n".join(f"- {each}" for each in items)] if items else []
    return "\n\n".join(parts) + "\n"


def page(text: str, rules: Sequence[Rule] = links.RULES) -> str:
    """The document with the table of these rules."""
    made, count = re.subn(r"(?m)^\| Rule \|.*\n(\|.*\n)*", lambda _: table(rules), text)
    if count != 1:
        raise ValueError(f"{count} tables begin with | Rule |")
    return made


def table(rules: Sequence[Rule]) -> str:
    """A row for each rule."""
    heads = ["Rule", "It reports", "Usual cause", *(["Sure"] if SURE in rules[0].parts else [])]
    return "".join(f"| {' | '.join(row)} |\n" for row in (heads, ["---"] * len(heads), *map(cells, rules)))


def cells(rule: Rule) -> List[str]:
    """What a row has of the page of its rule."""
    said = [_first(rule.parts[head]) for head in ("What it says", "Usual cause")]
    sure = [f"{rule.parts[SURE].split(' %')[0]} %{_off(rule)}"] if SURE in rule.parts else []
    return [f"[{rule.name}: {rule.title}](rules/{rule.name}.md)", *said, *sure]


def _off(rule: Rule) -> str:
    """What of a rule is off until it is asked for."""
    if not rule.is_default:
        return "; off"
    return f"; off: {rule.optional_part}" if rule.optional_part else ""


def _first(text: str) -> str:
    """The first sentence, without the section of the standard."""
    sentence = re.split(r"(?<=\.) (?=[A-Z`])|\n", text)[0]
    return re.sub(r" \(SUBSET-[^)]*\)", "", sentence)


if __name__ == "__main__":
    for document, own in DOCUMENTS.items():
        document.write_text(page(document.read_text("utf-8"), own), "utf-8")
    for name, text in files():
        (DOCS / "rules" / name).write_text(text, "utf-8")

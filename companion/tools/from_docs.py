#!/usr/bin/env python3
"""Writes the texts that balisekit takes from docs/findings.md and docs/assurance/yes.md, as JSON files of the package.

    companion/tools/from_docs.py [--check] [--docs DOCS]

With --check nothing is written: each file that differs is named, and the exit status is 1 if there is one.
"""
from __future__ import annotations

import argparse
import json
import re
import sys
from pathlib import Path
from typing import Any, Callable, Dict, List, Optional, Tuple

TOP = Path(__file__).resolve().parents[2]
PACKAGE = TOP / "companion" / "src" / "balisekit"
PARTS = {
    "Why it matters": "matters",
    "Example": "example",
    "When it is a false alarm": "false_alarm",
    "Usual cause": "cause",
    "How to correct it": "remedy",
    "How to accept it": "acceptance",
}
"""The items about a finding, and their keys."""
YES = ("In plain words", "Premises", "What a yes does not cover", "Rules of our own")
"""The parts of the page on a yes that a report has."""
CORRECT_DATA = (
    "stop aspect",
    "one controlled balise",
    "pair controlled",
    "infill",
    "default group",
    "default aspect",
    "cover marker",
    "message",
    "earlier group",
)
"""The rows of the table of findings on correct data, in their order."""


def plain(text: str) -> str:
    """The text without the marks of links and emphasis. It says where the list of correct data is, as no link does."""
    text = text.replace("[correct data](#findings-on-correct-data)", "correct data in docs/findings.md")
    return re.sub(r"\[([^]]+)\]\([^)]+\)", r"\1", text).replace("*", "")


def section(page: str, heading: str, end: str) -> str:
    """The part of a page below a heading."""
    return page.split(f"\n{heading}\n", 1)[1].split(end, 1)[0]


def explanations(page: str) -> Dict[int, Dict[str, str]]:
    """What the page says of each finding, by its number: the sentence below the program's line, and the items."""
    rules: Dict[int, Dict[str, str]] = {}
    for text in re.split(r"^## ", page, flags=re.MULTILINE):
        heading = re.match(r"F(\d+): (.+)\n\n`F\1 .+`\n\n(.+)\n\n", text)
        if heading:
            items = dict(re.findall(r"^- \*\*([A-Z][a-z ]+)(?:: |\.\*\* )(.+)$", text, re.MULTILINE))
            parts = {key: plain(items[name][0].upper() + items[name][1:]) for name, key in PARTS.items()}
            rules[int(heading[1])] = {"name": heading[2], "says": plain(heading[3]), **parts}
    return rules


def premises(page: str) -> List[str]:
    """The paragraphs about what a yes means, rests on and does not cover."""
    lines = "\n".join(section(page, f"## {part}", "\n## ") for part in YES).split("\n")
    return [plain(line) for line in lines if line]


def correct_data(page: str) -> Dict[str, str]:
    """For each row of the table the data that is correct, and what to do."""
    lines = section(page, "## Findings on correct data", "\n## ").split("\n")
    rows = [line.strip("| ").split(" | ") for line in lines if line.startswith("| ")][1:]
    if len(rows) != len(CORRECT_DATA):
        raise SystemExit(f"the table of findings on correct data has {len(rows)} rows: from_docs.py has names of 9")
    return {name: f"{re.sub(r' [(].*[)]$', '', cells[0])}: {cells[3]}" for name, cells in zip(CORRECT_DATA, rows)}


FILES: Dict[str, Tuple[str, Callable[[str], Any]]] = {
    "present/findings.json": ("findings.md", explanations),
    "present/templates/premises.json": ("assurance/yes.md", premises),
    "rules/findings_on_correct_data.json": ("findings.md", correct_data),
}
"""Each file, its page, and what makes it of the page."""


def main(arguments: Optional[List[str]] = None) -> int:
    """Writes the files, or names those that differ."""
    parser = argparse.ArgumentParser(
        description="Texts of docs/findings.md and docs/assurance/yes.md as files of balisekit."
    )
    parser.add_argument("--check", action="store_true", help="only name the files that differ; status 1 if one does")
    parser.add_argument("--docs", type=Path, default=TOP / "docs", help="the folder of the pages")
    options = parser.parse_args(arguments)
    differing = 0
    for name, (page, make) in FILES.items():
        path, text = PACKAGE / name, (options.docs / page).read_text("utf-8")
        text = json.dumps(make(text), indent=1, ensure_ascii=False) + "\n"
        if not options.check:
            path.write_text(text, "utf-8")
        elif path.read_text("utf-8") != text:
            print(f"{name} is not that of {options.docs / page}: run companion/tools/from_docs.py")
            differing += 1
    return min(differing, 1)


if __name__ == "__main__":
    sys.exit(main())

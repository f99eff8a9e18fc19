"""The texts that the package has of docs/findings.md and docs/assurance/yes.md are those of the pages."""
from __future__ import annotations

import re
import shutil
import subprocess
import sys
from itertools import cycle
from pathlib import Path
from typing import Tuple

import pytest
from cases_of_program import TOP

from balisekit.present.explanations import explanations
from balisekit.present.pages import premises
from balisekit.rules.entries import URGENCIES
from balisekit.rules.findings_on_correct_data import reasons
from balisekit.rules.rule import Urgency

DOCS = TOP / "docs"


def checked(docs: Path) -> Tuple[int, str]:
    """The status and the lines of the tool that compares the files with these pages."""
    command = [sys.executable, str(TOP / "companion" / "tools" / "from_docs.py"), "--check", "--docs", str(docs)]
    run = subprocess.run(command, capture_output=True, text=True, check=False)
    return run.returncode, run.stdout + run.stderr


def test_the_package_has_the_texts_of_the_pages() -> None:
    assert checked(DOCS) == (0, "")
    assert len(explanations()) == 16 and len(reasons()) == 9
    blocks = [1, 4, 1, 9, 1, 6, 1, 2]
    assert [(is_list, len(block)) for is_list, block in premises()] == list(zip(cycle([False, True]), blocks))


@pytest.mark.parametrize(
    "page, heading, word, name",
    [
        ("findings.md", "## F3: ", "M_VERSION", "present/findings.json"),
        ("findings.md", "## F3: ", "wrong position", "present/findings.json"),
        ("findings.md", "## F3: ", "identities", "present/findings.json"),
        ("findings.md", "## F3: ", "another group", "present/findings.json"),
        ("findings.md", "## F3: ", "four values", "present/findings.json"),
        ("findings.md", "## Findings on correct data", "accept", "rules/findings_on_correct_data.json"),
        ("assurance/yes.md", "## In plain words", "train", "present/templates/premises.json"),
        ("assurance/yes.md", "## Premises", "balise", "present/templates/premises.json"),
        ("assurance/yes.md", "## What a yes does not cover", "linking", "present/templates/premises.json"),
        ("assurance/yes.md", "## Rules of our own", "profile", "present/templates/premises.json"),
    ],
)
def test_a_page_that_has_changed_is_noticed(page: str, heading: str, word: str, name: str, tmp_path: Path) -> None:
    """One word differs: the file that has it is named, and only that."""
    (tmp_path / "assurance").mkdir()
    for each in ("findings.md", "assurance/yes.md"):
        shutil.copy(DOCS / each, tmp_path / each)
    text = (DOCS / page).read_text("utf-8")
    begin = text.index(heading) + len(heading)
    changed, times = re.subn(word, "changed", text[begin:], count=1)
    (tmp_path / page).write_text(text[:begin] + changed, "utf-8")
    status, output = checked(tmp_path)
    wanted = f"{name} is not that of {tmp_path / page}: run companion/tools/from_docs.py\n"
    assert times == 1 and (status, output) == (1, wanted)


AT_WORST = {
    Urgency.WRONG_INFORMATION: (
        r"At worst the train (?:gets wrong information\b|uses an old profile\.|brakes too late\b|is too fast\b)"
    ),
    Urgency.WRONG_PLACE: r"At worst the train has a wrong position\.",
    Urgency.NOT_JUDGED: r"The program does not judge\b",
    Urgency.BRAKING: r"At worst the train brakes,",
}


def test_the_order_of_findings_is_by_what_the_page_says_of_the_worst() -> None:
    assert set(URGENCIES) == set(explanations())
    for rule, page in explanations().items():
        assert re.match(AT_WORST[URGENCIES[rule]], page["matters"]), rule

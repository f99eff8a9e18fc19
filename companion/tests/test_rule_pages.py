"""The pages of the rules: that they can be read, and that their examples and what is off by default are true."""
from __future__ import annotations

import inspect
import re
import sys
from pathlib import Path
from typing import Dict

import pytest
import rules_page
from cases_of_program import TOP
from meaning_mistakes_of_groups import MISTAKES_FOLDER

from balisekit.present.explanations import page_of, with_items
from balisekit.rules.accepted import RULES
from balisekit.rules.links import RULES as LINKS
from balisekit.rules.meaning import RULES as REMARKS
from balisekit.rules.rule import FALSE_ALARM, Rule, Urgency

sys.path.insert(0, str(TOP / "scripts"))
import readability  # type: ignore[import]  # noqa: E402  (the path comes first)

pytestmark = pytest.mark.uncovered
OWN, NAMES = list(RULES.values()), list(RULES)
LONGEST = 130
"""The lines of a rule's module after its page."""
NUMBER = re.compile(r"\d+(?:[.,]\d+)*")


def module(rule: Rule) -> str:
    """The source of the rule."""
    return Path(inspect.getfile(rule.find)).read_text("utf-8")


def stored_answers() -> Dict[str, str]:
    """What balisekit writes about the example of each rule, as other tests compare it."""
    said = (Path(__file__).parent / "links_said.txt").read_text("utf-8")
    lines = [line for path in [*MISTAKES_FOLDER.glob("*.txt")] for line in path.read_text("utf-8").splitlines()]
    lines += [*said.splitlines(), *(TOP / "examples" / "meaning" / "plan.txt").read_text("utf-8").splitlines()]
    return {rule.name: "\n".join(line for line in lines if f": {rule.name}: " in line) for rule in OWN}


@pytest.mark.parametrize("name", readability.of_rules())
def test_sentences(name: str) -> None:
    """Few sentences of a page are very short or long, in the pages of the program's findings too."""
    shares = readability.of_rules()[name]
    assert shares.is_readable, [each for each in shares.sentences if not 5 <= readability.words(each) <= 28]


def test_words() -> None:
    """Each word is English, or the glossary explains it."""
    if not all(path.exists() for path in readability.DICTIONARIES):
        pytest.skip("the words of pages (wamerican, wbritish)")
    paths = re.compile(r"\bexamples/\S+")
    every = readability.paragraphs_of_rules().items()
    found = {name: readability.unknown(paths.sub("", " ".join(parts))) for name, parts in every}
    assert {name: words for name, words in found.items() if words} == {}


@pytest.mark.parametrize("rule", OWN, ids=NAMES)
def test_modules(rule: Rule) -> None:
    """The code of a rule after its page is short."""
    assert len(module(rule).split('"""\n', 1)[1].splitlines()) < LONGEST


@pytest.mark.parametrize("rule", OWN, ids=NAMES)
def test_example(rule: Rule) -> None:
    """Its files exist, and each number before the correction is in what balisekit writes about them."""
    example = rule.parts["Example"]
    before, after = re.split(r"(?= After\b)", example)
    paths = [name for name in re.findall(r"`([^`]+)`", example) if not name.startswith("--")]
    assert paths and all((TOP / name).is_file() for name in paths) and "Before (`" in before and after
    told, answer = re.sub(r"`[^`]*`", "", before), stored_answers()[rule.name]
    wanted = {number.replace(",", "") for number in NUMBER.findall(told)}
    assert wanted and wanted <= set(NUMBER.findall(answer)), wanted - set(NUMBER.findall(answer))


def test_what_is_off_by_default() -> None:
    """A rule that asks for its own name says what it then also reports, in the page and in the table of remarks.md."""
    asking = {rule.name for rule in OWN if "asks_for(" in module(rule)}
    assert asking == {rule.name for rule in OWN if rule.optional_part}
    page = (TOP / "docs" / "remarks.md").read_text("utf-8")
    for rule in REMARKS:
        (row,) = re.findall(rf"^\| \[{rule.name}: .*$", page, re.MULTILINE)
        assert ("; off" in row) == (not rule.is_default or bool(rule.optional_part)), rule.name
        assert rule.optional_part in row and (f"`--rules {rule.name}`" in rule.page) >= bool(rule.optional_part)


def test_a_page_says_what_is_a_false_alarm() -> None:
    """In full sentences. Only rules that no correct data breaks begin with a denial."""
    assert {rule.name for rule in LINKS if not rule.has_correct_data} == {"L3", "L4", "L5", "L6", "L7"}
    assert {rule.name for rule in OWN if not rule.has_correct_data and rule not in LINKS} == {"E1", "E6"}
    assert not [rule.name for rule in OWN if re.search(r": not if\b|usual cases follow|Nor if\b", rule.page)]


def test_assumptions_are_a_list() -> None:
    """Each assumption of a rule that makes its remark a false alarm is an item of its own; no word is lost."""
    for rule in OWN:
        text = rule.parts[FALSE_ALARM]
        first, *items = with_items(FALSE_ALARM, text)
        assert " ".join([first, *items]) == f"{FALSE_ALARM}. {text}"
        assert len(items) == 0 or all(len(item.split()) > 8 for item in items)
    lines = [*page_of("E12")]
    at = lines.index(f"    {FALSE_ALARM}.")
    assert lines[at + 1].startswith("    - The rule assumes that all authorities to one group end at one place. ")


def test_conditions_are_a_list() -> None:
    """An item of a paragraph is a line of its own in each form of the page, and no paragraph or item is long."""
    item = "The L_SECTION of a section is 0."
    assert f"    - {item}" in page_of("E3") and f"\n\n- {item}\n- " in dict(rules_page.files())["E3.md"]
    parts = readability.paragraphs_of_rules()
    assert f"- {item}" in parts["E3"]
    own = {name: [*with_items(head, text)] for name, rule in RULES.items() for head, text in rule.parts.items()}
    assert all(len(part.split()) <= 90 for some in own.values() for part in some)


def test_each_rule_has_a_file() -> None:
    """Which is up to date and whose heading names the rule: `python3 companion/tests/rules_page.py` makes it."""
    folder = TOP / "docs" / "rules"
    made = dict(rules_page.files())
    assert {path.name: path.read_text("utf-8") for path in folder.iterdir()} == made
    assert [f"{name}.md" for name in readability.of_rules()] == [name for name in made if name != "README.md"]
    assert all(text.startswith(f"# {name[:-3]}: ") for name, text in made.items() if name != "README.md")


def test_the_order_of_urgencies_is_that_of_the_page() -> None:
    """docs/commands.md lists what comes first."""
    page = (TOP / "docs" / "commands.md").read_text("utf-8").split("most serious entries come first:\n\n")[1]
    said = page.split("\n\n")[0].splitlines()
    words = {
        Urgency.WRONG_INFORMATION: "wrong information",
        Urgency.WRONG_PLACE: "wrong position",
        Urgency.NOT_JUDGED: "not judged",
        Urgency.BRAKING: "may brake",
        Urgency.RULE_ONLY: "broken rule",
    }
    assert list(words) == sorted(Urgency)
    assert len(said) == len(words) and all(word in line for word, line in zip(words.values(), said))

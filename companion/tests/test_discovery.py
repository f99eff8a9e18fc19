"""A rule is found by the name of its module: to add one, nobody changes a list."""
from __future__ import annotations

from pathlib import Path

import pytest

from balisekit.rules import links, meaning, track_plan
from balisekit.rules.discovery import first_to_last, rules_of

SOURCE = '''"""{0}: a page."""
from balisekit.rules.rule import Rule

RULE = Rule("{0}", "rows", __doc__, lambda *_: None)
'''


def test_a_module_is_a_rule(tmp_path: Path, monkeypatch: pytest.MonkeyPatch) -> None:
    """In the order of the numbers. A module without a number has no rule."""
    folder = tmp_path / "company"
    folder.mkdir()
    (folder / "__init__.py").write_text("", "utf-8")
    for name in ("E2", "E10", *(f"E{number}" for number in (1, *range(3, 10)))):
        (folder / f"{name.lower()}_what.py").write_text(SOURCE.format(name), "utf-8")
    (folder / "words.py").write_text("RULE = None\n", "utf-8")
    monkeypatch.syspath_prepend(tmp_path)
    rules = rules_of("company", [str(folder)])
    assert [rule.name for rule in rules] == [f"E{number}" for number in range(1, 11)]
    assert first_to_last(rules) == "E1 to E10"
    (folder / "e6_what.py").unlink()
    with pytest.raises(ImportError, match="the file of the rule E6 is missing: install balisekit again"):
        rules_of("company", [str(folder)])


def test_each_family_has_all_its_modules() -> None:
    """Their numbers have no gap, so that the first and the last one name all."""
    for package, letter in ((links, "L"), (meaning, "E"), (track_plan, "X")):
        names = [rule.name for rule in package.RULES]
        assert names == [f"{letter}{number}" for number in range(1, len(names) + 1)]
        assert len(names) == len([*Path(package.__path__[0]).glob(f"{letter.lower()}[0-9]*_*.py")])

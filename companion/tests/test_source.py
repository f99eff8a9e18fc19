"""The sources are of Python 3.9, and no function is long."""
from __future__ import annotations

import ast
import re
import sys
from typing import List, Tuple

import pytest
from cases_of_program import TOP

pytestmark = pytest.mark.uncovered
SOURCES = sorted((TOP / "companion").rglob("*.py"))
LONGEST = 40
Named = List[Tuple[str, str]]
"""Names of files, and what is wrong in each."""


def parsed(text: str) -> ast.Module:
    """The source as Python 3.9 reads it, as far as a later Python can tell."""
    return ast.parse(text, feature_version=(3, 9))


def long_functions(tree: ast.Module) -> List[str]:
    """The functions of 40 lines or more."""
    functions = [node for node in ast.walk(tree) if isinstance(node, ast.FunctionDef)]
    return [node.name for node in functions if (node.end_lineno or 0) - node.lineno + 1 >= LONGEST]


def without_docstring(tree: ast.Module, has_public: bool) -> List[str]:
    """The module, and its public classes and functions, if they have no docstring."""
    lacks = [] if ast.get_docstring(tree) else ["the module"]
    found = [tree.body] if has_public else []
    while found:
        for node in found.pop():
            if isinstance(node, (ast.FunctionDef, ast.ClassDef)) and not node.name.startswith("_"):
                lacks += [] if ast.get_docstring(node) else [node.name]
                found += [node.body] if isinstance(node, ast.ClassDef) else []
    return lacks


def test_each_source() -> None:
    """Python 3.9 can read it, no function is long, and what is public has a docstring."""
    wrong: Named = []
    for path in SOURCES:
        tree = parsed(path.read_text("utf-8"))
        found = [*long_functions(tree), *without_docstring(tree, "src" in path.parts)]
        wrong += [(path.name, name) for name in found]
    assert len(SOURCES) > 200 and wrong == []


def test_what_is_wrong_is_found() -> None:
    """A word of Python 3.10, a long function, and what has no docstring."""
    if sys.version_info >= (3, 10):
        with pytest.raises(SyntaxError):
            parsed("match 1:\n    case 1:\n        pass\n")
    for lines, wrong in ((LONGEST - 1, []), (LONGEST, ["f"])):
        assert long_functions(parsed("def f():\n" + "    pass\n" * (lines - 1))) == wrong
    tree = parsed("class A:\n    def f(self):\n        pass\n    def _g(self):\n        pass\n")
    assert without_docstring(tree, True) == ["the module", "A", "f"] and len(without_docstring(tree, False)) == 1


def test_types_are_looked_at_as_of_python_3_9() -> None:
    """mypy takes the version from here, and the package asks for it."""
    text = (TOP / "companion" / "pyproject.toml").read_text("utf-8")
    assert 'python_version = "3.9"' in text and 'requires-python = ">=3.9"' in text


def test_each_package_that_is_installed_is_used() -> None:
    """Those of the dependencies and of the extras except `test`. openpyxl uses defusedxml if it is installed."""
    text = (TOP / "companion" / "pyproject.toml").read_text("utf-8").split("dependencies = ", 1)[1]
    lists = re.findall(
        r"^(?!test)[^#\[\n]*\[(.+)\]$", f"dependencies = {text.split('[project.scripts]')[0]}", re.MULTILINE
    )
    packages = {name for names in lists for name in re.findall(r'"([A-Za-z0-9_-]+)', names)} - {"defusedxml"}
    sources = "".join(path.read_text("utf-8") for path in SOURCES if "src" in path.parts)
    assert {"jinja2", "openpyxl"} <= packages and [name for name in packages if name not in sources] == []

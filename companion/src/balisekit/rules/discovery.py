"""Finds the rules of a family: each module `e24_what_is_wrong.py` in its folder has one, called RULE."""
from __future__ import annotations

import os
from importlib import import_module
from typing import Iterable, Sequence, Tuple

from balisekit.expressions import expression
from balisekit.rules.rule import Rule

BALISEKIT = expression("[FLEX][1-9][0-9]*")
"""The name of a rule of the program or of balisekit."""
ADDED = "U"
"""The family of the rules that users add."""
ADDED_NAME = "(?![FLEX]-?[0-9])[A-Z]{1,12}-?[1-9][0-9]{0,3}"
"""An expression for the name of an added rule."""
MODULE = expression(r"[a-z]([1-9][0-9]*)_")
"""How the name of a module with a rule begins: the letter of its family, and its number."""


def rules_of(package: str, folders: Iterable[str]) -> Tuple[Rule, ...]:
    """The rules in the modules of a package, in the order of their numbers. ImportError is raised if one is missing."""
    numbers = {name: int(found[1]) for name in modules_in(folders) for found in [MODULE.match(name)] if found}
    rules = tuple(import_module(f"{package}.{name}").RULE for name in sorted(numbers, key=numbers.__getitem__))
    for number, rule in enumerate(rules, 1):
        if rule.name[1:] != str(number):
            raise ImportError(f"the file of the rule {rule.name[0]}{number} is missing: install balisekit again")
    return rules


def modules_in(folders: Iterable[str]) -> Sequence[str]:
    """The modules in these folders by their names. (The import of what `pkgutil` needs would take long.)"""
    files = (os.path.splitext(file) for folder in folders for file in os.listdir(folder))
    return sorted({name for name, end in files if end in (".py", ".pyc") and name != "__init__"})


def letter_of(rule: str) -> str:
    """The letter of the family of a rule, by its name."""
    return rule[0] if BALISEKIT.fullmatch(rule) else ADDED


def first_to_last(rules: Sequence[Rule]) -> str:
    """The rules of a family in words: `E1 to E23`."""
    return f"{rules[0].name} to {rules[-1].name}"

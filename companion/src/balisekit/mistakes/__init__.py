"""The catalogue of mistakes that a certificate makes in a line: each module of the folders below is one kind.

To add a kind, write a module in the folder of what it changes. Its docstring is its page: a first line that names it,
then the paragraphs `In real life`, `Here` (how it is made) and `For a train` (what it could do). `MISTAKE` has the
function that makes it. Nothing else names the module.
"""
from __future__ import annotations

from functools import lru_cache
from importlib import import_module
from pkgutil import iter_modules
from typing import Tuple

from balisekit.mistakes.mistake import Mistake

FOLDERS = ("fields", "packets", "telegrams", "messages", "tables")
"""In the order of a certificate."""


@lru_cache(maxsize=None)
def catalogue() -> Tuple[Mistake, ...]:
    """All kinds of mistakes, by folder and then by name."""
    packages = [import_module(f"{__name__}.{folder}") for folder in FOLDERS]
    modules = [(package, module.name) for package in packages for module in iter_modules(package.__path__)]
    found = [import_module(f"{package.__name__}.{name}") for package, name in modules if not name.startswith("of_")]
    return tuple(module.MISTAKE for module in found)

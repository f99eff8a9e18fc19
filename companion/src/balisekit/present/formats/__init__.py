"""The files that `check` writes of its answer: each module of this folder has one format, called FORMAT.

A format is found by its module: option, help and checks of `check` know it then. All of these modules are imported at
each start, so a module imports what writes its file when it writes.
"""
from __future__ import annotations

from importlib import import_module
from typing import Callable, NamedTuple

from balisekit.io.outputs import Output
from balisekit.rules.discovery import modules_in
from balisekit.rules.families import Outcome


class Format(NamedTuple):
    """A file that `check` can write."""

    name: str
    """The option `--name`."""
    help: str
    write: Callable[[Output, Outcome], None]
    always_new: bool = False
    """Whether it replaces no file, even with --force."""
    lacking: str = ""
    """A note on the file if something was refused or left out."""


FORMATS = tuple(import_module(f"{__name__}.{name}").FORMAT for name in modules_in(__path__))
"""In the order of their names."""

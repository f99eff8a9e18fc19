"""A table of balise telegrams in, what balisecheck says of it out, by names, kilometres and units.

balisekit is not proved. Every verdict, finding and refusal is the program's, and is quoted in full. Every value that is
shown is a number of the program's JSON. What balisekit works out itself are names, places and units.

The names of `__all__` are the public interface. Whatever cannot be answered is raised as a KitError.
"""
from __future__ import annotations

TYPE_CHECKING = False  # (that of typing would make the start slower)
if TYPE_CHECKING:
    from balisekit.api import Difference, Finding, Result, check, diff, read_messages, read_table
    from balisekit.engine.library import Call, Library
    from balisekit.engine.program import Program
    from balisekit.errors import KitError
    from balisekit.rules.added import (
        AddedRemark,
        AddedRule,
        Answer,
        GroupView,
        LineView,
        MessageView,
        PacketView,
        TelegramView,
    )
    from balisekit.tables.model import Messages, Table

__version__ = "0.5.16"
__all__ = [
    "AddedRemark",
    "AddedRule",
    "Answer",
    "Call",
    "Difference",
    "Finding",
    "GroupView",
    "KitError",
    "Library",
    "LineView",
    "MessageView",
    "Messages",
    "PacketView",
    "Program",
    "Result",
    "Table",
    "TelegramView",
    "check",
    "diff",
    "read_messages",
    "read_table",
]
_HOMES = {
    "api": ("Difference", "Finding", "Result", "check", "diff", "read_messages", "read_table"),
    "engine.library": ("Call", "Library"),
    "engine.program": ("Program",),
    "errors": ("KitError",),
    "tables.model": ("Messages", "Table"),
}
"""The modules of names, which are imported when they are asked for. The other names are those of added rules."""


def __getattr__(name: str) -> object:
    if name not in __all__:
        raise AttributeError(f"module 'balisekit' has no attribute {name!r}")
    from importlib import import_module

    home = next((home for home, names in _HOMES.items() if name in names), "rules.added")
    return getattr(import_module(f"balisekit.{home}"), name)


def __dir__() -> list[str]:
    return sorted({*globals(), *__all__})

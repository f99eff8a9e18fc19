"""Regular expressions that are compiled when they are first used: no command uses all those of its modules."""
from __future__ import annotations

import re
from typing import Any, AnyStr, Pattern, cast


class _Expression:
    """An expression, with the methods of a compiled one that were asked for."""

    def __init__(self, text: Any, flags: int) -> None:
        self._text, self._flags = text, flags

    def __getattr__(self, name: str) -> Any:
        found = getattr(re.compile(self._text, self._flags), name)
        setattr(self, name, found)
        return found


def expression(text: AnyStr, flags: int = 0) -> Pattern[AnyStr]:
    """The expression of a text, as `re.compile` has it."""
    return cast(Pattern[AnyStr], _Expression(text, flags))

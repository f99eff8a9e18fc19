"""What a kind of mistakes is: its page, and the function that makes it in a line."""
from __future__ import annotations

from dataclasses import dataclass
from random import Random
from typing import TYPE_CHECKING, Any, Callable, Dict, FrozenSet, Iterator, Mapping, NamedTuple

from balisekit.engine.records import Form

if TYPE_CHECKING:
    from balisekit.mistakes.original import Original


class Change(NamedTuple):
    """One mistake, as it is made in a line."""

    words: str
    """What differs from the line: `row 23: packet 12 V_MAIN 30 instead of 24`."""
    rows: FrozenSet[int]
    """The rows that an engineer would have to correct. A negative number is the line of a message."""
    field: str = ""
    """The variable that it is about, by packet and name: `packet 12 V_MAIN`. Empty if it is about more than one."""
    forms: Mapping[int, Form] = {}
    """The telegrams that differ by row, and the messages that differ by their lines as negative numbers."""
    texts: Mapping[int, str] = {}
    """The digits of telegrams that differ as digits, by row."""
    cells: Mapping[int, Mapping[str, Any]] = {}
    """The other cells that differ: by row, and by the name of the column."""
    lost: FrozenSet[int] = frozenset()
    """The rows and messages that are gone. The others keep their numbers, as if these were emptied."""
    legal: str = ""
    """Why the changed line is as right as the line was. Such a change is counted apart. Mostly empty."""


@dataclass(frozen=True, eq=False)
class Mistake:
    """A kind of mistakes."""

    name: str
    """The name of its module in words: `one unit more`."""
    folder: str
    """What it changes: `fields`, `packets`, `telegrams`, `messages` or `tables`."""
    page: str
    make: Callable[[Original, Random, int], Iterator[Change]]
    """Makes it at random places of a line. The number is how often at most, or how often in each field."""

    @classmethod
    def of(cls, module: str, page: str | None, make: Callable[[Original, Random, int], Iterator[Change]]) -> Mistake:
        """The mistake of a module, by `__name__` and `__doc__`."""
        *_, folder, name = module.split(".")
        return cls(name.replace("_", " "), folder, page or "", make)

    @property
    def title(self) -> str:
        """What goes wrong, in one line."""
        return self.page.split("\n", 1)[0].rstrip(".")

    @property
    def parts(self) -> Dict[str, str]:
        """The paragraphs of the page after the first line, by their first words: `In real life`, `For a train`."""
        paragraphs = [" ".join(each.split()) for each in self.page.split("\n\n")[1:]]
        return {head: text for head, _, text in (each.partition(". ") for each in paragraphs)}

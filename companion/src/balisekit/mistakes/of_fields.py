"""What the mistakes in single variables have in common."""
from __future__ import annotations

from random import Random
from functools import partial
from typing import Callable, Iterable, Iterator, Optional

from balisekit.mistakes.mistake import Change, Mistake
from balisekit.mistakes.original import Original, Value, named, with_number

Numbers = Callable[[Original, Value], Iterable[Optional[int]]]
"""The wrong numbers that a mistake may give to a variable, in the order in which they are tried. None is skipped."""
TRIED = 20
"""After this many places of a variable at which a mistake is not possible, it is not tried at others."""


def mistake_of(module: str, page: Optional[str], numbers: Numbers) -> Mistake:
    """The mistake of a module that gives other numbers to single variables."""
    return Mistake.of(module, page, partial(of_each_field, numbers=numbers))


def of_each_field(original: Original, random: Random, most: int, numbers: Numbers) -> Iterator[Change]:
    """Changes each variable of the line at `most` random places."""
    for label in sorted(original.values):
        places = original.values[label]
        made = 0
        for place in random.sample(range(len(places)), min(len(places), TRIED + most)):
            value = places[place]
            wrong = next(
                (each for each in numbers(original, value) if each is not None and is_possible(value, each)), None
            )
            if wrong is not None:
                made += 1
                yield changed(original, value, wrong)
            if made == most:
                break


def is_possible(value: Value, number: int) -> bool:
    """Whether the variable may have this number, and has another one."""
    return number != value.number and value.allows(number)


def changed(original: Original, value: Value, number: int) -> Change:
    """The change of one number."""
    words = f"{named(value.row)}: {value.label} {number} instead of {value.number}"
    form = with_number(original.forms[value.row], value, number)
    return Change(words, frozenset({value.row}), value.label, {value.row: form})

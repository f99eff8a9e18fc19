"""What the mistakes with telegrams, aspects, groups and rows of the table have in common."""
from __future__ import annotations

from decimal import Decimal
from functools import partial
from random import Random
from typing import Callable, Dict, Iterable, Iterator, List, Optional, Sequence, Tuple, TypeVar, cast

from balisekit.engine.records import Form
from balisekit.mistakes.mistake import Change, Mistake
from balisekit.mistakes.original import Original
from balisekit.tables.model import Aspect, Group, Row

Thing = TypeVar("Thing")
Neighbours = Tuple[Group, Group]
"""A group, and the one that follows it in the table."""


def mistake_of(
    module: str,
    page: Optional[str],
    things: Callable[[Original], Sequence[Thing]],
    make: Callable[[Original, Thing], Optional[Change]],
) -> Mistake:
    """The mistake of a module that is made with random ones of these things of the line.

    None: it is not possible with a thing.
    """
    return Mistake.of(module, page, partial(_of_some, things=things, alter=make))


def _of_some(
    original: Original,
    random: Random,
    most: int,
    things: Callable[[Original], Sequence[Thing]],
    alter: Callable[[Original, Thing], Optional[Change]],
) -> Iterator[Change]:
    made, some = 0, things(original)
    for thing in random.sample(some, len(some)):
        change = alter(original, thing)
        if change is not None and not _changes_nothing(original, change):
            made += 1
            yield change
        if made == most:
            return


def _changes_nothing(original: Original, change: Change) -> bool:
    """Whether all is as it was."""
    same = all(original.forms[row] == form for row, form in change.forms.items())
    cells = any(
        getattr(original.rows[row], name) != value for row, own in change.cells.items() for name, value in own.items()
    )
    return same and not (cells or change.lost or change.texts)


def rows_of(original: Original) -> Sequence[Row]:
    """All rows."""
    return list(original.rows.values())


def messages_of(original: Original) -> Sequence[int]:
    """All messages, each by its line as a negative number."""
    return list(original.messages)


def groups_of(original: Original) -> Sequence[Group]:
    """All groups."""
    return original.groups


def neighbours_of(original: Original) -> Sequence[Neighbours]:
    """Each group with the one that follows it in the table."""
    return list(zip(original.groups, original.groups[1:]))


def aspects_of(original: Original) -> Sequence[Tuple[Group, Aspect]]:
    """Each aspect with its group."""
    return [(group, aspect) for group in original.groups for aspect in group.aspects]


def pairs_of_aspects(original: Original) -> Sequence[Tuple[Group, Aspect, Aspect]]:
    """Each two aspects of a group, one after the other, with the group."""
    return [
        (group, *pair)
        for group in original.groups
        for pair in zip(group.aspects, (*group.aspects[1:], group.aspects[0]))
        if len(group.aspects) > 1
    ]


def own_rows(aspect: Aspect) -> List[Row]:
    """The rows that only this aspect has."""
    return [row for row in aspect.rows if row.aspect == aspect.name]


def of_forms(words: str, forms: Dict[int, Form], legal: str = "") -> Optional[Change]:
    """The change of some telegrams. None if there are none."""
    return Change(words, frozenset(forms), forms=forms, legal=legal) if forms else None


def with_header(form: Form, **values: int) -> Form:
    """A telegram with other values in its header."""
    return cast(Form, {**form, **values})


def of_headers(original: Original, words: str, rows: Iterable[Row], **values: int) -> Optional[Change]:
    """The change of the same values in the headers of some telegrams."""
    return of_forms(words, {row.number: with_header(original.forms[row.number], **values) for row in rows})


def named(group: Group) -> str:
    """A group in words."""
    return f'group "{group.name}"'


def named_aspect(group: Group, aspect: Aspect) -> str:
    """An aspect in words."""
    return f'aspect "{aspect.name}" of {named(group)}' if aspect.name else named(group)


def kilometre_of(group: Group) -> Optional[Decimal]:
    """The first kilometre of a group."""
    return next((row.km for row in group.each_row if row.km is not None), None)


def without(original: Original, group: Group) -> Optional[Change]:
    """The table without a group. The rows to correct are those of its neighbours."""
    lost = frozenset(row.number for row in group.each_row)
    place = original.groups.index(group)
    beside = [*original.groups[max(place - 1, 0) : place], *original.groups[place + 1 : place + 2]]
    others = frozenset(row.number for each in beside for row in each.each_row)
    return Change(f"{named(group)} is missing", others, lost=lost) if others else None


def moved(group: Group, kilometres: Decimal) -> Change:
    """The change of all kilometres of a group by so much."""
    cells = {row.number: {"km": row.km + kilometres} for row in group.each_row if row.km is not None}
    return Change(f"{named(group)} is moved by {1000 * kilometres:.0f} m", frozenset(cells), cells=cells)

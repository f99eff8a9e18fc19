"""Rows, groups and messages by the words of the table, and names that are safe to show."""
from __future__ import annotations

from decimal import Decimal
from typing import Iterable, List, Optional, Sequence, Tuple
from unicodedata import category

from balisekit.expressions import expression
from balisekit.tables.model import Group, Message, Row, Table

NAMED = 20
"""The most columns that are passed over, rows or aspects of one kind that are named."""
ORDINALS = ("first", "second", "third", "fourth", "fifth", "sixth", "seventh", "eighth", "ninth", "tenth")
BLANK = expression("[\u034f\u115f\u1160\u17b4\u17b5\u180b-\u180f\u2800\u3164\ufe00-\ufe0f\uffa0\U000e0100-\U000e01ef]")
"""Letters and marks that are invisible."""


def ordinal(place: int) -> str:
    """Which one it is, by its place counted from 0: "first", "eleventh" as "11th"."""
    return ORDINALS[place] if place < len(ORDINALS) else short_ordinal(place)


def short_ordinal(place: int) -> str:
    """The same in digits: "1st", "11th"."""
    ending = "th" if (place + 1) // 10 % 10 == 1 else {1: "st", 2: "nd", 3: "rd"}.get((place + 1) % 10, "th")
    return f"{place + 1}{ending}"


def counted(count: int, what: str, several: str = "") -> str:
    """How many things of a kind: "1 group", "2 groups". `several` is a plural of another form."""
    return f"{count} {what if count == 1 else several or f'{what}s'}"


def rows_words(numbers: Iterable[int]) -> str:
    """Rows by their numbers: "row 5", "rows 2 to 5", "rows 3, 5 and 7 to 9"."""
    known, runs = sorted(set(numbers)), []  # type: List[int], List[List[int]]
    if len(known) == 1:
        return f"row {known[0]}"
    for number in known:
        if runs and runs[-1][-1] == number - 1:
            runs[-1].append(number)
        else:
            runs.append([number])
    texts = [str(run[0]) if len(run) == 1 else f"{run[0]} to {run[-1]}" for run in runs]
    named = (
        listed(texts, NAMED)
        if len(texts) > NAMED
        else " and ".join([*([", ".join(texts[:-1])] * (len(texts) > 1)), *texts[-1:]])
    )
    return f"rows {named}"


def clean(text: str) -> str:
    """The text with escapes for characters that show nothing, move a cursor or turn the direction of writing."""
    if text.isprintable() and (text.isascii() or not BLANK.search(text)):
        return text
    return "".join(map(_shown, text))


def _shown(character: str) -> str:
    """The character, or an escape for it. A blank of any width is shown as it is."""
    visible = character.isprintable() or category(character) == "Zs"
    return character if visible and not BLANK.match(character) else ascii(character)[1:-1]


def quoted(text: str) -> str:
    """A name in quotes."""
    return f'"{clean(text)}"'


def passed_over(table: Table) -> List[str]:
    """A line on the columns that are not used, if there are any: the first ones, and those that look mistyped."""
    pairs = list(zip(table.passed_over, table.meant))
    mistyped = [pair for pair in pairs[NAMED:] if pair[1]]
    names = [
        clean(name) + (f" (did you mean {quoted(meant)}?)" if meant else "")
        for name, meant in [*pairs[:NAMED], *mistyped[:NAMED]]
    ]
    return [f"columns passed over: {listed(names, len(names), len(table.passed_over))}"] if names else []


def notes_on(table: Table) -> List[str]:
    """How the table was read: a line on the columns that are not used, and its notes."""
    return [*passed_over(table), *(f"note: {clean(note)}" for note in table.notes)]


def kilometre(km: Decimal) -> str:
    """A kilometre with three digits after the point, and more if it has more."""
    text = f"{km:.3f}"
    if Decimal(text) == km:  # (as most are: it takes a third of the time)
        return text
    return f"{km:.{max(3, -int(km.normalize().as_tuple().exponent))}f}"


def balise_name(name: str, n_pig: Optional[int], place: int = 0, number: Optional[int] = None) -> str:
    """What a balise is called: its name, and N_PIG, or its place in the group if its telegram has not been read.

    `number` is that of the column `balise`, if it is another one than its place, counted from 0.
    """
    which = f"{ordinal(place)} of its group" if n_pig is None else f"N_PIG {n_pig}"
    other = "" if number is None else f", number {number} in the table"
    return f"{f'{quoted(name)} ' if name else ''}({which}{other})"


def describe_balise(group: Optional[Group], row: Row, n_pig: Optional[int] = None, below: Optional[str] = None) -> str:
    """Where a row's balise is: row, group, kilometre, track, aspect and name. `n_pig` is N_PIG of its telegram.

    `below` is the track of a heading that also has the group. Neither is repeated below it.
    """
    place = group.places.get(row.number) if group else None
    parts = [f"row {row.number}", *([clean(row.group)] if below is None else [])]
    parts += _where(row._replace(track="") if row.track == below else row)
    parts += ["every aspect"] if row.aspect == "*" else [f"aspect {quoted(row.aspect)}"] if row.aspect else []
    if place is not None:
        number = None if row.balise == place else row.balise
        parts.append(f"balise {balise_name(row.name, n_pig, place, number)}")
    return "  ".join(parts)


def describe_group(group: Group, aspect: Optional[str] = None) -> str:
    """Where a group is: rows, name, kilometre and track, and which aspect is meant."""
    parts = [describe_rows(group, aspect), clean(group.name), *_where(group.aspects[0].rows[0])]
    return "  ".join([*parts, *([f"aspect {quoted(aspect)}"] if aspect else [])])


def group_words(group: Group) -> str:
    """A group in a sentence: its name, and its kilometre."""
    km = group.aspects[0].rows[0].km
    return f"{clean(group.name)}{'' if km is None else f' (km {kilometre(km)})'}"


def describe_rows(group: Group, aspect: Optional[str] = None) -> str:
    """The rows of a group, or those of an aspect. Rows of other groups or aspects may be between them."""
    rows = [row for one in group.aspects if aspect in (None, one.name) for row in one.rows]
    numbers = sorted({row.number for row in rows})
    if len(numbers) == 1:
        return f"row {numbers[0]}"
    if numbers[-1] - numbers[0] + 1 == len(numbers):
        return f"rows {numbers[0]} to {numbers[-1]}"
    return f"rows {listed(list(map(str, numbers)), NAMED)}"


def describe_identity(identity: Tuple[int, int]) -> str:
    """A group by its NID_C and NID_BG."""
    return f"group {identity[1]} of country or region {identity[0]}"


def listed(names: Sequence[str], most: int, count: Optional[int] = None) -> str:
    """The first of these names, and how many more there are. `count` includes those that are not in `names`."""
    more = (len(names) if count is None else count) - most
    return ", ".join(names[:most]) + (f" and {more} more" if more > 0 else "")


def describe_message(message: Message) -> str:
    """Which message it is: its line, and its name."""
    return "  ".join([f"line {message.number}", *([clean(message.name)] if message.name else [])])


def _where(row: Row) -> List[str]:
    parts = [] if row.km is None else [f"km {kilometre(row.km)}"]
    return parts + ([f"track {clean(row.track)}"] if row.track else [])

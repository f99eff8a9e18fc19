"""Two aspects of a group have each other's names.

In real life. The headings of two columns were exchanged before the table was made.

Here. The rows of two aspects of a group have each other's name in the column aspect.

For a train. It gets the telegrams of the other aspect.
"""
from __future__ import annotations

from typing import Optional, Tuple

from balisekit.mistakes.mistake import Change
from balisekit.mistakes.of_rows import mistake_of, named, own_rows, pairs_of_aspects
from balisekit.mistakes.original import Original
from balisekit.tables.model import Aspect, Group


def altered(original: Original, thing: Tuple[Group, Aspect, Aspect]) -> Optional[Change]:
    """Two aspects with exchanged names."""
    group, one, two = thing
    cells = {row.number: {"aspect": two.name} for row in own_rows(one)}
    cells.update({row.number: {"aspect": one.name} for row in own_rows(two)})
    words = f'{named(group)}: aspects "{one.name}" and "{two.name}" have each other\'s names'
    return Change(words, frozenset(cells), cells=cells)


MISTAKE = mistake_of(__name__, __doc__, pairs_of_aspects, altered)

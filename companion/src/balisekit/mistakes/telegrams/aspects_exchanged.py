"""Two aspects of a signal are exchanged.

In real life. The wiring table of the lineside electronic unit was filled in with two aspects the wrong way round.

Here. All balises of a group have the telegrams of one aspect in another one, and the reverse.

For a train. At the restrictive aspect it gets the authority of the permissive one.
"""
from __future__ import annotations

from typing import Optional, Tuple

from balisekit.mistakes.mistake import Change
from balisekit.mistakes.of_rows import mistake_of, named, of_forms, pairs_of_aspects
from balisekit.mistakes.original import Original
from balisekit.tables.model import Aspect, Group


def altered(original: Original, thing: Tuple[Group, Aspect, Aspect]) -> Optional[Change]:
    """All telegrams of two aspects exchanged."""
    group, first, second = thing
    pairs = [(one.number, two.number) for one, two in zip(first.rows, second.rows) if one.number != two.number]
    forms = {row: original.forms[other] for pair in pairs for row, other in (pair, pair[::-1])}
    return of_forms(f'{named(group)}: aspects "{first.name}" and "{second.name}" are exchanged', forms)


MISTAKE = mistake_of(__name__, __doc__, pairs_of_aspects, altered)

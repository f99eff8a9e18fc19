"""A balise has the telegrams of two aspects exchanged.

In real life. Two files of telegrams for the lineside electronic unit were given each other's names.

Here. One balise has the telegram of one aspect in another one, and the reverse. The other balises stay.

For a train. The balises of the group contradict each other, or a restrictive aspect gets a longer authority.
"""
from __future__ import annotations

from typing import Optional, Tuple

from balisekit.mistakes.mistake import Change
from balisekit.mistakes.of_rows import mistake_of, of_forms, pairs_of_aspects
from balisekit.mistakes.original import Original
from balisekit.tables.model import Aspect, Group


def altered(original: Original, thing: Tuple[Group, Aspect, Aspect]) -> Optional[Change]:
    """The telegrams of the last balise exchanged between two aspects."""
    group, *aspects = thing
    one, two = (aspect.rows[-1].number for aspect in aspects)
    forms = {one: original.forms[two], two: original.forms[one]}
    return of_forms(f"rows {one} and {two} have the telegrams of each other's aspect", forms) if one != two else None


MISTAKE = mistake_of(__name__, __doc__, pairs_of_aspects, altered)

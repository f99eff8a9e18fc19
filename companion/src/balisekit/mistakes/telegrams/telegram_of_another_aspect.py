"""A telegram is a copy of that of another aspect.

In real life. A file was copied as a beginning, and was never edited.

Here. One balise has the same telegram in two aspects, counter and all.

For a train. It may assemble a message from two aspects, or gets the authority of another one.
"""
from __future__ import annotations

from typing import Optional, Tuple

from balisekit.mistakes.mistake import Change
from balisekit.mistakes.of_rows import mistake_of, of_forms, pairs_of_aspects
from balisekit.mistakes.original import Original
from balisekit.tables.model import Aspect, Group


def altered(original: Original, thing: Tuple[Group, Aspect, Aspect]) -> Optional[Change]:
    """The telegram of the last balise as in another aspect."""
    group, aspect, other = thing
    one, two = aspect.rows[-1].number, other.rows[-1].number
    return of_forms(f"row {one} has the telegram of row {two}", {one: original.forms[two]}) if one != two else None


MISTAKE = mistake_of(__name__, __doc__, pairs_of_aspects, altered)

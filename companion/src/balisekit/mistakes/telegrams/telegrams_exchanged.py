"""Two balises of a group have each other's telegrams.

In real life. The rows of an export were sorted by another column, or two balises were programmed the wrong way round.

Here. The first two balises of an aspect exchange their telegrams, header and all.

For a train. N_PIG contradicts the order of the balises, so the train takes itself to be running in reverse.
"""
from __future__ import annotations

from typing import Optional, Tuple

from balisekit.mistakes.mistake import Change
from balisekit.mistakes.of_rows import aspects_of, mistake_of, of_forms
from balisekit.mistakes.original import Original
from balisekit.tables.model import Aspect, Group


def altered(original: Original, thing: Tuple[Group, Aspect]) -> Optional[Change]:
    """The first two telegrams of an aspect exchanged."""
    one, two, *_ = [row.number for row in thing[1].rows] + [0, 0]
    if not two:
        return None
    forms = {one: original.forms[two], two: original.forms[one]}
    return of_forms(f"rows {one} and {two} have each other's telegrams", forms)


MISTAKE = mistake_of(__name__, __doc__, aspects_of, altered)

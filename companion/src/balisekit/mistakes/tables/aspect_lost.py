"""An aspect of a group is missing.

In real life. The rows of one aspect were filtered out, or the aspect was never exported.

Here. All rows of one aspect of a group are taken out of the table.

For a train. The aspect is not checked, and may be programmed from an older release.
"""
from __future__ import annotations

from typing import Optional, Tuple

from balisekit.mistakes.mistake import Change
from balisekit.mistakes.of_rows import aspects_of, mistake_of, named_aspect, own_rows
from balisekit.mistakes.original import Original
from balisekit.tables.model import Aspect, Group


def altered(original: Original, thing: Tuple[Group, Aspect]) -> Optional[Change]:
    """The table without an aspect. The rows to correct are those of the other aspects."""
    group, aspect = thing
    lost = frozenset(row.number for row in own_rows(aspect))
    others = frozenset(row.number for row in group.each_row) - lost
    return Change(f"{named_aspect(*thing)} is missing", others, lost=lost) if others and lost else None


MISTAKE = mistake_of(__name__, __doc__, aspects_of, altered)

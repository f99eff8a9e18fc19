"""A group is some metres beside the place for which its telegrams were made.

In real life. A group was mounted 20 m further on because of a bridge. The table was corrected, and the telegrams were
not.

Here. The kilometres of a group are greater by 20 m, in all its rows.

For a train. Each distance in the telegrams of the group is wrong by 20 m, and so are the links to it.
"""
from __future__ import annotations

from decimal import Decimal
from typing import Optional

from balisekit.mistakes.mistake import Change
from balisekit.mistakes.of_rows import groups_of, mistake_of, moved
from balisekit.mistakes.original import Original
from balisekit.tables.model import Group


def altered(original: Original, group: Group) -> Optional[Change]:
    """A group 20 m further on."""
    return moved(group, Decimal("0.02"))


MISTAKE = mistake_of(__name__, __doc__, groups_of, altered)

"""The name of an aspect is typed wrongly.

In real life. "yellow" was typed as "yelow" in the rows of one signal.

Here. The name of one aspect of a group lacks its last letter.

For a train. Nothing, if the telegrams are right. But nobody compares the aspect with its namesakes.
"""
from __future__ import annotations

from typing import Optional, Tuple

from balisekit.mistakes.mistake import Change
from balisekit.mistakes.of_rows import aspects_of, mistake_of, named_aspect, own_rows
from balisekit.mistakes.original import Original
from balisekit.tables.model import Aspect, Group


def altered(original: Original, thing: Tuple[Group, Aspect]) -> Optional[Change]:
    """An aspect whose name is too short."""
    name = thing[1].name[:-1]
    cells = {row.number: {"aspect": name} for row in own_rows(thing[1])}
    return Change(f'{named_aspect(*thing)} is called "{name}"', frozenset(cells), cells=cells) if name else None


MISTAKE = mistake_of(__name__, __doc__, aspects_of, altered)

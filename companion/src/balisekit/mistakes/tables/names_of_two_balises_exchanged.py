"""Two balises of a group have each other's names.

In real life. The column of names was sorted by itself.

Here. The names of the first two balises of a group change places in all its rows.

For a train. If balises are programmed by name, each gets the telegram of the other.
"""
from __future__ import annotations

from typing import Optional

from balisekit.mistakes.mistake import Change
from balisekit.mistakes.of_rows import groups_of, mistake_of, named
from balisekit.mistakes.original import Original
from balisekit.tables.model import Group


def altered(original: Original, group: Group) -> Optional[Change]:
    """A group with two names exchanged."""
    one, two, *_ = [*dict.fromkeys(row.name for row in group.each_row), "", ""]
    if not (one and two):
        return None
    turned = {one: two, two: one}
    cells = {row.number: {"name": turned[row.name]} for row in group.each_row if row.name in turned}
    return Change(f'{named(group)}: "{one}" and "{two}" are exchanged', frozenset(cells), cells=cells)


MISTAKE = mistake_of(__name__, __doc__, groups_of, altered)

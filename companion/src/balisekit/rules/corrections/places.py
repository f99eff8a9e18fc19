"""Where a mistake is, if nobody knows what would be right: an aspect, a telegram or a group."""
from __future__ import annotations

from typing import Dict, Iterator, List, Tuple

from balisekit.rules.corrections.correction import Correction, Evidence, with_values
from balisekit.rules.corrections.packets import group_of, named
from balisekit.tables.grouping import EVERY
from balisekit.tables.model import Group
from balisekit.tables.names import clean, quoted


def suggest(evidence: Evidence) -> Iterator[Correction]:
    """Each aspect of the groups that most entries are about, then single telegrams, then all telegrams of a group."""
    groups = evidence.most_named()
    for group in groups:
        yield from _aspects(evidence, group)
    for row, count in named(evidence).items():
        yield from [without_packets(evidence, (row,), "the packets of the telegram")] if count > 1 else ()
    for group in groups:
        rows = tuple(sorted(row.number for row in group.each_row))
        yield without_packets(evidence, rows, f"the packets of {clean(group.name)}")


def _aspects(evidence: Evidence, group: Group) -> Iterator[Correction]:
    """The group without one of its aspects, which must leave at least one."""
    names: Dict[str, List[int]] = {}
    for row in group.each_row:
        if row.aspect not in ("", EVERY):
            names.setdefault(row.aspect, []).append(row.number)
    about = {row for entry in evidence.entries for row in evidence.named(entry)}
    for name, rows in names.items() if len(names) > 1 else ():
        if about.intersection(rows):
            own = tuple(sorted(rows))
            yield Correction(group, own, f"the aspect {quoted(name)}", lost=own, is_only_place=True)


def without_packets(evidence: Evidence, rows: Tuple[int, ...], words: str) -> Correction:
    """These telegrams without packets, with the identity that most telegrams of their group have."""
    forms = {row: with_values(evidence.forms[row], packets=[], **evidence.identity(row)) for row in rows}
    return Correction(group_of(evidence, rows[0]), rows, words, forms=forms, is_only_place=True)

"""The balises of a group in the other order: by their kilometres, or by N_PIG."""
from __future__ import annotations

from decimal import Decimal
from typing import Dict, Iterator, Mapping, Set

from balisekit.rules.corrections.correction import Correction, Evidence, with_values
from balisekit.tables.grouping import by_position
from balisekit.tables.model import Group
from balisekit.tables.names import clean, kilometre, rows_words

OF_ORDER = ("F1", "L2", "L3", "L9", "E13", "E19")
"""The rules that report balises in a wrong order."""


def suggest(evidence: Evidence) -> Iterator[Correction]:
    """The groups that most entries are about: each by the order of N_PIG, then by the kilometres."""
    suspects = _suspects(evidence)
    for group in evidence.most_named(*OF_ORDER) if suspects else ():
        count = len(group.aspects[0].rows)
        if group.name not in suspects or count < 2 or any(len(each.rows) != count for each in group.aspects):
            continue
        positions = {row.number: evidence.forms[row.number]["n_pig"] for row in group.each_row}
        if any(positions[row.number] != group.places[row.number] for row in group.each_row):
            yield _by_position(group, positions)
            yield _numbered(evidence, group)
        else:
            yield from _turned(group)


def _suspects(evidence: Evidence) -> Set[str]:
    """The groups that links announce in the other direction, those that send these links, and those with F1."""
    found = {entry.group.name for entry in evidence.entries if entry.group and entry.rule in ("F1", "L3")}
    about = (entry.remark.about for entry in evidence.entries if entry.remark and entry.rule == "L3")
    return found | {group.group.name for group in about if group}


def _by_position(group: Group, positions: Mapping[int, int]) -> Correction:
    """The balises in the order of N_PIG. Their kilometres stay with their telegrams."""
    wanted, said = [], []
    for row in sorted(group.aspects[0].rows, key=lambda row: group.places[row.number]):
        wanted.append(str(group.places[row.number]))
        said.append(str(positions[row.number]))
    sentence = (
        f"the balises of {clean(group.name)} look to be in a wrong order: N_PIG is {' and '.join(said)} instead of "
        f"{' and '.join(wanted)}, and in the order of N_PIG the other entries are gone too"
    )
    rows = tuple(sorted(row.number for row in group.each_row if positions[row.number] != group.places[row.number]))
    values = {"N_PIG": ", ".join(said), "wanted_N_PIG": ", ".join(wanted)}
    return Correction(group, rows, sentence, orders={group.name: by_position(group, positions)}, values=values)


def _numbered(evidence: Evidence, group: Group) -> Correction:
    """Each telegram with the N_PIG of its place."""
    wrong = [row.number for row in group.each_row if evidence.forms[row.number]["n_pig"] != group.places[row.number]]
    forms = {row: with_values(evidence.forms[row], n_pig=group.places[row]) for row in wrong}
    said = ", ".join(str(evidence.forms[row]["n_pig"]) for row in wrong)
    wanted = ", ".join(str(group.places[row]) for row in wrong)
    sentence = (
        f"N_PIG is {said} in {rows_words(wrong)} instead of {wanted}: with the places of the rows all would agree"
    )
    return Correction(group, tuple(sorted(wrong)), sentence, forms=forms)


def _turned(group: Group) -> Iterator[Correction]:
    """The kilometres of its balises in the other order."""
    known: Dict[int, Decimal] = {}
    for row in group.each_row:
        if row.km is None:
            return
        known.setdefault(group.places[row.number], row.km)
    last = max(known)
    if known[0] == known[last]:
        return
    cells = {row.number: {"km": known[last - group.places[row.number]]} for row in group.each_row}
    sentence = (
        f"the kilometres of the balises of {clean(group.name)} look exchanged: with km {kilometre(known[last])} for "
        f"its first balise, instead of {kilometre(known[0])}, links and profiles would agree"
    )
    yield Correction(group, tuple(sorted(cells)), sentence, cells)

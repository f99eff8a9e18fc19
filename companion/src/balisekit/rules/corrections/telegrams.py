"""Two telegrams, or the telegrams of two aspects, in the place of each other."""
from __future__ import annotations

from itertools import combinations
from typing import Dict, Iterator, Sequence, Tuple

from balisekit.engine.records import Form
from balisekit.rules.corrections.correction import Correction, Evidence, names_another_identity, with_values
from balisekit.tables.model import Aspect, Group
from balisekit.tables.names import clean, quoted, rows_words

OF_ASPECTS = ("E7", "E8", "E9", "E10", "E15", "E24", "E25", "F10", "F11", "F12", "F13", "F16")
"""The rules that report telegrams of another aspect."""


def suggest(evidence: Evidence) -> Iterator[Correction]:
    """Telegrams of two groups, then those of two balises of a group, then those of two of its aspects."""
    yield from _of_two_groups(evidence)
    yield from _of_two_balises(evidence)
    for group in evidence.most_named(*OF_ASPECTS):
        for one, other in combinations(group.aspects, 2):
            yield from _of_aspects(evidence, group, one, other)


def _of_two_groups(evidence: Evidence) -> Iterator[Correction]:
    """Each two telegrams with the identity of the group of the other one."""
    for one, other in combinations(filter(names_another_identity, evidence.entries), 2):
        if evidence.identities(one) == evidence.identities(other)[::-1]:
            group = evidence.groups[evidence.rows[one.rows[0]].group]
            yield from _exchange(evidence, group, [(one.rows[0], other.rows[0])])


def _of_two_balises(evidence: Evidence) -> Iterator[Correction]:
    """Each two telegrams of a group that have the N_PIG of the place of the other one."""
    for group in evidence.most_named("F1"):
        wrong = [row for row in group.each_row if evidence.forms[row.number]["n_pig"] != group.places[row.number]]
        for one, other in combinations(wrong, 2) if len(wrong) < 5 else ():
            if group.places[one.number] == evidence.forms[other.number]["n_pig"]:
                yield from _exchange(evidence, group, [(one.number, other.number)])


def _of_aspects(evidence: Evidence, group: Group, one: Aspect, other: Aspect) -> Iterator[Correction]:
    """All telegrams of two aspects, then those of a single balise."""
    pairs = [(row, its) for row, its in zip(one.rows, other.rows) if row.number != its.number]
    named = {row for entry in evidence.entries for row in evidence.named(entry)}
    if not any({row.number, its.number} & named for row, its in pairs):
        return
    numbers = [(row.number, its.number) for row, its in pairs]
    words = f"the aspects {quoted(one.name)} and {quoted(other.name)} of {clean(group.name)}"
    yield from _exchange(evidence, group, numbers, words)
    yield from _exchange(evidence, group, numbers, words, with_counters=False)
    for pair in numbers if len(numbers) > 1 else ():
        yield from _exchange(evidence, group, [pair])


def _exchange(
    evidence: Evidence, group: Group, pairs: Sequence[Tuple[int, int]], words: str = "", with_counters: bool = True
) -> Iterator[Correction]:
    """These telegrams in the place of each other. Without their counters, each place keeps its M_MCOUNT."""
    forms: Dict[int, Form] = {}
    for one, other in pairs:
        forms[one], forms[other] = evidence.forms[other], evidence.forms[one]
    if not with_counters:
        forms = {row: with_values(form, m_mcount=evidence.forms[row]["m_mcount"]) for row, form in forms.items()}
    changed = {row: form for row, form in forms.items() if form != evidence.forms[row]}
    rows = tuple(sorted(changed))
    if rows:
        what = words or f"the telegrams of {rows_words(rows)}"
        exchanged = "exchanged" if with_counters else "exchanged, but for their counters"
        yield Correction(
            group, rows, f"{what} look {exchanged}: in the place of each other they would agree", {}, changed
        )

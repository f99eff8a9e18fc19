"""One identity that is wrong: of a group that links name otherwise, or of one telegram of a group."""
from __future__ import annotations

from collections import Counter
from typing import Iterator, Tuple

from balisekit.rules.corrections.correction import Correction, Evidence, names_another_identity, with_values
from balisekit.rules.corrections.places import without_packets
from balisekit.rules.link_steps import counted as steps_of_chain
from balisekit.rules.location import Identity
from balisekit.tables.model import Group
from balisekit.tables.names import clean, counted, describe_identity

NEAR = 100
"""How near a group must be to the place to which links lead, in decimetres."""


def suggest(evidence: Evidence) -> Iterator[Correction]:
    """One telegram with another identity than the rest of its group, then groups that links call otherwise."""
    for entry in evidence.entries:
        if names_another_identity(entry) and entry.group:
            yield _of_telegram(evidence, entry.group, entry.rows[0], *evidence.identities(entry))
            yield from _of_copy(evidence, entry.rows[0])
    for group, identity, links in _called(evidence):
        yield _of_group(evidence, group, identity, links)
    for entry in evidence.entries:
        earlier = next((place.earlier for place in entry.findings if place.earlier), None)
        if entry.group and earlier:
            yield _in_one(earlier, entry.group)


def _in_one(earlier: Group, group: Group) -> Correction:
    """Two groups of one identity as one group, with the name of the first one."""
    rows = tuple(sorted(row.number for each in (earlier, group) for row in each.each_row))
    cells = {row.number: {"group": earlier.name} for row in group.each_row}
    sentence = (
        f"{clean(earlier.name)} and {clean(group.name)} have one identity: as the rows of one group all would agree"
    )
    return Correction(earlier, rows, sentence, cells)


def _of_copy(evidence: Evidence, row: int) -> Iterator[Correction]:
    """The packets of a telegram that another group has too: they say nothing of this group."""
    own = evidence.rows[row]
    rows = (each for each in evidence.rows.values() if each.group != own.group)
    if any(each.telegram.lower() == own.telegram.lower() for each in rows):
        yield without_packets(evidence, (row,), "the packets of the telegram")._replace(is_of_stranger=True)


def _of_telegram(evidence: Evidence, group: Group, row: int, own: Identity, identity: Identity) -> Correction:
    sentence = (
        f"the telegram has the identity {own[0]}/{own[1]} (NID_C/NID_BG) instead of {identity[0]}/{identity[1]}, "
        "which all other telegrams of its group have"
    )
    values = dict(zip(("NID_C", "NID_BG", "other_NID_C", "other_NID_BG"), map(str, (*own, *identity))))
    forms = {row: with_values(evidence.forms[row], nid_c=identity[0], nid_bg=identity[1])}
    return Correction(group, (row,), sentence, forms=forms, values=values)


def _called(evidence: Evidence) -> Iterator[Tuple[Group, Identity, int]]:
    """The groups at places to which links with an identity that the table lacks lead, and how many links."""
    line = evidence.line
    found: Counter[Tuple[str, Identity]] = Counter()
    if not any(entry.rule == "L1" for entry in evidence.entries):
        return
    for chain in line.chains:
        for link, (base, at, _) in steps_of_chain(chain):
            if link.target is not None or not link.known or base is None or at is None:
                continue
            near = line.decoded.nearest(base.track, at)
            if near is not None and near.place is not None and abs(near.place - at) <= NEAR:
                found[near.group.group.name, link.identity] += 1
    for (name, identity), links in found.most_common():
        if name in evidence.groups:
            yield evidence.groups[name], identity, links


def _of_group(evidence: Evidence, group: Group, identity: Identity, links: int) -> Correction:
    rows = tuple(sorted(row.number for row in group.each_row))
    first = evidence.forms[group.aspects[0].rows[0].number]
    own = first["nid_c"], first["nid_bg"]
    sentence = (
        f"{clean(group.name)} has the identity {own[0]}/{own[1]} (NID_C/NID_BG), and {counted(links, 'link')} to its "
        f"place {'names' if links == 1 else 'name'} {describe_identity(identity)}: with that identity they would agree"
    )
    forms = {row: with_values(evidence.forms[row], nid_c=identity[0], nid_bg=identity[1]) for row in rows}
    values = dict(zip(("NID_C", "NID_BG", "linked_NID_C", "linked_NID_BG"), map(str, (*own, *identity))))
    return Correction(group, rows, sentence, forms=forms, values=values)

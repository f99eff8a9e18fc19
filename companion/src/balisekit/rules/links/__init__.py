"""The rules L: what the groups of a line say of each other, against the kilometres of the table."""
from __future__ import annotations

from collections import Counter
from dataclasses import replace
from typing import Iterator, Sequence, Tuple

from balisekit.rules.applied import Applied, look_for
from balisekit.rules.discovery import rules_of
from balisekit.rules.line import BY_LINKS, BY_OWN_LINKS, Line
from balisekit.rules.links.l2_distance import RULE as L2
from balisekit.rules.location import IN_JUMP, BaliseGroup
from balisekit.rules.passed_over import PassedOver
from balisekit.rules.rule import Options, Rule
from balisekit.tables.names import clean, describe_group, listed

RULES = rules_of(__name__, __path__)
__all__ = ["L2", "RULES", "Links", "compare", "notes_on", "passed_over"]
SHOWN = 20
"""How many notes with one reason are written. The others are counted."""
NOT_THERE = "its group is not in the table, and its distances are not compared"
INFILL = "it counts from the group of packet 136, and is not compared"
NO_TRACK = "no track, although other groups have one: L2, L3 and L9 compare no link between it and these"
Note = Tuple[str, str]
"""What it is about, and the reason."""


Links = Applied
"""What the rules have found of a line, and what they could not look at."""


def compare(line: Line, options: Options = Options(), rules: Sequence[Rule] = RULES) -> Links:
    """Looks for these rules in a line."""
    found = look_for(line, options, rules, notes_on)
    return replace(found, notes=(*line.not_applied, *found.notes))


def notes_on(line: Line) -> Iterator[str]:
    """Notes on groups, and on packets 5."""
    counted: Counter[str] = Counter()
    for about, why in _all(line):
        counted[why] += 1
        if counted[why] <= SHOWN:
            yield f"{about}: {why}"
    yield from (f"and {count - SHOWN} more: {why}" for why, count in counted.items() if count > SHOWN)


def passed_over(line: Line) -> Iterator[PassedOver]:
    """The groups and messages that some of these rules do not look at."""
    reasons = ((group.group, _passes_over(line, group)) for group in line.groups)
    yield from (PassedOver(group, why) for group, why in reasons if why)
    chains = {chain.location.message.number: chain for chain in line.chains if chain.location.message}
    for chain in chains.values():
        why = _passes_over(line, chain.sender) if chain.sender else NOT_THERE
        if why and chain.location.message:
            yield PassedOver(chain.location.message, why)


def _all(line: Line) -> Iterator[Note]:
    for group in line.groups:
        why = _lacks(line, group) or (BY_LINKS if group.by_links and group.balises == 1 else "")
        if why:
            yield describe_group(group.group), why
        first = line.decoded.by_identity.get(group.identity) if group.identity else None
        if first is not None and first.group is not group:
            why = f"links to its identity count for {clean(first.group.group.name)}, which has it too"
            yield describe_group(group.group), why
    if line.trackless:
        yield listed([clean(group.group.name) for group in line.trackless], SHOWN), NO_TRACK
    several = [clean(group.group.name) for group in line.groups if group.by_links and group.balises > 1]
    if several:
        yield listed(several, SHOWN), BY_OWN_LINKS
    yield from ((str(chain.location), INFILL) for chain in line.decoded.chains.infill)
    for chain in line.chains:
        if chain.sender is None:
            yield str(chain.location), NOT_THERE


def _passes_over(line: Line, group: BaliseGroup) -> str:
    """Why some of these rules do not look at a group, or at any of its links."""
    return _lacks(line, group) or (NO_TRACK if group.number in line.cut_off else "")


def _lacks(line: Line, group: BaliseGroup) -> str:
    if group.identity is None:
        return "no telegram of it could be read, so its identity is not known: L1 counts links that may be to it"
    if group.place is None:
        return f"it has {'no kilometre' if group.km is None else IN_JUMP}: L2 and L9 do not look at it"
    if group.rising is None:
        differ = ", because the links that name it disagree" if group.links_differ else ""
        return (
            f"its direction along the kilometres is not known{differ}: L3 does not look at it, and L2 takes "
            "the direction from the first link; write rising or falling in the column nominal"
        )
    return ""

"""The balise groups of a design, and the links that follow from where they are."""
from __future__ import annotations

from decimal import Decimal
from typing import Dict, Iterator, Mapping, NamedTuple, Optional, Sequence, Tuple

from balisekit.tables.chainage import IN_JUMP, Chainage, Jump, incomparable
from balisekit.tables.plan import Plan, PlanRow

Identity = Tuple[int, int]
"""NID_C and NID_BG."""
NO_WAY = "no way of the group in the plan"


class DesignedGroup(NamedTuple):
    """A balise group as the design has it."""

    row: PlanRow
    place: Optional[int]
    """The place of its first balise along the track in decimetres, by the jumps of the kilometres."""

    @property
    def nominal(self) -> int:
        """1 if the kilometres rise in its nominal direction, -1 if they fall, 0 if the design does not say it."""
        return self.row.way


class DesignedLink(NamedTuple):
    """What a packet 5 of a group has to say of another group."""

    distance: int
    """From the one to the other along the way of the train, in decimetres."""
    is_nominal: bool
    """Whether a train passes the other group in its nominal direction."""


class DesignedGroups:
    """The groups of a design by their names and identities."""

    def __init__(self, plan: Plan, jumps: Sequence[Jump] = ()) -> None:
        rows = plan.of_kind("group")
        chainages = {track: Chainage.of(jumps, track) for track in {row.track for row in rows}}
        made = [DesignedGroup(row, chainages[row.track].place(row.km)) for row in rows]
        self.by_name: Mapping[str, DesignedGroup] = {group.row.name: group for group in made}
        self.by_identity: Mapping[Identity, DesignedGroup] = dict(_identities(made))

    def __bool__(self) -> bool:
        return bool(self.by_name)


def link(sender: DesignedGroup, target: DesignedGroup, is_nominal: bool) -> Tuple[Optional[DesignedLink], str]:
    """The link from one group to another one for trains that pass the first in this direction, or why there is none."""
    why = incomparable(sender.row.km, sender.row.track, target.row.km, target.row.track)
    if why or sender.place is None or target.place is None:
        return None, why or IN_JUMP
    if not sender.nominal or not target.nominal:
        return None, NO_WAY
    way = sender.nominal if is_nominal else -sender.nominal
    return DesignedLink(way * (target.place - sender.place), target.nominal == way), ""


def differing_kilometres(
    stated: Sequence[Optional[Decimal]], wanted: Sequence[Decimal], allowed: int
) -> Iterator[Tuple[Decimal, Decimal]]:
    """Kilometres that differ from the design by more than `allowed` decimetres, each with that of the design."""
    for one, other in zip(stated, wanted):
        if one is not None and abs(one - other) * 10_000 > allowed:
            yield one, other


def _identities(groups: Sequence[DesignedGroup]) -> Iterator[Tuple[Identity, DesignedGroup]]:
    known: Dict[Identity, DesignedGroup] = {}
    for group in groups:
        identity = group.row.group_terms.identity
        if identity and identity not in known:
            known[identity] = group
            yield identity, group

"""The railway line that rules look at: its groups along their tracks, and what they and the messages give a train.

What a train gets is worked out once, in one pass over the telegrams (`decoded`).
"""
from __future__ import annotations

from bisect import bisect_left, bisect_right
from dataclasses import dataclass, field
from decimal import Decimal
from functools import cached_property
from itertools import accumulate
from typing import (
    AbstractSet,
    Dict,
    FrozenSet,
    Iterator,
    List,
    Mapping,
    NamedTuple,
    Optional,
    Sequence,
    Set,
    Tuple,
    Union,
)

from balisekit.engine.grammar import Finding
from balisekit.engine.program import Record
from balisekit.etcs.geometry import place_and_direction
from balisekit.etcs.variables import Form
from balisekit.rules.chainage import Jump
from balisekit.rules.chains import Chain
from balisekit.rules.checking import Checked, Telegrams
from balisekit.rules.decoded import Decoded, decode
from balisekit.rules.facts import counted, group_words
from balisekit.rules.location import IN_JUMP, NOT_KNOWN, BaliseGroup, Identity, incomparable
from balisekit.rules.telegrams import Link, Telegram, rounding, telegram_of, telegrams_of
from balisekit.tables.model import Aspect, Group, Message
from balisekit.tables.names import clean

AFTER_INFILL = "after packet 136"
BY_LINKS = "its direction along the kilometres is taken from the links that name it"
BY_OWN_LINKS = "one kilometre for all balises, so the direction along the kilometres is taken from links"
NOWHERE = -(10**12)
"""The place of a group whose place is not known, before all others."""
Number = Union[int, Decimal]


class LinkedGroups(NamedTuple):
    """Groups of a track that say that they are linked, and by which identity, in the order of their places."""

    groups: Sequence[BaliseGroup]
    places: Mapping[Identity, Sequence[int]]
    """Of each identity: which of these groups have it."""
    bounds: Mapping[int, Tuple[int, int]]
    """Of each group of the track, by its number: the first of these groups that is not below it, and above it."""
    sums: Sequence[int]
    """Those of numbers for the identities and kilometres of the groups before each place."""

    @classmethod
    def of(cls, along: Sequence[BaliseGroup], way: Optional[int], speaking: bool) -> LinkedGroups:
        """Those of a track's groups that say anything to a train that goes this way, or the others."""
        linked = [each for each in along if each.linked and each.identity and each.identity[1] != NOT_KNOWN]
        groups = [each for each in linked if each.speaks_to(way) == speaking]
        known = [each.place or 0 for each in groups]
        places: Dict[Identity, List[int]] = {}
        for index, group in enumerate(groups):
            places.setdefault(group.identity or (0, 0), []).append(index)
        bounds = {
            each.number: (bisect_left(known, each.place or 0), bisect_right(known, each.place or 0)) for each in along
        }
        numbers = (int(counted([f"{group_words(each)} {each.km}"]), 16) for each in groups)
        return cls(groups, places, bounds, [0, *accumulate(numbers)])

    def fact(self, ranges: Sequence[range]) -> str:
        """One text for the identities and kilometres of the groups at these places, without a look at each."""
        return f"{sum(self.sums[each.stop] - self.sums[each.start] for each in ranges):x}"

    def between(self, one: BaliseGroup, other: BaliseGroup, chain: Chain) -> Sequence[range]:
        """The places of the groups between two groups that a chain does not name.

        They are found without a look at each, since thousands can be between two groups.
        """
        (low, above), (low_too, above_too) = self.bounds[one.number], self.bounds[other.number]
        begin, end = min(above, above_too), max(low, low_too)
        if begin >= end:
            return []
        named = (self.places[identity] for identity in chain.identities if identity in self.places)
        cuts = sorted(place for own in named for place in own[bisect_left(own, begin) : bisect_left(own, end)])
        ranges = map(range, [begin, *(cut + 1 for cut in cuts)], [*cuts, end])
        return [each for each in ranges if each]


CAUSES = {1: "rows in a wrong order", 3: "a wrong telegram"}
"""What a finding of the program shows that other rules may find too."""


@dataclass(eq=False)
class Line:
    """All groups of a table in its order, and what can be asked of them. Each answer is worked out when it is asked."""

    table_groups: Sequence[Group]
    forms: Mapping[int, Form] = field(default_factory=dict)
    """The telegrams that the program has read, by their rows."""
    messages: Sequence[Tuple[Message, Form]] = ()
    findings: Mapping[str, Sequence[Finding]] = field(default_factory=dict)
    """What the program has found of a group, by the group's name."""
    jumps: Sequence[Jump] = ()
    """Where the kilometres jump."""
    lost_messages: bool = False
    """Whether there are messages that the program has not read."""

    @classmethod
    def of(cls, checked: Checked, jumps: Sequence[Jump] = ()) -> Line:
        """The line of a table whose telegrams have been tried. A refused telegram says nothing of its group."""
        groups: Sequence[Group] = checked.kept
        if len(groups) < len(checked.table.groups):
            kept = {group.name: group for group in groups}
            groups = [kept.get(group.name, group) for group in checked.table.groups]
        findings: Dict[str, List[Finding]] = {}
        for place in checked.findings:
            if place.group is not None:
                findings.setdefault(place.group.name, []).append(place.finding)
        messages = [(each.message, each.form) for each in checked.accepted_messages]
        lost = bool(checked.refused_messages or checked.messages_not_looked_at)
        return cls(groups, checked.accepted, messages, findings, jumps, lost)

    @cached_property
    def decoded(self) -> Decoded:
        """All data of the table as a train gets them: the one pass over its telegrams."""
        return decode(self.table_groups, self._telegrams(), self.messages, self.jumps)

    def _telegrams(self) -> Iterator[Telegram]:
        """The telegrams in the order of the table. Those of a table are decoded here."""
        if isinstance(self.forms, Telegrams):
            yield from telegrams_of(self.forms.decoded())
            return
        rows = {row.number: row for group in self.table_groups for row in group.rows() if row.number in self.forms}
        for number, row in rows.items():
            yield telegram_of(row, self.forms[number])

    def after_links(self) -> None:
        """Lets go of what only rules L ask for."""
        for name in ("alike", "_linked"):
            vars(self).pop(name, None)

    def for_pictures(self) -> None:
        """Works out what pictures need, and lets go of `decoded`, which takes most of the memory."""
        if "decoded" in vars(self):
            _ = self.along, self.sent, self.directed
            for data in self.decoded.groups:
                data.passages = ()  # (each passage has this object)
            del self.decoded

    @cached_property
    def groups(self) -> Sequence[BaliseGroup]:
        """All groups, in the order of the table. Single balises have the direction of the links that name them."""
        return [data.group for data in self.decoded.groups]

    @cached_property
    def directed(self) -> Sequence[Group]:
        """All groups as `table_groups` has them. Single balises have the direction of the links that name them."""
        groups = zip(self.table_groups, self.groups)
        return [_directed(group, taken.rising) if taken.by_links else group for group, taken in groups]

    @property
    def direction_notes(self) -> Mapping[str, str]:
        """A note for each single balise that has got its direction from links, by the name of its group."""
        words = {True: BY_LINKS, False: BY_OWN_LINKS}
        return {each.group.name: f"{each}: {words[each.balises == 1]}" for each in self.groups if each.by_links}

    @property
    def chains(self) -> Sequence[Chain]:
        """Each packet 5 once in each direction in which it holds, without those that are passed after a packet 136."""
        return self.decoded.chains.own

    @cached_property
    def sent(self) -> Mapping[str, Sequence[Chain]]:
        """Of each track: the chains that its groups with a kilometre send. Those of messages are none of them."""
        sent: Dict[str, List[Chain]] = {}
        for chain in self.chains:
            if chain.sender is not None and chain.sender.km is not None and chain.location.row is not None:
                sent.setdefault(chain.sender.track, []).append(chain)
        return sent

    @cached_property
    def alike(self) -> Sequence[Sequence[Chain]]:
        """The chains, and together those of one group in one direction whose links are the same."""
        alike: Dict[Tuple[Optional[int], str, int], List[Chain]] = {}
        for chain in self.chains:
            sender = None if chain.sender is None else chain.sender.number
            alike.setdefault((sender, chain.direction, id(chain.links)), []).append(chain)
        return list(alike.values())

    @cached_property
    def infill_links(self) -> Mapping[str, int]:
        """How many links come after a packet 136, by that reason: rules do not look at them."""
        links = [link for chain in self.decoded.chains.infill for link in chain.links if link.known]
        return {AFTER_INFILL: len(links)}

    @cached_property
    def along(self) -> Mapping[str, Sequence[BaliseGroup]]:
        """Of each track: its groups that have a kilometre, in the order of the kilometres."""
        along: Dict[str, List[BaliseGroup]] = {}
        for group in self.groups:
            if group.km is not None:
                along.setdefault(group.track, []).append(group)
        for groups in along.values():
            groups.sort(key=lambda each: each.km or Decimal())
        return along

    def linked(self, track: str, way: Optional[int], speaking: bool) -> LinkedGroups:
        """The groups with a place that say that they are linked, by whether they say anything to such trains."""
        key = track, way, speaking
        if key not in self._linked:
            along = [data.group for data in self.decoded.along[track]]
            self._linked[key] = LinkedGroups.of(along, way, speaking)
        return self._linked[key]

    @cached_property
    def places(self) -> Sequence[Optional[int]]:
        """The place of each group along its track in decimetres, in the order of the table, by the jumps."""
        return [group.place for group in self.groups]

    @cached_property
    def trackless(self) -> Sequence[BaliseGroup]:
        """The groups without a track, if other groups have one: no rule compares the kilometres of the two."""
        without = [group for group in self.groups if not group.track]
        return without if self.along and len(without) < len(self.groups) else []

    @cached_property
    def cut_off(self) -> AbstractSet[int]:
        """The numbers of groups without a track all of whose links lead to or from groups that have one."""
        met: Set[int] = set()
        apart: Set[int] = set()
        for chain in self.chains if self.trackless else ():
            named = [chain.sender, *(link.target for link in chain.links)]
            for one, other in [*zip(named, named[1:]), *((chain.sender, each) for each in named[2:])]:
                if one and other:
                    (met if one.track == other.track else apart).update((one.number, other.number))
        return {group.number for group in self.trackless} & apart - met

    @cached_property
    def not_applied(self) -> Sequence[str]:
        """A note on each jump of a track that the table does not have: it moves no place."""
        tracks = {clean(group.track) for group in self.groups}
        strange = [jump for jump in self.jumps if clean(jump.track) not in tracks]
        return [f"{jump}: the table has no such track, so the jump is not applied" for jump in strange]

    def incomparable(self, one: Optional[BaliseGroup], other: Optional[BaliseGroup]) -> str:
        """Why the places of two groups cannot be compared, or nothing."""
        why = incomparable(one, other)
        lost = one and other and None in (one.place, other.place)
        return IN_JUMP if lost and not why else why

    def allowed(self, link: Link, lengths: int, tolerance: Decimal) -> Decimal:
        """By how many decimetres a sum of `lengths` distances D_LINK may differ from the kilometres.

        It adds Q_LOCACC, the tolerance, and the rounding of both.
        """
        return (link.accuracy + tolerance) * 10 + self._resolution + rounding(link.unit, lengths)

    @cached_property
    def _resolution(self) -> int:
        return self.decoded.resolution

    def may_be_refused(self, track: str, low: Number, high: Number, nameless: bool = False) -> bool:
        """Whether a group with a refused telegram, or a `nameless` one, may be from one place of a track to another."""
        places = self._refused[nameless].get(track, ())
        at = bisect_left(places, low)
        return bool(places) and (places[0] == NOWHERE or at < len(places) and places[at] <= high)

    @property
    def nameless(self) -> AbstractSet[str]:
        """The tracks with a group whose identity the program has not read."""
        return self._refused[True].keys()

    @cached_property
    def _refused(self) -> Sequence[Mapping[str, Sequence[int]]]:
        """Of each track: the places of its groups with a refused telegram, and of those whose identity is not read."""
        found: Tuple[Dict[str, List[int]], ...] = ({}, {})
        for group in self.groups:
            for own in found[: 1 + (group.identity is None)] if group.unread else ():
                own.setdefault(group.track, []).append(NOWHERE if group.place is None else group.place)
        return [{track: sorted(places) for track, places in own.items()} for own in found]

    @cached_property
    def _linked(self) -> Dict[Tuple[str, Optional[int], bool], LinkedGroups]:
        return {}

    def has(self, rule: int, group: BaliseGroup) -> bool:
        """Whether the program has found this rule broken in a group; F14 also in another one with its identity."""
        if rule == 14:
            return group.identity in self._used_twice
        return any(finding.rule == rule for finding in self.findings.get(group.group.name, ()))

    def wrong_order(self, *groups: BaliseGroup) -> str:
        """The end of a sentence that rests on the directions of groups: which have F1, so that these may be wrong."""
        return self.cause(1, *groups)

    def cause(self, rule: int, *groups: BaliseGroup) -> str:
        """The end of a sentence that may follow from a finding of the program: which of these groups have it."""
        names = list(dict.fromkeys(clean(group.group.name) for group in groups if self.has(rule, group)))
        return f"; F{rule} is found in {' and '.join(names)}: {CAUSES[rule]} may be the cause" if names else ""

    @cached_property
    def _used_twice(self) -> FrozenSet[Optional[Identity]]:
        """The identities of the groups with a finding F14."""
        found = {name for name, some in self.findings.items() if any(finding.rule == 14 for finding in some)}
        return frozenset(group.identity for group in self.groups if group.group.name in found)


class Records(Mapping[int, Form]):
    """The forms of records by their rows. Each is made when it is asked for, since all of them take much memory."""

    def __init__(self, records: Mapping[int, Record]) -> None:
        self._records = records

    def __getitem__(self, number: int) -> Form:
        return self._records[number].form

    def __contains__(self, number: object) -> bool:
        return number in self._records

    def __iter__(self) -> Iterator[int]:
        return iter(self._records)

    def __len__(self) -> int:
        return len(self._records)


def has_no_direction(group: Group) -> bool:
    """Whether it is a single balise with a kilometre whose direction along the kilometres the table does not show."""
    if len(group.aspects[0].rows) > 1:
        return False
    km, rising = place_and_direction(group)
    return km is not None and rising is None


def with_directions(groups: Sequence[Group], forms: Mapping[int, Form]) -> Tuple[Sequence[Group], Sequence[str]]:
    """The groups, and notes on single balises that have got their direction from the links that name them.

    `forms` has the telegrams that the program has read, by their rows. They are looked at only if there are single
    balises without a direction.
    """
    line = Line(groups, forms)
    return (line.directed, list(line.direction_notes.values())) if any(map(has_no_direction, groups)) else (groups, ())


def _directed(group: Group, rising: Optional[int]) -> Group:
    """A group whose rows have a direction of the kilometres."""
    word = "rising" if rising == 1 else "falling"
    aspects = (Aspect(each.name, tuple(row._replace(nominal=word) for row in each.rows)) for each in group.aspects)
    return Group(group.name, tuple(aspects))

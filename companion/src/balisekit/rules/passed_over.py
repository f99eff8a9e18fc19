"""The groups and messages that rules pass over, because the table does not show where they are along its tracks."""
from __future__ import annotations

from collections import Counter
from typing import Callable, Dict, Iterable, Iterator, List, NamedTuple, Set, Tuple, Union

from balisekit.rules.line import Line
from balisekit.rules.location import IN_JUMP, BaliseGroup
from balisekit.tables.model import Group, Message
from balisekit.tables.names import clean, counted, describe_message, listed

NAMED = 10
"""How many groups and messages with one reason are named. The others are counted."""


class PassedOver(NamedTuple):
    """A group or message that some rules of a family have not looked at, and why."""

    about: Union[Group, Message]
    why: str


Find = Callable[[Line], Iterator[PassedOver]]
"""Which groups and messages of a line the rules of a family pass over."""


class Rules(NamedTuple):
    """Rules of a family in words, by what they need of a group."""

    place: str
    """Those that need its kilometre."""
    direction: str
    """Those that need its direction along the kilometres."""
    others: str = ""
    """Those that need other groups on its track."""
    compare: str = "compare"
    """What they do with places."""

    def find(self, line: Line) -> Iterator[PassedOver]:
        """What these rules pass over. A table without kilometres has a line of its own."""
        for group in line.groups if line.along else ():
            why = self._of_group(line, group)
            if why:
                yield PassedOver(group.group, why)
        for message, form in line.messages if line.along else ():
            if form["nid_message"] == 3:
                named = line.decoded.by_identity.get((form["nid_c"], form["nid_bg"]))
                not_there = f"its group is not in the table, so {self.place} {self.compare} no place of it"
                why = self._lacks(named.group) if named else not_there
                if why:
                    yield PassedOver(message, why)

    def without_track(self, line: Line) -> Iterator[PassedOver]:
        """The groups that lack a track that others have. Rules may compare those with each other."""
        yield from (PassedOver(group.group, self._no_track) for group in line.trackless)

    def is_of_track(self, some: PassedOver) -> bool:
        """Whether it is passed over because it has no track."""
        return some.why == self._no_track

    def notes(self, line: Line) -> Iterator[str]:
        """A note for each reason, with the first groups and messages that it is about."""
        return notes_of(self.find(line))

    def _of_group(self, line: Line, group: BaliseGroup) -> str:
        why = self._lacks(group)
        if why or not (self.others and any(group.says)):
            return why
        is_alone = len(line.along.get(group.track, ())) == 1 < len(line.along)
        if not group.track and (is_alone or group.number in line.cut_off):
            return self._no_track
        if not is_alone:
            return ""
        return f"the only group with a kilometre on its track, so {self.others} compare it with no other group"

    @property
    def _no_track(self) -> str:
        return f"no track, although other groups have one, so {self.others} compare it with none of these"

    def _lacks(self, group: BaliseGroup) -> str:
        if group.place is None:
            why = "no kilometre" if group.km is None else IN_JUMP
            return f"{why}, so {self.place} {self.compare} no place of the group"
        if group.rising is None and any(group.says):
            return (
                f"direction along the kilometres not known, so {self.direction} {self.compare} no place ahead of the "
                "group: write rising or falling in the column nominal"
            )
        return ""


def behind_infill(line: Line, is_meant: Callable[[int], bool], who: str) -> Iterator[PassedOver]:
    """Groups and messages with packets after a packet 136 that no rule compares, by NID_PACKET with their number."""
    found: Dict[str, Tuple[Union[Group, Message], Counter[int]]] = {}
    seen: Set[int] = set()
    for passage in line.decoded.passages:
        about = passage.message or (passage.group.group.group if passage.group else None)
        new = [packet for packet in passage.infill if id(packet) not in seen and is_meant(packet.number)]
        if about and new:
            seen.update(map(id, new))
            found.setdefault(about.name, (about, Counter()))[1].update(packet.number for packet in new)
    for about, counts in found.values():
        packets = ", ".join(f"{counted(count, 'packet')} {number}" for number, count in sorted(counts.items()))
        yield PassedOver(about, f"{packets} after a packet 136, of which {who} compare no place")


def unlinked(line: Line) -> Iterator[PassedOver]:
    """The groups with Q_LINK 0 that say anything: no link to them is missed."""
    for group in line.groups:
        if group.linked is False and any(group.says):
            yield PassedOver(group.group, "Q_LINK 0, so L9 and E17 look for no link to the group")


def nothing(line: Line) -> Iterator[PassedOver]:
    """What rules pass over that look at all groups."""
    return iter(())


def notes_of(some: Iterable[PassedOver]) -> Iterator[str]:
    """A note for each reason."""
    names: Dict[str, List[str]] = {}
    for about, why in some:
        names.setdefault(why, []).append(clean(about.name) if isinstance(about, Group) else describe_message(about))
    yield from (f"{listed(own, NAMED)}: {why}" for why, own in names.items())

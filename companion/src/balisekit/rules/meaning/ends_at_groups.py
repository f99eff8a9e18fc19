"""Authorities that end at one place by their packets 5, and what they say of it: for E25."""
from __future__ import annotations

from collections import Counter
from typing import AbstractSet, Any, Dict, Iterator, List, NamedTuple, Optional, Sequence, Set, Tuple

from balisekit.etcs.variables import Around, value_words
from balisekit.rules.decoded import Decoded
from balisekit.rules.location import Identity
from balisekit.rules.meaning.along import beyond, counted_beyond, is_authority
from balisekit.rules.meaning.orders import is_now
from balisekit.rules.meaning.sent import tolerance
from balisekit.rules.passages import GroupData, Passage
from balisekit.rules.rule import Options
from balisekit.rules.telegrams import LEVELS, Link, Packet

MODES, NEAR = 80, 2000
"""NID_PACKET of a mode profile, and how far in decimetres a group is from an end that is at it."""
Value = Optional[int]
Compared = Tuple[str, str]
"""A part of an authority, or nothing, and the key of a value."""
LIMIT: Compared = ("", "end_speed")
"""V_LOA."""


class End(NamedTuple):
    """An authority that ends at a group."""

    offset: int
    """How far beyond the group it ends, in decimetres."""
    passage: Passage
    packet: Packet
    link: Link
    """The group."""
    is_at_border: bool = False
    """Whether that group orders a level."""

    @property
    def is_limit(self) -> bool:
        """Whether trains may pass it, with V_LOA above 0: then it has no danger point and no overlap."""
        return bool(self.value(*LIMIT))

    @property
    def parts(self) -> Tuple[Packet, int]:
        """The packet, and how many lengths its end is the sum of."""
        return self.packet, self.packet.lengths

    def form_of(self, part: str) -> Any:
        """The object that has the values of a part. None without the part."""
        form: Any = self.packet.form
        return form.get(part) if part else form

    def value(self, part: str, key: str) -> Value:
        """A value, as a distance in decimetres. None without the part."""
        form = self.form_of(part)
        return None if form is None else int(form[key]) * (self.packet.unit if key.startswith("d_") else 1)

    def words(self, part: str, key: str) -> str:
        """A value in words, with its unit."""
        form = self.form_of(part)
        around = Around(self.packet.form, form or {})
        return "absent" if form is None else value_words(key, form[key], around) or str(form[key])


UNKNOWN, WITH_MODES, FAR, INFILL = (
    "by a message whose group is not in the table",
    "with a packet 80",
    "not at a group that packets 5 of its message name",
    "behind a packet 136",
)
"""Why an authority is not compared."""
LAST = "group of the track"
USUAL = frozenset({WITH_MODES, beyond(LAST), INFILL})
"""The reasons that sound lines have too."""


def ends_at_groups(decoded: Decoded) -> Tuple[Sequence[Sequence[End]], "Counter[str]"]:
    """The authorities that end at a group, together those at one group, and how many are not compared, and why."""
    found: Dict[Tuple[Identity, bool], List[End]] = {}
    left: Counter[str] = Counter()
    past: List[int] = []
    ordering = [data for data in decoded.senders.get(LEVELS, ()) if any(map(is_now, _orders(data)))]
    borders = {data.group.identity for data in ordering}
    for passage in decoded.passages:
        own = [packet for packet in passage.said if is_authority(packet)]
        why = UNKNOWN if passage.group is None else WITH_MODES if passage.of(MODES) else FAR
        ends = [end for packet in own for end in _end(passage, packet, borders)] if why == FAR else []
        at_group = {id(end.packet) for end in ends}
        far = [packet for packet in own if id(packet) not in at_group]
        apart = [_beyond(decoded, passage, packet) for packet in far] if why == FAR else [0] * len(far)
        past += [each for each in apart if each > 0]
        left[why] += sum(each <= 0 for each in apart)
        left[INFILL] += sum(map(is_authority, passage.infill))
        for end in ends:
            found.setdefault((end.link.identity, end.link.nominal), []).append(end)
    longest = max((end.packet.end for some in found.values() for end in some), default=0)
    return list(found.values()), +left + counted_beyond(LAST, past, longest)


def _beyond(decoded: Decoded, passage: Passage, packet: Packet) -> int:
    """How far an authority ends beyond all groups of its track, so that no group could be named at its end."""
    place, way, places = passage.place(packet.end), passage.way, decoded.places.get(passage.track, ())
    return 0 if place is None or way is None or not places else way * place - max(way * each for each in places)


def _orders(data: GroupData) -> Iterator[Packet]:
    """The packets 41 of a group."""
    packets = (packet for telegram in data.telegrams.values() for packet in telegram.packets)
    return (packet for packet in packets if packet.number == LEVELS)


def _end(passage: Passage, packet: Packet, borders: AbstractSet[Optional[Identity]]) -> Iterator[End]:
    """An authority of a passage, if it ends at a group of its packets 5."""
    links = [link for link in passage.links if link.known]
    link = min(links, key=lambda each: abs(each.total - packet.end), default=None)
    if link is not None and abs(link.total - packet.end) <= NEAR:
        yield End(packet.end - link.total, passage, packet, link, link.identity in borders)


def at_one_place(options: Options, some: Sequence[End]) -> Iterator[Sequence[End]]:
    """The ends of two groups at least that are at one place."""
    left = sorted(some, key=lambda each: each.offset)
    while left:
        first = left[0]
        same = [each for each in left if each.offset - first.offset <= tolerance(options, first.parts, each.parts)]
        left = left[len(same) :]
        if len({id(each.passage.group) for each in same}) > 1:
            yield same


def usual_end(same: Sequence[End], compared: Compared, table: "Counter[Value]") -> Optional[End]:
    """An end with the usual value. None if all have it, or if it depends on the aspect."""
    own = [end for end in same if compared == LIMIT or not end.is_limit]
    counts = Counter(end.value(*compared) for end in own)
    if len(counts) < 2 or depends_on_aspects(own, compared):
        return None
    return max(own, key=lambda each: (counts[each.value(*compared)], table[each.value(*compared)]))


def depends_on_aspects(same: Sequence[End], compared: Compared) -> bool:
    """Whether the aspects of one group give several overlaps, or several V_LOA at a limit that is none of a signal."""
    values: Dict[int, Set[Value]] = {}
    for end in same if compared[0] == "overlap" or compared == LIMIT else ():
        values.setdefault(id(end.passage.group), set()).add(end.value(*compared))
    is_border = compared != LIMIT or any(end.is_at_border for end in same)
    return any(len(each) > 1 and (is_border or 0 not in each) for each in values.values())

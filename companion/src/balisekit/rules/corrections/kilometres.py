"""One kilometre that is wrong, or those of two groups that are exchanged: links lead to another place."""
from __future__ import annotations

from collections import Counter
from decimal import Decimal
from typing import Any, Dict, Iterator, List, Mapping, NamedTuple, Optional, Sequence, Set, Tuple

from balisekit.engine.records import Form
from balisekit.rules.chains import Chain
from balisekit.rules.corrections.correction import Correction, Evidence
from balisekit.rules.line import Line
from balisekit.rules.location import BaliseGroup
from balisekit.tables.changed import Cells
from balisekit.tables.model import Row
from balisekit.tables.names import clean, counted, kilometre, ordinal, rows_words

DECIMETRES = 10_000
"""In a kilometre."""
SAME = 60
"""By how many decimetres two places may differ that links lead to, for one group: Q_LOCACC is 5 m, mostly."""


AT_ONE_PLACE = 10
"""How near the first balises of two groups are never, in decimetres."""


class Lead(NamedTuple):
    """Where a link leads, seen from the group at its other end."""

    place: int
    """In decimetres along the track."""
    differs: bool
    """Whether the kilometre of the table is elsewhere."""
    is_to: bool
    """Whether it leads to the group, and not from it."""
    words: str
    """Which link it is."""


class Elsewhere(NamedTuple):
    """A group that links have at another place than the table."""

    group: BaliseGroup
    place: int
    """The place on which most of the links agree."""
    agreeing: int
    """How many links have it there."""
    links: int
    """How many links lead to it or from it, and are compared."""
    off: int
    """By how many decimetres the farthest of those that agree leads elsewhere. 0 if all lead to this place."""
    first: str
    """Which link is the first of those that agree."""

    @property
    def metres(self) -> Decimal:
        """How far the group would have to be moved."""
        return Decimal(self.place - (self.group.place or 0)) / 10

    @property
    def kilometre(self) -> str:
        """Where it would be."""
        return kilometre((self.group.km or Decimal()) + self.metres / 1000)


def suggest(evidence: Evidence) -> Iterator[Correction]:
    """Two groups at the place of each other, then single groups, those first about which most links agree."""
    if evidence.line.jumps or not any(entry.rule in ("L2", "L9") for entry in evidence.entries):
        return
    leads = _leads(evidence)
    to_them = {number: [lead for lead in own if lead.is_to] for number, own in leads.items()}
    for one, other in _exchanged(list(_elsewhere(evidence, to_them))):
        telegrams = exchanged(evidence, one.group.group.each_row, other.group.group.each_row)
        yield from [_exchange(one, other, {}, telegrams)] if telegrams else ()
        yield _exchange(one, other, {**_cells(one.group, one.metres), **_cells(other.group, other.metres)}, {})
    for each in sorted(_elsewhere(evidence, leads), key=lambda each: (-each.agreeing / each.links, -each.agreeing)):
        yield from () if _is_taken(evidence, each) else [_moved(each)]


def _is_taken(evidence: Evidence, one: Elsewhere) -> bool:
    """Whether another group is where links have this one: then the links name the wrong group, or lead too far."""
    own = one.group
    near = evidence.line.decoded.between(own.track, one.place - AT_ONE_PLACE, one.place + AT_ONE_PLACE)
    return any(data.group is not own for data in near)


def exchanged(evidence: Evidence, some: Sequence[Row], others: Sequence[Row]) -> Mapping[int, Form]:
    """Telegrams with those of other rows in their place, one by one. Empty if there are not as many."""
    if len(some) != len(others):
        return {}
    pairs = list(zip(some, others))
    return {row.number: evidence.forms[its.number] for one, two in pairs for row, its in ((one, two), (two, one))}


def _leads(evidence: Evidence) -> Mapping[int, Sequence[Lead]]:
    """For each group: where each link to it or from it has it."""
    line, found, seen = evidence.line, {}, set()  # type: Line, Dict[int, List[Lead]], Set[Tuple[Any, ...]]
    for chain in line.chains:
        sender, along = chain.sender, chain.sender.along(chain.direction) if chain.sender else None
        for link in chain.links if sender and along and sender.place is not None else ():
            target = link.target
            if sender is None or along is None or target is None or target.track != sender.track:
                continue
            key = sender.number, chain.direction, target.number, link.total
            if target.place is None or sender.place is None or key in seen:
                continue
            seen.add(key)
            off = sender.place + along * link.total - target.place
            differs = abs(off) > line.allowed(link, link.number + 1, evidence.options.tolerance)
            words = _words(chain, sender, link.number)
            found.setdefault(target.number, []).append(Lead(target.place + off, differs, True, words))
            found.setdefault(sender.number, []).append(Lead(sender.place - off, differs, False, words))
    return found


def _words(chain: Chain, sender: BaliseGroup, link: int) -> str:
    """A link by its place in its packet, and by who sends it."""
    row = chain.location.row
    where = f"{clean(sender.group.name)} ({rows_words([row.number])})" if row else "a message"
    return f"the {ordinal(link)} link of a packet 5 in {where}"


def _elsewhere(evidence: Evidence, leads_of: Mapping[int, Sequence[Lead]]) -> Iterator[Elsewhere]:
    """The groups that half of their links or more have at one other place."""
    groups = {group.number: group for group in evidence.line.groups}
    for number, leads in leads_of.items():
        places = Counter(lead.place for lead in leads if lead.differs)
        if places and groups[number].group.name in evidence.groups:
            (place, _), *_ = places.most_common(1)
            near = {other: count for other, count in places.items() if abs(other - place) <= SAME}
            agreeing, off = sum(near.values()), max(abs(other - place) for other in near)
            if 2 * agreeing >= len(leads):
                first = next(lead.words for lead in leads if lead.differs and lead.place in near)
                yield Elsewhere(groups[number], place, agreeing, len(leads), off, first)


def _exchanged(found: Sequence[Elsewhere]) -> Iterator[Tuple[Elsewhere, Elsewhere]]:
    """Each two groups of a track that links have at the place of each other."""
    for index, one in enumerate(found):
        other = next((each for each in found[index + 1 :] if _is_exchange(one, each)), None)
        if other is not None:
            yield one, other


def _is_exchange(one: Elsewhere, other: Elsewhere) -> bool:
    is_one_track = one.group.track == other.group.track
    return is_one_track and all(_is_near(each, its.group.place) for each, its in ((one, other), (other, one)))


def _is_near(one: Elsewhere, place: Optional[int]) -> bool:
    return place is not None and abs(one.place - place) <= SAME


def _cells(group: BaliseGroup, metres: Decimal) -> Cells:
    """The kilometres of all balises of a group, moved by so much."""
    return {row.number: {"km": row.km + metres / 1000} for row in group.group.each_row if row.km is not None}


def _moved(one: Elsewhere) -> Correction:
    which = "all links" if one.agreeing == one.links else f"{one.agreeing} of {one.links} links"
    name, apart = clean(one.group.group.name), f"{abs(one.metres):f} m"
    sentence = (
        f"{which} to and from {name} differ by {'about ' if one.off else ''}{apart} from its kilometre: at km "
        f"{one.kilometre} they would {_agree(one.off)}"
    )
    if one.agreeing == 1:
        sentence = (
            f"only one link shows that the kilometre of {name} may be wrong: {one.first} differs by {apart} from it. "
            f"If D_LINK is right, at km {one.kilometre} it would agree"
        )
    cells, values = _cells(one.group, one.metres), {"km": one.kilometre, "metres": f"{one.metres:f}"}
    return Correction(one.group.group, tuple(sorted(cells)), sentence, cells, values=values)


def _agree(off: int) -> str:
    """That links would agree, or differ by at most `off` decimetres."""
    return f"differ by at most {Decimal(off) / 10:f} m" if off else "agree"


def _exchange(one: Elsewhere, other: Elsewhere, cells: Cells, forms: Mapping[int, Form]) -> Correction:
    pairs = ((one, other), (other, one))
    off = max(each.off + abs(each.place - (its.group.place or 0)) for each, its in pairs)
    sentence = (
        f"{clean(one.group.group.name)} and {clean(other.group.group.name)} look exchanged: "
        f"{counted(one.agreeing + other.agreeing, 'link')} to them would {_agree(off)} if each had the "
        f"{'kilometre' if cells else 'telegrams'} of the other"
    )
    return Correction(one.group.group, tuple(sorted({*cells, *forms})), sentence, cells, forms)

"""What the pictures of a track show: its groups, their authorities and profiles in one aspect each, and their links.

Places are whole decimetres along the kilometres of the track. Each page has 5 km. Pages reach as far as any authority
or profile does. Where nothing begins or ends, pages are left out, so that one group far away makes no empty pages.
"""
from __future__ import annotations

from bisect import bisect_left
from dataclasses import dataclass, field
from decimal import Decimal
from functools import cached_property, lru_cache
from typing import Callable, Dict, Iterable, Iterator, List, NamedTuple, Optional, Sequence, Set, Tuple

from balisekit.drawing.flags import Flag
from balisekit.drawing.profiles import gap, gap_label, places, short_profiles
from balisekit.drawing.ways import Way, passages, ways
from balisekit.drawing.words import ends, summary
from balisekit.engine.grammar import Finding
from balisekit.etcs.geometry import DIRECTIONS, end_of, has_infill, kilometre_of
from balisekit.etcs.variables import Around, Form, value_words
from balisekit.rules.chains import Chain
from balisekit.rules.line import Line
from balisekit.rules.links import Links
from balisekit.rules.location import BaliseGroup
from balisekit.rules.rule import Remark
from balisekit.rules.telegrams import Link
from balisekit.tables.model import Aspect
from balisekit.tables.names import clean, quoted

PAGE = 50_000
"""The length of a page."""
FormOf = Callable[[int], Optional[Form]]
"""The telegram of a row, if the program has read it."""
Within = Tuple[Optional[int], Optional[int]]
"""The place from which pages are made, and the one up to which. None is an end of the track."""
KEPT = 64
"""The most telegrams that are kept as objects: making one of its line takes time, and keeping it takes memory."""


@dataclass(frozen=True)
class Band:
    """What a group sends in its chosen aspect for one direction."""

    station: BaliseGroup
    aspect: str
    way: Way
    has_other: bool
    """Whether the group sends something for the other direction too."""
    found: Sequence[Finding] = ()
    """The profiles of this direction that the program has found too short or missing."""

    @cached_property
    def at(self) -> int:
        """The place of the group."""
        return place_of(self.station)

    @cached_property
    def sign(self) -> int:
        """1 if the band runs up the kilometres, -1 if it runs down."""
        return self.station.along(self.way.direction) or 1

    def describe(self, place: int) -> str:
        """A place of its way in words."""
        return f"km {kilometre_of(self.at + self.sign * place)}"

    @cached_property
    def places(self) -> Sequence[int]:
        """Where anything of it begins or ends, in order."""
        at, sign = self.at, self.sign
        return sorted({at, *(at + sign * place for place in places(self.way))})

    @property
    def pages(self) -> Iterable[int]:
        """The numbers of the pages on which anything of it begins or ends: what ends at an edge is before it."""
        return {*(place // PAGE for place in self.places[:-1]), (self.end - (self.end > self.begin)) // PAGE}

    @property
    def begin(self) -> int:
        """Its least place."""
        return self.places[0]

    @property
    def end(self) -> int:
        """Its greatest place."""
        return self.places[-1]

    @cached_property
    def label(self) -> str:
        """The group's name, the aspect, the direction if there is another one, and each V_MAIN."""
        forms = (authority.form for authority in self.way.authorities)
        speeds = dict.fromkeys(value_words("v_main", form["v_main"], Around()) for form in forms if "v_main" in form)
        parts = [clean(self.station.group.name), clean(self.aspect), self.way.direction if self.has_other else ""]
        return ", ".join(filter(None, [*parts, f"V_MAIN {' and '.join(speeds)}" if speeds else ""]))

    @cached_property
    def words(self) -> str:
        """What it says, in a sentence."""
        parts = [f"{self.label}, {ends(self.way, self.describe)}", summary([self.way], self.describe)]
        return "; ".join(filter(None, parts))

    @cached_property
    def findings(self) -> str:
        """F10 to F13 of the group in this direction, each once."""
        return "; ".join(dict.fromkeys(gap_label(one, self.way) for one in self.found if gap(one, self.way)))


class Arc(NamedTuple):
    """A link, from the group that sends it to the group that it names."""

    begin: int
    end: int
    chain: Chain
    link: Link
    distance: int
    """The sum of D_LINK."""
    wrong: Optional[Remark]
    """What L2 has found of it."""

    @property
    def edges(self) -> Tuple[int, int]:
        """Its lesser and its greater place."""
        return min(self.begin, self.end), max(self.begin, self.end)


@dataclass
class Page:
    """All that is between two places of a track."""

    begin: int
    before: int
    """Where the page before it ends. The axis is broken if that is not where this page begins."""
    is_broken_behind: bool = False
    """Whether pages after it are left out."""
    stations: List[BaliseGroup] = field(default_factory=list)
    bands: List[Band] = field(default_factory=list)
    arcs: List[Arc] = field(default_factory=list)
    flags: List[Flag] = field(default_factory=list)

    @property
    def end(self) -> int:
        """Where the page ends."""
        return self.begin + PAGE

    @property
    def left_out(self) -> str:
        """Which kilometres before it no page has."""
        if self.before >= self.begin:
            return ""
        return f"left out: km {self.before // 10_000} to {self.begin // 10_000}, where nothing begins or ends"


def place_of(station: BaliseGroup) -> int:
    """Where a group is that has a kilometre."""
    return int((station.km or Decimal()) * 10_000)


def at_km(place: int) -> str:
    """A place in words."""
    return f"km {kilometre_of(place)}"


def shown_words(aspect: Optional[str], each: str = "each group") -> str:
    """Which aspect of each group is shown."""
    return f"{each} in the aspect with the farthest end of authority" if aspect is None else f"aspect {quoted(aspect)}"


def _read_aspects(station: BaliseGroup) -> Sequence[Aspect]:
    """The aspects of a group whose telegrams the program has read."""
    aspects = station.group.aspects
    if not station.unread:
        return aspects
    return [one for one in aspects if not any(row.number in station.unread for row in one.rows)]


def chosen(form_of: FormOf, station: BaliseGroup, aspect: Optional[str]) -> Optional[Aspect]:
    """The only aspect, the one with this name, or without a name the one with the farthest end of authority.

    An aspect of which a telegram is refused has no known end.
    """
    aspects = station.group.aspects
    if len(aspects) == 1:
        return aspects[0]
    if aspect is not None:
        return next((known for known in aspects if known.name == aspect), None)
    return max(_read_aspects(station) or aspects[:1], key=lambda one: _farthest(_forms(form_of, one)))


def _forms(form_of: FormOf, aspect: Aspect) -> List[Form]:
    """The telegrams of an aspect that the program has read."""
    return [form for form in [form_of(row.number) for row in aspect.rows] if form is not None]


def _farthest(forms: Sequence[Form]) -> int:
    """The farthest end of authority of an aspect in either direction; -1 if it has none."""
    if not any(form["m_dup"] or has_infill(form) for form in forms):  # (as most are: then each packet counts)
        packets = [packet for form in forms for packet in form["packets"]]
    else:
        packets = [packet for direction in DIRECTIONS for _, packet in passages(forms, direction)[0]]
    return max((end_of(packet) for packet in packets if packet["nid_packet"] in (12, 15)), default=-1)


def undrawn(station: BaliseGroup, aspect: Optional[str]) -> str:
    """Why only the mark of a group is drawn, or nothing if its band can be drawn."""
    aspects = station.group.aspects
    named = [one for one in aspects if len(aspects) == 1 or aspect in (None, one.name)]
    if not named:
        return f"no aspect {quoted(aspect or '')}"
    if station.rising is None:
        return "the direction of its kilometres is not known"
    read = _read_aspects(station)
    return "" if any(one in read for one in named) else "refused"


def shares(line: Line, part: int, count: int) -> Iterator[Tuple[str, Within]]:
    """The tracks of one part of all groups with a kilometre, each with the places between which its pages are.

    All `count` parts have the same number of groups, or one more.
    """
    begin, end = (sum(map(len, line.along.values())) * number // count for number in (part, part + 1))
    for track, stations in line.along.items():
        inner = [place_of(stations[at]) // PAGE * PAGE if 0 < at < len(stations) else None for at in (begin, end)]
        if begin < len(stations) and end > 0:
            yield track, (inner[0], inner[1])
        begin, end = begin - len(stations), end - len(stations)


def pages(
    line: Line,
    links: Links,
    track: str,
    aspect: Optional[str],
    flags: Sequence[Flag] = (),
    within: Within = (None, None),
) -> Sequence[Page]:
    """The pages of a track on which anything begins or ends, and one between two of them that anything crosses.

    Only those within these places are made.
    """
    stations = line.along.get(track, ())
    form_of: FormOf = lru_cache(maxsize=KEPT)(line.forms.get)
    shown: Dict[int, Optional[Aspect]] = {}
    numbers = {place // PAGE for place in (*map(place_of, stations), *(flag.place for flag in flags))}
    spans: List[Tuple[int, int]] = []
    bands: List[Band] = []
    for station in stations:
        one = shown[station.number] = chosen(form_of, station, aspect)
        if one and not undrawn(station, aspect):
            found = line.findings.get(station.group.name, ())
            for band in _bands(station, one, _forms(form_of, one), found):
                numbers.update(band.pages)
                spans.append((band.begin, band.end))
                bands += [band] * _is_within(band, within)
    return _filled(_empty(numbers, spans, within), stations, flags, bands, _arcs(links, track, shown))


def _is_within(band: Band, within: Within) -> bool:
    """Whether a part of a band is between two places."""
    begin, end = within
    return (begin is None or band.end >= begin) and (end is None or band.begin < end)


def _empty(numbers: Set[int], spans: Sequence[Tuple[int, int]], within: Within) -> Sequence[Page]:
    """Empty pages of these numbers, and one between two of them if a band of these spans crosses it."""
    gaps = sorted(number + 1 for number in numbers if number + 1 not in numbers and number + 2 in numbers)
    for begin, end in spans if gaps else ():
        numbers.update(gaps[bisect_left(gaps, begin // PAGE) : bisect_left(gaps, -(-end // PAGE))])
    along = sorted(numbers)
    ends = [number + 1 for number in along]
    made = [
        Page(number * PAGE, before * PAGE, number + 1 not in numbers and number != along[-1])
        for number, before in zip(along, [along[0], *ends] if along else [])
    ]
    first, last = within
    return [page for page in made if (first is None or page.begin >= first) and (last is None or page.begin < last)]


def _filled(
    known: Sequence[Page],
    stations: Sequence[BaliseGroup],
    flags: Sequence[Flag],
    bands: Sequence[Band],
    arcs: Iterable[Arc],
) -> Sequence[Page]:
    """The same pages with what is on them."""
    begins = [page.begin for page in known]

    def crossed(begin: int, end: int) -> Sequence[Page]:
        """The pages between two places. A page does not have what only ends at its beginning."""
        return known[bisect_left(begins, begin // PAGE * PAGE) : bisect_left(begins, max(end, begin + 1))]

    for station in stations:
        for page in crossed(place_of(station), place_of(station)):
            page.stations.append(station)
    for flag in flags:
        for page in crossed(flag.place, flag.place):
            page.flags.append(flag)
    for band in bands:
        for page in crossed(band.begin, band.end):
            page.bands.append(band)
    for arc in arcs:
        for page in crossed(*arc.edges):
            page.arcs.append(arc)
    return known


def _bands(station: BaliseGroup, shown: Aspect, forms: Sequence[Form], findings: Sequence[Finding]) -> Iterator[Band]:
    """A band for each direction for which a group sends an authority, a profile or an area."""
    both = ways(forms)
    short = short_profiles(findings, station.group.aspects.index(shown))
    for each in filter(None, both):
        found = [finding for finding in short if finding.direction == each.direction]
        yield Band(station, shown.name, each, all(both), found)


def _arcs(links: Links, track: str, shown: Dict[int, Optional[Aspect]]) -> Iterator[Arc]:
    """The links between groups of the track that are sent in the chosen aspects."""
    wrong = {remark.location.order: remark for remark in links.remarks if remark.rule == "L2"}
    for chain in links.line.sent.get(track, ()):
        sender, distance = chain.sender, 0
        aspect = shown[sender.number] if sender else None
        if sender is None or aspect is None or chain.location.row not in aspect.rows:
            continue
        for link in chain.links:
            distance += link.distance
            target = link.target
            if target is not None and target.km is not None and target.track == track:
                found = wrong.get(chain.at(link).order) if wrong else None
                yield Arc(place_of(sender), place_of(target), chain, link, distance, found)

"""What a group sends for one direction, drawn on a scale: speeds, gradients, authorities, and missing profiles.

Pictures of groups and of tracks use it.
"""
from __future__ import annotations

from functools import lru_cache
from typing import Iterator, NamedTuple, Optional, Sequence, Tuple

from balisekit.drawing.letters import width
from balisekit.drawing.sheet import Lane, Sheet, Spot, tenths
from balisekit.drawing.ways import Way
from balisekit.drawing.words import Describe, category_words, is_limit, limit_words, release, timers
from balisekit.engine.grammar import Finding
from balisekit.etcs.areas import Area
from balisekit.etcs.geometry import Authority, Element, Profile
from balisekit.etcs.variables import Around, Form, metres, value_words

MISSING = {10: "no gradient", 12: "no speed profile"}
"""The findings of a profile that is missing as a whole. F11 and F13 are about one that is too short."""
SPEED_PROFILE = 27
Edges = Optional[Tuple[int, int]]
"""From where to where a rectangle was drawn, in tenths of a pixel."""


def short_profiles(findings: Sequence[Finding], aspect: int = 0) -> Sequence[Finding]:
    """F10 to F13 of an aspect, or of a message."""
    of_aspect = (finding for finding in findings if (finding.aspect or 0) == aspect)
    return [finding for finding in of_aspect if 10 <= finding.rule <= 13 and finding.direction]


def profile_number(finding: Finding) -> int:
    """The packet of the profiles that F10 to F13 are about."""
    return 21 if finding.rule < 12 else SPEED_PROFILE


def is_about(finding: Finding, profile: Profile) -> bool:
    """Whether the profile is the one that F11 or F13 names."""
    return (finding.balise or 0, finding.packet) == profile.site


def gap(finding: Finding, way: Way) -> Optional[Tuple[int, int]]:
    """From where a profile is missing, and up to where: the greatest supervised location."""
    profiles = (*way.gradients, *way.speeds)
    begin = next((profile.reach for profile in profiles if is_about(finding, profile)), None)
    begin = 0 if finding.packet is None else begin
    return None if begin is None or way.supervised is None else (begin, way.supervised)


def gap_label(finding: Finding, way: Way) -> str:
    """The finding and what is missing, in few words."""
    begin, end = gap(finding, way) or (0, 0)
    return f"F{finding.rule}: " + (MISSING.get(finding.rule) or f"{metres(end - begin)} missing")


def open_end(way: Way) -> int:
    """Up to where an open profile is drawn: a tenth and 100 m beyond the last place that is known."""
    known = [way.supervised or 0]
    known += [element.begin for profile in (*way.gradients, *way.speeds) for element in profile.elements]
    known += [place for area in way.areas for place in (area.begin, area.end or 0)]
    return max(known) * 11 // 10 + 1000


def places(way: Way) -> Iterator[int]:
    """The places of a way at which something begins or ends. A picture must show them all."""
    for authority in way.authorities:
        yield from (*authority.cuts, authority.end, authority.supervised, authority.danger_point or 0)
    for profile in (*way.gradients, *way.speeds):
        yield from (element.begin for element in (*profile.elements, *profile.beyond))
        yield open_end(way) if profile.reach is None else profile.reach
    for area in way.areas:
        yield from (area.begin, open_end(way) if area.end is None else area.end)


def speed_top(ways: Sequence[Way]) -> int:
    """The speed at the upper edge of a lane: the greatest one in km/h, rounded up to 20."""
    elements = [element for way in ways for profile in way.speeds for element in profile.elements]
    speeds = [element.value for element in elements]
    speeds += [difference["v_diff"] for element in elements for difference in element.form["differences"]]
    speeds += [authority.form.get("v_main", 0) for way in ways if way.speeds for authority in way.authorities]
    return -(-max(speeds, default=4) * 5 // 20) * 20 or 20


class Sizes(NamedTuple):
    """Lengths in pixels."""

    speed: int
    """The height of the greatest speed."""
    end: int
    """How far the end of an authority extends above and below its bar."""
    supervised: int
    """How far the supervised location extends above it."""
    has_words: bool
    """Whether there is room for the words of lines: V_MAIN, and speeds of categories."""


@lru_cache(maxsize=1 << 9)
def _gradient_words(value: int, rises: int) -> str:
    """G_A with the sign of Q_GDIR. Its minus is as wide as a plus, so that it is not overlooked."""
    return value_words("g_a", value, Around({}, {"q_gdir": rises})).replace("-", "\u2212")


class WayDrawing(NamedTuple):
    """A way, and where it is on a sheet."""

    sheet: Sheet
    way: Way
    sizes: Sizes
    describe: Describe
    whose: str
    """The direction if the sheet has both, and the group if it has several."""
    sign: int
    """1 if the way leads to the right, -1 if to the left."""
    origin: int = 0
    """The place of the group on the sheet."""

    def at(self, place: int) -> int:
        """Where a place of the way is on the sheet."""
        return self.origin + self.sign * place

    def _is_beyond(self, begin: int, end: int) -> bool:
        """Whether the sheet shows nothing of what is between these places: a page of a track has parts of bands."""
        sheet, near, far = self.sheet, self.origin + self.sign * begin, self.origin + self.sign * end
        return (near < sheet.least and far < sheet.least) or (near > sheet.greatest and far > sheet.greatest)

    def _titled(self, title: str) -> str:
        return f"{title}, {self.whose}" if self.whose and title else title

    def _rect(self, style: str, title: str, begin: int, end: int, lane: Lane) -> Edges:
        origin, sign = self.origin, self.sign
        titled = f"{title}, {self.whose}" if self.whose else title
        return self.sheet.rect(style, titled, (origin + sign * begin, origin + sign * end), *lane)

    def _hatched(self, style: str, title: str, begin: int, end: int, lane: Lane) -> Edges:
        edges = self._rect(style, title, begin, end, lane)
        if edges:
            self.sheet.hatch(style, edges, lane)
        return edges

    def _mark(self, style: str, title: str, place: int, lane: Lane) -> None:
        self.sheet.mark(style, self._titled(title), self.origin + self.sign * place, *lane)

    def profile(self, profile: Profile, lane: Lane, top_speed: int) -> None:
        """A profile in its lane: its elements, the track before it, its end mark, and the elements after that."""
        is_speed, describe, steps = profile.number == SPEED_PROFILE, self.describe, []
        for element in profile.elements:
            end = open_end(self.way) if element.end is None else element.end
            if self._is_beyond(element.begin, end):
                continue
            to = " on: an open profile" if element.end is None else f" to {describe(end)}"
            where = f"from {describe(element.begin)}{to}{': end mark' if end == profile.reach else ''}"
            if is_speed:
                steps.append(self._speed(element, where, end, lane, top_speed))
            else:
                self._gradient(element, where, end, lane)
        if any(steps):
            self.sheet.path("step", "", "".join(steps))
        if profile.first > 0 and profile.elements:
            self._hatched("none", f"not given here: up to {describe(profile.first)}", 0, profile.first, lane)
        if profile.reach is None:
            name = "speed profile" if is_speed else "gradient profile"
            self._arrow(f"the {name} has no end mark: it is open", lane)
        else:
            self._mark("endmark", "", profile.reach, lane)
        for element in profile.beyond:
            title = f"after the end mark: an element at {describe(element.begin)}"
            self._mark("pale", title, element.begin, lane)

    def _level(self, speed: int, lane: Lane, top_speed: int) -> int:
        """The coordinate of a speed in km/h in its lane."""
        return lane.bottom - max(1, speed * self.sizes.speed // top_speed)

    def _speed(self, element: Element, where: str, end: int, lane: Lane, top_speed: int) -> str:
        """A speed. The path of its step is returned; the step of an open element is drawn here."""
        speed, bottom = element.value * 5, lane.bottom
        y = self._level(speed, lane, top_speed)
        edges = self._rect("speed", f"{speed} km/h {where}", element.begin, end, Lane(y, bottom - y))
        if edges is None:
            return ""
        step = f"M{tenths(edges[0])} {y}H{tenths(edges[1])}"
        if element.end is None:
            self.sheet.path("step open", self._titled(f"{speed} km/h {where}"), step)
        self.sheet.inside("middle", str(speed), edges, y + 10 if bottom - y > 10 else y - 2)
        for difference in element.form["differences"]:
            self._category(difference, where, edges, lane, top_speed)
        return step if element.end is not None else ""

    def _category(self, difference: Form, where: str, edges: Tuple[int, int], lane: Lane, top_speed: int) -> None:
        """The speed of a category of trains, as a thin line."""
        speed, (short, full) = difference["v_diff"] * 5, category_words(difference)
        y = self._level(speed, lane, top_speed)
        title = f"{speed} km/h for {full} ({value_words('q_diff', difference['q_diff'], Around())}), {where}"
        self.sheet.path("category", self._titled(title), f"M{tenths(edges[0])} {y}H{tenths(edges[1])}")
        self._along(f"{speed} {short}", edges, y)

    def _along(self, words: str, edges: Tuple[int, int], y: int) -> None:
        """The words of a line in the lane of speeds, above or below it if there is room."""
        free = edges[1] - edges[0] - width("", words) - 60
        if self.sizes.has_words and free >= 0:
            spots = [(edges[0] + 30 + free * part // 4, at) for at in (y - 2, y + 10) for part in (4, 0, 2, 3, 1)]
            self.sheet.label("", words, spots, edges)

    def v_main(self, authority: Authority, lane: Lane, top_speed: int) -> None:
        """V_MAIN as a line from the group to the end of the authority."""
        if not authority.form.get("v_main") or not authority.end:
            return
        y = self._level(authority.form["v_main"] * 5, lane, top_speed)
        begin, end = sorted(map(self.at, (0, authority.end)))
        if begin < self.sheet.greatest and end > self.sheet.least:
            edges = self.sheet.nearest(begin), self.sheet.nearest(end)
            words = f"V_MAIN {authority.form['v_main'] * 5}"
            self.sheet.path("vmain", "", f"M{tenths(edges[0])} {y}H{tenths(edges[1])}")
            self._along(words, edges, y)

    def _gradient(self, element: Element, where: str, end: int, lane: Lane) -> None:
        """A gradient."""
        rises = element.form["q_gdir"]
        value = _gradient_words(element.value, rises)
        style = "level" if element.value == 0 else "up" if rises else "down"
        edges = self._rect(style, f"{value} {where}", element.begin, end, lane)
        if edges:
            self.sheet.inside("middle", value, edges, lane.top + lane.height // 2 + 4)

    def _arrow(self, title: str, lane: Lane) -> None:
        """The end of an open profile."""
        place = self.at(open_end(self.way))
        if self.sheet.shows(place):
            tip, y = self.sheet.x(place), lane.bottom - 6
            tail = tenths(tip - self.sign * 80)
            path = f"M{tail} {y - 5}L{tenths(tip)} {y}L{tail} {y + 5}"
            self.sheet.path("arrow", self._titled(title), path)

    def authority(self, authority: Authority, bar: Lane) -> None:
        """The sections of an authority, its overlap, its end, its danger point, and its supervised location."""
        begin = 0
        for number, cut in enumerate((*authority.cuts, authority.end)):
            name = "end section" if number == len(authority.cuts) else f"section {number}"
            length = metres(cut - begin)
            title = f"{name}: {length}, to {self._end_words(authority, cut)}"
            edges = self._rect(f"section{number % 2}", title, begin, cut, bar)
            if edges:
                self.sheet.inside("light", length, edges, bar.top + bar.height // 2 + 4)
            begin = cut
        end, supervised, out = authority.end, authority.supervised, self.sizes.end
        if authority.overlap is not None:
            title = f"overlap: {metres(authority.overlap - end)}, to {self._end_words(authority, authority.overlap)}"
            title = self._titled(title + self._release(authority, "overlap"))
            self.sheet.stripes("overlap", title, (self.at(end), self.at(authority.overlap)), bar)
        self._mark("end", limit_words(authority, self.describe(end)), end, Lane(bar.top - out, bar.height + 2 * out))
        self._danger_point(authority, bar)
        if not is_limit(authority):
            above = self.sizes.supervised
            self._mark("supervised", "", supervised, Lane(bar.top - above, bar.height + above + out))
        for place, timer in timers(authority):
            self._timer(place, timer, bar)

    def _timer(self, place: int, words: str, bar: Lane) -> None:
        """A flag over the place where a timer of a section stops or starts, with its seconds if there is room."""
        if self.sheet.shows(self.at(place)):
            x = self.sheet.x(self.at(place))
            title = self._titled(f"{words} {self.describe(place)}")
            self.sheet.path("timer", title, f"M{tenths(x)} {bar.bottom}V{bar.top - 7}l5 2l-5 2")
            if self.sizes.has_words:
                short = " ".join(words.split()[1:3])
                self.sheet.label("", short, [(x + 70, bar.top - 2), (x - 20 - width("", short), bar.top - 2)])

    def _end_words(self, authority: Authority, place: int) -> str:
        """A place of an authority in words, and whether it is the supervised location."""
        return self.describe(place) + " (SvL)" * (place == authority.supervised and not is_limit(authority))

    def _danger_point(self, authority: Authority, bar: Lane) -> None:
        place = authority.danger_point
        if place is not None and self.sheet.shows(self.at(place)):
            half, x = bar.height // 2 + 1, tenths(self.sheet.x(self.at(place)))
            words = f"danger point: {self._end_words(authority, place)}{self._release(authority, 'danger_point')}"
            self.sheet.path("danger", self._titled(words), f"M{x} {bar.top - 1}l5 {half}l-5 {half}l-5 -{half}z")

    def _release(self, authority: Authority, part: str) -> str:
        """The release speed in a title, unless it is written below the bar."""
        return "" if self.sizes.has_words else f", {release(authority, part)}"

    def area(self, area: Area, lane: Lane) -> Edges:
        """A restriction, condition or mode, or the place at which the level changes, and where it is acknowledged."""
        end = open_end(self.way) if area.end is None else area.end
        to = " on" if area.end is None else f" to {self.describe(end)}"
        where = f"at {self.describe(area.begin)}" if area.begin == end else f"from {self.describe(area.begin)}{to}"
        title = f"{area.kind} {area.words}, {where}"
        if area.acknowledged is not None:
            title += f", acknowledged from {self.describe(area.acknowledged)}"
            asked = f"{area.kind} {area.words}: acknowledged from {self.describe(area.acknowledged)}"
            self._rect("acknowledged", asked, max(area.acknowledged, 0), area.begin, lane)
        title += f"; {area.layout}" * bool(area.layout)
        if area.begin < end:
            return self._rect(f"area{area.number}", title, area.begin, end, lane)
        self._mark(f"area{area.number}", title, end, lane)
        return (self.sheet.x(self.at(end)),) * 2 if self.sheet.shows(self.at(end)) else None

    def label_area(self, area: Area, words: str, y: int, within: Tuple[int, int]) -> None:
        """Which area it is: beside its bar, or on it, between the edges that are its own."""
        end = open_end(self.way) if area.end is None else area.end
        near, far = (self.sheet.nearest(self.at(place)) for place in (area.begin, end))
        wide = width("", words)
        beyond, before = (far + 30, near - 30 - wide) if self.sign > 0 else (far - 30 - wide, near + 30)
        spots: Sequence[Spot] = [(beyond, y), (before, y), ((near + far - wide) // 2, y)]
        self.sheet.label("", words, spots, within)

    def gap(self, finding: Finding, lane: Lane) -> Edges:
        """The track on which a profile is missing."""
        edges = gap(finding, self.way)
        if edges is None:
            return None
        begin, end = edges
        missing = MISSING.get(finding.rule) or f"{metres(end - begin)} are missing"
        title = f"F{finding.rule}: {missing}, from {self.describe(begin)} to {self.describe(end)}"
        title += "" if self.whose else f", {self.way.direction}"
        return self._hatched("gap", title, begin, end, lane)

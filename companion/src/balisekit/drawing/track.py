"""A track as pictures, one for each 5 km: links as arcs above the kilometre axis, and bands of groups below it.

A band has the speeds, gradients and authority of a group in one direction. Its name is at the group, with an arrow that
shows which way the band runs along the kilometres. Bands that overlap are below each other.
"""
from __future__ import annotations

from math import hypot
from typing import Dict, Iterator, List, NamedTuple, Optional, Sequence, Set, Tuple

from balisekit.drawing.flags import Flag, Mark, flags
from balisekit.drawing.letters import shortened, width
from balisekit.drawing.profiles import Edges, Sizes, WayDrawing, open_end, profile_number, speed_top
from balisekit.drawing.sheet import EDGE, EDGES, RIGHT, WIDTH, Lane, Picture, Rows, Sheet, tenths
from balisekit.drawing.track_pages import Arc, Band, Page, Within, at_km, pages, place_of, shown_words
from balisekit.etcs.areas import Area
from balisekit.etcs.geometry import NOMINAL, kilometre_of
from balisekit.etcs.variables import metres
from balisekit.rules.line import Line
from balisekit.rules.links import Links
from balisekit.rules.location import BaliseGroup
from balisekit.tables.names import clean, describe_identity, listed

ARCS, PART = 68, 0.4
"""The height of the highest arc, and how much of one is on the page that has its distance."""
BAND, SPEEDS, LOW = 76, 18, 12
"""Heights of a band, and in it of the speeds, and of gradients and authority."""
AREAS, AREA = (41, 65, 80, 68), 12
"""The packets of the other areas of a band, which are in rows below it, and the height of a row."""
Strip = Tuple[Area, int, Tuple[int, int]]
"""An area of a band on a page, its row, and from where to where it and its words need that row."""
SIZES = Sizes(speed=SPEEDS, end=3, supervised=3, has_words=False)
LANES = 12
"""How many bands without other areas fit below each other on a printed page."""
TICK = 5000
ARROW, SPACE, NAME = 110, 70, 3400
"""The width of the arrow before a name, of a space, and of a name at most, in tenths of a pixel."""
FLAGS = "-24l9 4l-9 4", "-16a4 4 0 1 1 .1 0"
"""A flag, and the ring of one that only rules L have: the pole, and what is at its top."""
NAMED = 5
"""How many groups of a page are named in words."""


def tracks_of(line: Line) -> List[str]:
    """The tracks that have a group with a kilometre, in the order of the table."""
    return list(line.along)


def note(text: str) -> Picture:
    """A line above a track, of what is not drawn on it."""
    sheet = Sheet(0, 1, 18)
    sheet.short("red", text, EDGE, sheet.y, WIDTH * 10 - 2 * EDGE)
    return sheet.picture(text, 8, text)


def track_pictures(
    line: Line,
    links: Links,
    track: str,
    aspect: Optional[str],
    marks: Sequence[Mark] = (),
    within: Within = (None, None),
) -> Iterator[Picture]:
    """The pictures of a track. If a page has too many bands below each other, the next picture goes on with them.

    Each group is in the aspect of this name, or in the one with the farthest end of authority. Marks are flags at their
    places. Marks of other tracks are ignored.
    """
    for page in pages(line, links, track, aspect, flags(marks, track), within):
        scale = Sheet(page.begin, page.end)
        placed = [_placed(scale, band) for band in page.bands]
        parts, top_speed = _parts(_lanes(placed)), speed_top([band.way for band in page.bands])
        for number, part in enumerate(parts, 1):
            title = f"track {clean(track)}, " * bool(track) + f"km {page.begin // 10_000} to {page.end // 10_000}"
            title += f", part {number} of {len(parts)}" * (len(parts) > 1)
            sheet = Sheet(page.begin, page.end, 18)
            _head(sheet, page, title, shown_words(aspect))
            _groups(sheet, page, number == 1)
            for height, lane in part:
                for one in lane:
                    _band(sheet, one, top_speed)
                sheet.y += height
            if not part:
                sheet.text("", "no authority, gradient or speed profile", 4000, sheet.y + 12)
                sheet.y += 20
            bands = [one.band for _, lane in part for one in lane]
            yield sheet.picture(title, 8, _description(page, bands, shown_words(aspect)))


def _head(sheet: Sheet, page: Page, title: str, shown: str) -> None:
    """The title, which aspects are shown, and which kilometres before the page are left out."""
    right = (WIDTH - RIGHT) * 10
    sheet.text("ending", shown, right, sheet.y)
    sheet.short("head", title, EDGE, sheet.y, right - width("", shown) - EDGE - SPACE)
    if page.left_out:
        sheet.y += 14
        sheet.text("", page.left_out, EDGE, sheet.y)


def _description(page: Page, bands: Sequence[Band], shown: str) -> str:
    """What a page shows, for those who do not see it."""
    stations = [f"{clean(each.group.name)} at {at_km(place_of(each))}" for each in page.stations[:NAMED]]
    groups = listed(stations, NAMED, len(page.stations)) if stations else "no group"
    said = listed([band.words for band in bands[:NAMED]], NAMED, len(bands))
    found = [f"{flag.words} at {at_km(flag.place)}" for flag in page.flags[:NAMED]]
    parts = [f"{groups}, {shown}", page.left_out, said, listed(found, NAMED, len(page.flags))]
    return ". ".join(filter(None, parts))


class LaidOut(NamedTuple):
    """A band on a page, from where to where it needs its lane, and where its name begins, in tenths of a pixel."""

    left: int
    right: int
    name: int
    words: str
    band: Band
    strips: Sequence[Strip]
    """Its areas."""
    height: int
    """Down to its lower edge, in pixels."""


def _placed(scale: Sheet, band: Band) -> LaidOut:
    """A band with the room that it needs. Its name is at the group, on the side to which it runs, or at an edge."""
    words = shortened("", band.label, NAME) + ("" if scale.shows(band.at) else f", from {at_km(band.at)}")
    findings = width("red", band.findings) + SPACE if band.findings else 0
    wide = ARROW + width("", words) + findings
    origin = scale.nearest(band.at)
    name = min(max(origin if band.sign > 0 else origin - wide, EDGES[0]), EDGES[1] - wide)
    strips, rows = _strips(scale, band)
    left = min(name, scale.nearest(band.begin), *(within[0] for _, _, within in strips))
    right = max(name + wide, scale.nearest(band.end), *(within[1] for _, _, within in strips))
    height = _areas_top(band) + AREA * rows
    return LaidOut(max(left, EDGES[0]), min(right, EDGES[1]), name, words, band, strips, height)


def _strips(scale: Sheet, band: Band) -> Tuple[List[Strip], int]:
    """The areas of a band that are on a page, and how many rows they need, none over another or its words."""
    strips: List[Strip] = []
    used = 0
    for number in AREAS:
        areas = [area for area in band.way.areas if area.number == number]
        edges = enumerate(_within(scale, band, area) for area in areas)
        rows = Rows()
        for within, place in sorted((within, place) for place, within in edges if within):
            strips.append((areas[place], used + rows.reserve(*within), within))
        used += rows.count
    return strips, used


def _within(scale: Sheet, band: Band, area: Area) -> Edges:
    """From where to where an area of this page is drawn, with its words after it, on it, or else before it."""
    begin = area.begin if area.acknowledged is None else max(area.acknowledged, 0)
    end = band.at + band.sign * (open_end(band.way) if area.end is None else area.end)
    low, high = sorted((band.at + band.sign * begin, end))
    if low > scale.greatest or high < scale.least:
        return None
    left, right, room = scale.nearest(low), scale.nearest(high), width("", area.words) + 60
    around = [(left - room, right), (left, right + room)]
    behind = around[band.sign > 0]
    if scale.shows(end) and EDGES[0] <= behind[0] and behind[1] <= EDGES[1]:
        return behind
    return (left, right) if right - left >= room else around[band.sign < 0]


def _parts(lanes: List[List[LaidOut]]) -> List[List[Tuple[int, List[LaidOut]]]]:
    """The lanes of a page with their heights, in as many parts as are needed, so that each fits on a printed page."""
    parts: List[List[Tuple[int, List[LaidOut]]]] = [[]]
    used = 0
    for lane in lanes:
        height = max([one.height for one in lane])
        if parts[-1] and used + height > LANES * BAND:
            parts, used = [*parts, []], 0
        parts[-1].append((height, lane))
        used += height
    return parts


def _areas_top(band: Band) -> int:
    """How far below the top of a band its other areas begin."""
    way = band.way
    return BAND if way.authorities or way.gradients or way.speeds else 16


def _lanes(placed: Sequence[LaidOut]) -> List[List[LaidOut]]:
    """The bands of a page in as many lanes as they need, so that no two of them overlap."""
    lanes: List[List[LaidOut]] = []
    rows = Rows()
    for one in sorted(placed, key=lambda one: (one.left, one.band.begin, one.right)):
        row = rows.reserve(one.left, one.right)
        lanes += [[]] if row == len(lanes) else []
        lanes[row].append(one)
    return lanes


def _groups(sheet: Sheet, page: Page, first: bool) -> None:
    """The axis. The first picture of a page has links and flags above it, and names below."""
    arcs = page.arcs if first else []
    heights = [_height(sheet, arc) for arc in arcs]
    highest = max(heights, default=0)
    sheet.y += max(highest + 24, 32 * bool(page.flags), 18) if first else 18
    written: Set[Tuple[Tuple[int, int], str]] = set()
    for arc, high in zip(arcs, heights):
        words = _distance(arc)
        said = arc.edges, words
        _arc(sheet, arc, high, "" if said in written else words)
        written.add(said)
    places = range(sheet.least, sheet.greatest + 1, TICK)
    sheet.axis("", places)
    for x, is_broken in (
        (sheet.x(sheet.least) - 100, page.before < page.begin),
        (sheet.x(sheet.greatest) + 100, page.is_broken_behind),
    ):
        if is_broken:
            sheet.path("break", "the axis is broken here", f"M{tenths(x)} {sheet.y - 8}l-4 6h8l-4 6")
    for place in places:
        sheet.tick(kilometre_of(place)[:-2], place, sheet.y + 15)
    sheet.text("", "km", EDGE, sheet.y + 15)
    _names(sheet, page.stations if first else (), page.flags if first else ())


def _names(sheet: Sheet, stations: Sequence[BaliseGroup], found: Sequence[Flag]) -> None:
    """Each group as a mark on the axis, each flag above it, and below it their names, after an arrow."""
    base, rows = sheet.y, Rows()
    places = {station.group.name: place_of(station) for station in stations}
    named: List[Tuple[int, bool, str, str]] = []
    for station in stations:
        sign = {1: "\u25b8", -1: "\u25c2"}.get(station.rising or 0, "\u2022")
        name = f"{sign} {clean(station.group.name)}{': refused' if station.unread else ''}"
        named.append((place_of(station), False, "red middle" if station.unread else "name middle", name))
    for flag in found:
        place, style = places.get(flag.group, flag.place), "middle" if flag.is_quiet else "red middle"
        named.append((place, True, style, flag.words))
    wides: Dict[int, int] = {}  # (what is at one place has one width, so that a flag is below the name)
    for place, _, style, name in named:
        wides[place] = max(wides.get(place, 0), min(width(style, name), NAME) + SPACE)
    for begin, place, _, style, name in sorted(
        (min(max(sheet.x(one[0]) - wides[one[0]] // 2, EDGES[0]), EDGES[1] - wides[one[0]]), *one) for one in named
    ):
        wide = wides[place]
        y = base + 22 + 13 * rows.reserve(begin, begin + wide)
        sheet.path("leader", "", f"M{tenths(sheet.x(place))} {base + 4}v{y - base - 2}")
        sheet.short(style, name, begin + wide // 2, y + 11, NAME)
    for flag in found:
        style, top = f"flag{' links' * flag.is_of_links}{' quiet' * flag.is_quiet}", FLAGS[flag.is_of_links]
        sheet.path(style, flag.title, f"M{tenths(sheet.x(flag.place))} {base}v{top}")
    for station in stations:
        _station(sheet, station, base)
    sheet.y = base + 32 + 13 * rows.count


def _station(sheet: Sheet, station: BaliseGroup, base: int) -> None:
    """The mark of a group on the axis."""
    at, identity = place_of(station), describe_identity(station.identity) if station.identity else "identity not known"
    title = f"{clean(station.group.name)}, {at_km(at)}, {identity}, balises: {station.balises}"
    title += f"; refused: row {', '.join(map(str, station.unread))}" if station.unread else ""
    sheet.path("station refused" if station.unread else "station", title, f"M{tenths(sheet.x(at))} {base}l-4 -7h8z")


def _band(sheet: Sheet, one: LaidOut, top_speed: int) -> None:
    """Speeds, gradients and authority of a group, where profiles are missing, and its name above them."""
    band, way, lane = one.band, one.band.way, Lane(sheet.y + 26, SPEEDS)
    lanes = {27: lane, 21: Lane(lane.bottom + 2, LOW)}
    whose = f"{way.direction}, {clean(band.station.group.name)}"
    drawing = WayDrawing(sheet, way, SIZES, band.describe, whose, band.sign, band.at)
    _name(sheet, one)
    for profile in (*way.speeds, *way.gradients):
        drawing.profile(profile, lanes[profile.number], top_speed)
    for authority in way.authorities:
        if way.speeds:
            drawing.v_main(authority, lanes[27], top_speed)
        drawing.authority(authority, Lane(lanes[21].bottom + 2, LOW))
    for area, number, within in one.strips:
        row = Lane(sheet.y + _areas_top(band) - 1 + AREA * number, AREA - 2)
        drawing.area(area, row)
        drawing.label_area(area, area.words, row.bottom - 1, within)
    for finding in band.found:
        drawing.gap(finding, lanes[profile_number(finding)])
    sheet.mark("group", "", band.at, sheet.y + 14, one.height - 18)


def _name(sheet: Sheet, one: LaidOut) -> None:
    """The name of a band, an arrow to where it runs, and what is missing: the arrow is at the group."""
    band, y = one.band, sheet.y + 10
    parts = [("red", band.findings, width("red", band.findings) + SPACE)] if band.findings else []
    parts.insert(0 if band.sign > 0 else 1, ("", one.words, width("", one.words) + SPACE))
    left = one.name + (ARROW if band.sign > 0 else 0)
    for style, words, wide in parts:
        sheet.text(style, words, left, y, "" if style or words.startswith(band.label) else band.label)
        left += wide
    tail = one.name if band.sign > 0 else left - SPACE + ARROW
    sheet.path("run", "", f"M{tenths(tail)} {y - 8}l{8 * band.sign} 4l{-8 * band.sign} 4z")


class Curve(NamedTuple):
    """The parabola of a link over the axis, higher if it is longer. Its parameter goes from 0 to 1."""

    begin: int
    end: int
    base: int
    high: int

    def point(self, at: float) -> Tuple[float, float]:
        """A point, in tenths of a pixel and in pixels."""
        return self.begin + (self.end - self.begin) * at, self.base - 4 * self.high * at * (1 - at)

    def path(self, first: float, last: float) -> str:
        """The part between two points."""
        (x, y), (to_x, to_y) = self.point(first), self.point(last)
        slope = -4 * self.high * (1 - 2 * first)
        at, by, to = _spot(x, y), _spot(x + (to_x - x) / 2, y + slope * (last - first) / 2), _spot(to_x, to_y)
        return f"M{at}Q{by} {to}"

    def arrow(self, at: float) -> str:
        """A triangle along the way of the link."""
        x, y = self.point(at)
        right, down = (self.end - self.begin) / 10, -4 * self.high * (1 - 2 * at)
        long = hypot(right, down) or 1
        dx, dy = 4 * right / long, 4 * down / long
        tip, one = (x + 10 * dx, y + dy), (x + 10 * (-dx - dy * 0.7), y + (-dy + dx * 0.7))
        return f"M{_spot(*tip)}l{_spot(*one, tip)} {_spot(x + 10 * (-dx + dy * 0.7), y + (-dy - dx * 0.7), one)}z"


def _spot(across: float, down: float, origin: Tuple[float, float] = (0, 0)) -> str:
    """A point of a path, of tenths of a pixel and of pixels, counted from another one."""
    return f"{tenths(round(across) - round(origin[0]))} {tenths(round(10 * down) - round(10 * origin[1]))}"


def _arc(sheet: Sheet, arc: Arc, high: int, words: str) -> None:
    """The part of a link that is on the page, with an arrow to where it leads, and these words if it has room."""
    begin, end = sheet.x(arc.begin), sheet.x(arc.end)
    if begin == end:
        return
    curve, long = Curve(begin, end, sheet.y, high), end - begin
    edges = (sheet.x(sheet.least) - begin) / long, (sheet.x(sheet.greatest) - begin) / long
    first, last = max(0.0, min(edges)), min(1.0, max(edges))
    sheet.path(_look(arc), _said(arc), curve.path(first, last))
    sheet.path("way red" if arc.wrong else "way", "", curve.arrow(first + (last - first) / 2))
    if words and (last - first >= PART or 0 < first < last < 1):
        points = (curve.point(first + (last - first) * part) for part in (0.5, 0.4, 0.6, 0.3, 0.7))
        style = "red middle" if arc.wrong else "middle"
        sheet.label(style, words, ((int(x), int(y) - 4) for x, y in points))


def _look(arc: Arc) -> str:
    """The style of an arc."""
    return "arc wrong" if arc.wrong else "arc" if arc.chain.direction == NOMINAL else "arc back"


def _said(arc: Arc) -> str:
    """The title of an arc."""
    target = clean(arc.link.target.group.name) if arc.link.target else ""
    sender = clean(arc.chain.sender.group.name) if arc.chain.sender else ""
    title = f"{sender} links {target}: {metres(arc.distance)} by D_LINK, {arc.chain.direction}"
    return f"{title}; links L2: {arc.wrong.sentence}" if arc.wrong else title


def _height(sheet: Sheet, arc: Arc) -> int:
    """How high an arc is: the higher the longer."""
    return min(ARCS, 14 + abs(sheet.x(arc.end) - sheet.x(arc.begin)) // 60)


def _distance(arc: Arc) -> str:
    """The distance of a link, or what L2 has found of it."""
    if arc.wrong is None:
        return metres(arc.distance)
    values = arc.wrong.values
    return f"L2: {metres(int(values['metres_by_d_link'] * 10))}, by km {values['metres_by_kilometres']:.0f} m"

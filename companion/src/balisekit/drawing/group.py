"""The picture of a group or message: a row for each aspect, with its speeds, gradients and authorities in lanes.

Metres from the group lead to the right in nominal direction, and to the left in reverse.
"""
from __future__ import annotations

from dataclasses import dataclass, replace
from functools import lru_cache
from itertools import chain, count, zip_longest
from typing import Dict, Iterator, List, Mapping, NamedTuple, Optional, Sequence, Tuple

from balisekit.drawing.letters import width
from balisekit.drawing.profiles import (
    Sizes,
    WayDrawing,
    gap,
    gap_label,
    is_about,
    places,
    profile_number,
    short_profiles,
    speed_top,
)
from balisekit.drawing.sheet import EDGE, EDGES, LEFT, ROOM, WIDTH, Lane, Picture, Rows, Shape, Sheet, tenths
from balisekit.drawing.ways import Way, passages, ways
from balisekit.drawing.words import Describe, area_words, ends, place_words, speed_words, summary
from balisekit.engine.grammar import Finding
from balisekit.etcs.areas import Area
from balisekit.etcs.geometry import DIRECTIONS, NOMINAL, REVERSE, Authority, Kilometres, kilometres
from balisekit.etcs.variables import Form, metres
from balisekit.tables.model import Aspect, Group
from balisekit.tables.names import NAMED, clean, listed, quoted

AREAS = ((41, "level"), (65, "restriction"), (80, "mode"), (68, "condition"))
"""The lanes of areas: packet and name."""
AREA, LINE = 8, 12
"""The height of an area, and of a line of words."""
PROFILES = ((27, "speed, km/h", 58), (21, "gradient, ‰", 20))
"""The lanes of profiles: packet, name and height."""
MISSING_HEIGHT, BAR = 20, Lane(12, 14)
SIZES = Sizes(speed=46, end=4, supervised=10, has_words=True)
NOTHING = "no authority, gradient or speed profile"
Drawn = Sequence[Tuple[WayDrawing, Authority]]


class LinkMark(NamedTuple):
    """A link that a rule L reports, or the place of another remark."""

    row: int
    """The row of the telegram."""
    direction: str
    place: int
    """The sum of D_LINK, or a distance from the group."""
    rule: str
    title: str
    by: str = ""
    """By which variable a link's place is known. For the place of another remark it is empty."""


@dataclass(frozen=True)
class PictureRow:
    """A row of the picture: the telegrams of an aspect in nominal order, or a message, and their findings."""

    title: str
    forms: Sequence[Form]
    short: Sequence[Finding] = ()
    infill: bool = False
    links: Sequence[LinkMark] = ()


def picture_of(
    group: Group,
    forms: Mapping[int, Form],
    findings: Sequence[Finding],
    titled: bool = False,
    only: Optional[str] = None,
    where: Optional[Kilometres] = None,
    links: Sequence[LinkMark] = (),
    name: str = "",
) -> Picture:
    """The picture of a group whose telegrams the program has read, in all aspects or only one.

    A picture by itself has a title. `where` has the kilometres of the group, if they are known already. The marks of
    links are in the first aspect that has their row. `name` is what the group is called, if that is known already.
    """
    shown = [
        (aspect, short_profiles(findings, index))
        for index, aspect in enumerate(group.aspects)
        if only in (None, aspect.name)
    ]
    return draw(group.name, list(_rows(shown, forms, links)), where or kilometres(group), titled, name)


def _rows(
    shown: Sequence[Tuple[Aspect, Sequence[Finding]]], forms: Mapping[int, Form], links: Sequence[LinkMark]
) -> Iterator[PictureRow]:
    """The rows of the picture: for each aspect its own, and what it says of the group of a packet 136."""
    for aspect, short in shown:
        rows = {row.number for row in aspect.rows}
        own, *infill_of_it = _aspect(aspect, [aspect.name], forms, short)
        yield replace(own, links=[mark for mark in links if mark.row in rows])
        yield from infill_of_it
        links = [mark for mark in links if mark.row not in rows]


def pictures_of(
    group: Group, forms: Mapping[int, Form], findings: Sequence[Finding]
) -> Iterator[Tuple[Sequence[str], Picture]]:
    """A titled picture for each aspect, with its name. Aspects whose pictures differ only in headings share one."""
    pictures: List[Picture] = []
    alike: Dict[Tuple[Shape, ...], List[int]] = {}
    for index, aspect in enumerate(group.aspects):
        pictures.append(picture_of(group, forms, findings, True, aspect.name))
        shapes = tuple(shape for shape in pictures[-1].shapes if shape.style != "head")
        alike.setdefault(shapes, []).append(index)
    for first, *others in alike.values():
        names = [group.aspects[index].name for index in (first, *others)]
        if others:
            contents = _aspect(group.aspects[first], names, forms, short_profiles(findings, first))
            pictures[first] = draw(group.name, contents, kilometres(group), True)
        yield names, pictures[first]


def _aspect(
    aspect: Aspect, names: Sequence[str], forms: Mapping[int, Form], short: Sequence[Finding]
) -> List[PictureRow]:
    """The rows of the picture for an aspect, under these names of aspects that are alike."""
    many = f"aspect{'s' * (len(names) > 1)} {listed(list(map(quoted, names)), NAMED)}"
    return _contents(many if names[0] else "in every aspect", [forms[row.number] for row in aspect.rows], short)


def picture_of_message(
    title: str, form: Form, findings: Sequence[Finding], where: Kilometres, titled: bool = False
) -> Optional[Picture]:
    """The picture of a message 3, whose places count from the group of NID_LRBG. A message 136 has none."""
    if form["nid_message"] == 136 or not any((*ways([form]), *ways([form], True))):
        return None
    lrbg = f"NID_C {form['nid_c']}, NID_BG {form['nid_bg']}"
    contents = _contents(f"metres from the group of NID_LRBG ({lrbg})", [form], short_profiles(findings))
    return draw(title, contents, where, titled)


def _contents(title: str, forms: Sequence[Form], short: Sequence[Finding]) -> List[PictureRow]:
    """The rows for these telegrams: one from their own group, and one from the group of a packet 136, if it has any."""
    contents = [PictureRow(title, forms, short)]
    if any(passages(forms, direction)[1] for direction in DIRECTIONS):
        contents.append(PictureRow(f"{title}, infill: metres from the group of packet 136", forms, infill=True))
    return contents


def draw(
    title: str, contents: Sequence[PictureRow], where: Kilometres, titled: bool = False, name: str = ""
) -> Picture:
    """The picture of a group: a row for each content, below the title if that is visible."""
    drawn = _drawn(title if titled else "", contents, where)
    km, name = where.words(0, NOMINAL), name or clean(title)
    description = f"km {km}. {drawn.description}" if km else drawn.description
    return replace(drawn, title=name, description=description)


def _drawn(title: str, contents: Sequence[PictureRow], where: Kilometres) -> Picture:
    """The picture without its name. A title is visible if there is one."""
    rows = [(content, ways(content.forms, content.infill)) for content in contents]
    nominal, reverse = (
        max((place for _, both in rows for place in places(both[index])), default=0) for index in range(2)
    )
    sheet = Sheet(-reverse, max(nominal, 1000 - reverse))
    if title:
        sheet.short("title", clean(title), EDGE, 20, WIDTH * 10 - 2 * EDGE)
        sheet.y = 28
    own, elsewhere = ([_describing(known, each) for each in DIRECTIONS] for known in (where, Kilometres()))
    top_speed = speed_top([each for _, both in rows for each in both])
    last = max((index for index, (content, both) in enumerate(rows) if any(both) and not content.infill), default=None)
    for index, (content, both) in enumerate(rows):
        sheet.short("head", clean(content.title), EDGE, sheet.y + 18, WIDTH * 10 - 2 * EDGE)
        sheet.y += 26
        if not any(both):
            sheet.text("", NOTHING, LEFT * 10, sheet.y + 10)
            sheet.y += 20
            continue
        begin = sheet.y
        _row(sheet, content, both, elsewhere if content.infill else own, top_speed)
        sheet.path("group", "the infill's group" * content.infill, f"M{tenths(sheet.x(0))} {begin}V{sheet.y + 4}")
        if content.infill or index == last:
            _axis(sheet, Kilometres() if content.infill else where)
    return sheet.picture("", 6, _description(rows))


def _description(rows: Sequence[Tuple[PictureRow, Sequence[Way]]]) -> str:
    """What the picture shows, for those who do not see it: authorities by row, and what all rows have together."""
    authorities = [f"{clean(content.title)}: {_authority_words(content, both)}" for content, both in rows]
    whole = summary([each for _, both in rows for each in both], metres)
    return ". ".join(filter(None, [*authorities, whole]))


def _authority_words(content: PictureRow, both: Sequence[Way]) -> str:
    """The authorities and gaps of a row."""
    if not any(both):
        return NOTHING
    said = [f"{each.direction}{_missing(content, each)}, {ends(each, metres)}" for each in both if each]
    return "; ".join(said)


def _missing(content: PictureRow, each: Way) -> str:
    """The gaps of a way."""
    found = [finding for finding in content.short if finding.direction == each.direction and gap(finding, each)]
    return "".join(f", {gap_label(finding, each)}" for finding in found)


def _describing(where: Kilometres, direction: str) -> Describe:
    """Places of this direction in words. An element ends where the next one begins, so they are kept."""

    @lru_cache(maxsize=None)
    def describe(place: int) -> str:
        km = where.words(place, direction)
        return f"{metres(place)}, km {km}" if km else metres(place)

    return describe


def _row(sheet: Sheet, content: PictureRow, both: Sequence[Way], describe: Sequence[Describe], top_speed: int) -> None:
    if both[1]:
        _directions(sheet, bool(both[0]))
    drawings = [
        WayDrawing(sheet, each, SIZES, describe[index], each.direction if both[1] else "", 1 - 2 * index)
        for index, each in enumerate(both)
    ]
    _profiles(sheet, content, drawings, top_speed)
    for authorities in zip_longest(*[each.authorities for each in both]):
        _authorities(sheet, [(drawing, one) for drawing, one in zip(drawings, authorities) if one])
    for number, name in AREAS:
        areas = [(drawing, area) for drawing in drawings for area in drawing.way.areas if area.number == number]
        if areas:
            _areas(sheet, name, areas)
    for drawing in drawings:
        _links(drawing, [mark for mark in content.links if mark.direction == drawing.way.direction])


def _links(drawing: WayDrawing, marks: Sequence[LinkMark]) -> None:
    """A ring at each of these places, or at the edge beyond which it is."""
    sheet = drawing.sheet
    for mark in marks:
        lane, words = _lane(sheet, "link" if mark.by else "place", LINE), f"{mark.rule}: {metres(mark.place)}{mark.by}"
        x, wide = sheet.nearest(drawing.at(mark.place)), width("red", words)
        sheet.path("links", mark.title, f"M{tenths(x)} {lane.bottom}v-3a4 4 0 1 1 .1 0")
        sheet.text("red", words, x + 70 if x + 70 + wide < EDGES[1] else x - 70 - wide, lane.bottom - 3)


def _directions(sheet: Sheet, has_nominal: bool) -> None:
    """Which side of the group is which direction, in a line of its own."""
    sheet.y += 8
    nominal, reverse = "nominal \u2192", "\u2190 reverse"
    begin = min(sheet.x(0) + 60, EDGES[1] - width("", nominal))
    if has_nominal:
        sheet.text("", nominal, begin, sheet.y)
    sheet.text("ending", reverse, max(min(sheet.x(0), begin) - 60, EDGE + width("", reverse)), sheet.y)


def _profiles(sheet: Sheet, content: PictureRow, drawings: Sequence[WayDrawing], top_speed: int) -> None:
    """The lanes of profiles, with V_MAIN in the first one of speeds."""
    for number, name, height in PROFILES:
        kinds = [drawing.way.speeds if number == 27 else drawing.way.gradients for drawing in drawings]
        for index, profiles in enumerate(zip_longest(*kinds)):
            lane = _lane(sheet, name, height)
            for drawing, profile in zip(drawings, profiles):
                if profile:
                    drawing.profile(profile, lane, top_speed)
            for drawing, authority in _all_authorities(drawings) if number == 27 and index == 0 else ():
                drawing.v_main(authority, lane, top_speed)
            for drawing, profile in zip(drawings, profiles):
                if profile:
                    _gaps(drawing, [finding for finding in content.short if is_about(finding, profile)], lane)
        missing = [finding for finding in content.short if finding.packet is None and profile_number(finding) == number]
        if missing:
            lane = _lane(sheet, name, MISSING_HEIGHT)
            for drawing in drawings:
                _gaps(drawing, missing, lane)


def _all_authorities(drawings: Sequence[WayDrawing]) -> Drawn:
    return [(drawing, authority) for drawing in drawings for authority in drawing.way.authorities]


def _authorities(sheet: Sheet, drawn: Drawn) -> None:
    """A lane with an authority of each direction, and below it what is at which place."""
    lane = _lane(sheet, "authority", BAR.bottom)
    bar = Lane(lane.top + BAR.top, BAR.height)
    for drawing, authority in drawn:
        drawing.authority(authority, bar)
    for drawing, authority in drawn:
        words = f"{drawing.whose}: " * (len(drawn) > 1) + speed_words(authority)
        _write_at(drawing, words, 0, bar.bottom, is_toward=False)
    lines = [
        _write_at(drawing, words, place, bar.bottom, is_toward=True)
        for drawing, authority in drawn
        for place, words in place_words(authority)
    ]
    sheet.path("leader", "", "".join(lines))
    sheet.y += 6


def _write_at(drawing: WayDrawing, words: str, place: int, bottom: int, is_toward: bool) -> str:
    """Words below a place of a bar: with `is_toward` at the side toward the group if there is room, else elsewhere.

    With `is_toward`, the path of a line from the place to the words is returned.
    """
    sheet, wide = drawing.sheet, width("", words)
    x = sheet.x(drawing.at(place))
    left, right = x - 30 - wide, x + 40
    sides = [left, right] if drawing.sign > 0 else [right, left]
    near = min(max(x - wide // 2, EDGES[0]), EDGES[1] - wide)
    starts = [*(sides if is_toward else sides[1:]), near]
    spots = ((start, y) for y in count(bottom + LINE, LINE) for start in starts)
    spot = sheet.label("", words, spots)
    if spot:
        sheet.y = max(sheet.y, spot[1])
        if is_toward:
            return f"M{tenths(x)} {bottom}v{spot[1] - bottom - 8 * (left < spot[0] < right)}"
    return ""


def _areas(sheet: Sheet, name: str, areas: Sequence[Tuple[WayDrawing, Area]]) -> None:
    """The areas of a packet as bars, each with its words below it. Areas that overlap are in different rows."""
    rows, items = Rows(), []
    for index, (drawing, area) in enumerate(areas):
        words, begin = area_words(area, metres), area.begin if area.acknowledged is None else area.acknowledged
        ends = [sheet.nearest(drawing.at(place)) for place in (max(begin, 0), area.begin, area.end or 0)]
        if area.end is None:
            ends.append(EDGES[int(drawing.sign > 0)])
        left = min(min(ends), EDGES[1] - width("", words))
        items.append((left, max(*ends, left + width("", words)) + EDGE, index, words))
    placed = [(rows.reserve(left, right), left, index, words) for left, right, index, words in sorted(items)]
    lane = _lane(sheet, name, rows.count * (AREA + LINE + 2))
    for row, left, index, words in placed:
        drawing, area = areas[index]
        bar = Lane(lane.top + row * (AREA + LINE + 2), AREA)
        drawing.area(area, bar)
        sheet.text("", words, left, bar.bottom + LINE - 1)


def _lane(sheet: Sheet, name: str, height: int) -> Lane:
    """The next lane, below what is drawn."""
    lane = Lane(sheet.y + 6, height)
    sheet.y = lane.bottom
    sheet.text("", name, EDGE, lane.top + min(height, 58) // 2 + 4)
    return lane


def _gaps(drawing: WayDrawing, findings: Sequence[Finding], lane: Lane) -> None:
    """Where profiles of a direction are missing, with a text: inside if there is room, else below the lane."""
    sheet = drawing.sheet
    for finding in findings:
        edges = drawing.gap(finding, lane) if finding.direction == drawing.way.direction else None
        if edges is None:
            continue
        label = gap_label(finding, drawing.way)
        wide = width("red", label)
        left = (edges[0] + edges[1] - wide) // 2
        inside = [(left, lane.top + 14)] if wide + 100 < edges[1] - edges[0] else []
        below = min(max(left, LEFT * 10), EDGES[1] - wide)
        spot = sheet.label("red", label, chain(inside, ((below, y) for y in count(lane.bottom + LINE - 1, LINE))))
        sheet.y = max(sheet.y, spot[1] + 3) if spot and spot[1] > lane.bottom else sheet.y


def _axis(sheet: Sheet, where: Kilometres) -> None:
    """An axis with metres, and with kilometres if the table has them."""
    sheet.y += 8
    known = [(place, where.words(abs(place), REVERSE if place < 0 else NOMINAL)) for place in _ticks(sheet, where)]
    sheet.axis("", [place for place, _ in known])
    has_km = all(km for _, km in known)
    for place, _ in known:
        sheet.tick(metres(abs(place)), place, sheet.y + 14)
    for place, km in known if has_km else ():
        sheet.tick(km, place, sheet.y + 25)
    if has_km:
        sheet.text("", "km", EDGE, sheet.y + 25)
    sheet.y += 32 if has_km else 20


def _ticks(sheet: Sheet, where: Kilometres) -> Sequence[int]:
    """The places of ticks: a distance of 1, 2 or 5 times a power of ten apart, with room for what is below them."""
    length = sheet.greatest - sheet.least
    ends = [
        text
        for place, direction in ((sheet.least, REVERSE), (sheet.greatest, NOMINAL))
        for text in (metres(place), where.words(abs(place), direction))
    ]
    widest = max(width("tick", text) for text in ends) + 100
    steps = (int(digit * 10**power) for power in count(1) for digit in (1, 2, 5))
    step = next(step for step in steps if step * ROOM // length > widest and length // step < 11)
    return range(-(-sheet.least // step) * step, sheet.greatest + 1, step)

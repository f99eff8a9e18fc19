"""The sheet of a picture: shapes with their coordinates, and the scale of places along the track.

Coordinates across are whole tenths of a pixel. The template draws what is here and computes nothing. No text of a
picture is over another one: a sheet knows what its texts cover.
"""
from __future__ import annotations

from collections import defaultdict
from dataclasses import dataclass, field
from functools import lru_cache
from heapq import heappop, heappush
from typing import Dict, Iterable, List, NamedTuple, Optional, Tuple

from balisekit.drawing.letters import Box, box, shortened, width

WIDTH, LEFT, RIGHT = 800, 84, 34
BEGIN, ROOM = LEFT * 10, (WIDTH - LEFT - RIGHT) * 10
"""The coordinate of the least place, and the width that all places have, in tenths of a pixel."""
EDGE = 40
"""How far texts are from the edges, in tenths of a pixel."""
EDGES = EDGE, WIDTH * 10 - EDGE
STROKES = 7, 60
"""How many pixels the strokes of a hatch are apart at least, and how many there are at most."""
Spot = Tuple[int, int]
"""The coordinate of a text: tenths of a pixel, and pixels."""


class Shape(NamedTuple):
    """A rectangle, a path or a text."""

    tag: str
    style: str
    title: str = ""
    x: str = ""
    y: str = ""
    width: str = ""
    height: str = ""
    path: str = ""
    text: str = ""


@dataclass(frozen=True)
class Picture:
    """Shapes, and the size that they need."""

    title: str
    height: int
    shapes: Iterable[Shape]
    width: int = WIDTH
    description: str = ""
    """What the picture shows, in a few sentences, for those who do not see it."""


class Lane(NamedTuple):
    """A strip across the picture."""

    top: int
    height: int

    @property
    def bottom(self) -> int:
        """Its lower edge."""
        return self.top + self.height


@lru_cache(maxsize=1 << 14)
def tenths(number: int) -> str:
    """A coordinate of whole tenths, as SVG has it."""
    return f"{number / 10:.1f}".replace(".0", "")


class Rows:
    """Rows below each other, within which nothing overlaps. They must be reserved in the order of beginnings.

    Rows that are free again are on a heap, because a page can have hundreds of them.
    """

    def __init__(self) -> None:
        self.count = 0
        self._free: List[int] = []
        self._used: List[Tuple[int, int]] = []

    def reserve(self, begin: int, end: int) -> int:
        """The first row that is free from here on. It is used up to the end."""
        while self._used and self._used[0][0] <= begin:
            heappush(self._free, heappop(self._used)[1])
        if not self._free:
            self._free, self.count = [self.count], self.count + 1
        row = heappop(self._free)
        heappush(self._used, (end, row))
        return row


@dataclass
class Sheet:
    """The shapes drawn so far, and the scale: whole decimetres from the least place to the greatest."""

    least: int
    greatest: int
    y: int = 0
    """Down to where it is drawn on."""
    shapes: List[Shape] = field(default_factory=list)
    texts: List[Shape] = field(default_factory=list)
    """The texts, which are above all else."""
    _covered: Dict[int, List[Box]] = field(default_factory=lambda: defaultdict(list))
    """What texts cover, by strips of 16 pixels."""

    def x(self, place: int) -> int:
        """Where a place is, in tenths of a pixel."""
        least = self.least
        return BEGIN + (place - least) * ROOM // (self.greatest - least)

    def shows(self, place: int) -> bool:
        """Whether a place is on the sheet."""
        return self.least <= place <= self.greatest

    def nearest(self, place: int) -> int:
        """The coordinate of the place on the sheet that is nearest to this one, in tenths of a pixel."""
        return self.x(min(max(place, self.least), self.greatest))

    def rect(self, style: str, title: str, places: Tuple[int, int], y: int, height: int) -> Optional[Tuple[int, int]]:
        """The part of a rectangle that is on the sheet, at least a pixel wide. Returns its left and right edge."""
        near, far = places
        if near > far:
            near, far = far, near
        begin = near if near > self.least else self.least
        end = far if far < self.greatest else self.greatest
        if begin > end or begin == end and near != far:
            return None
        length = self.greatest - self.least
        left = BEGIN + (begin - self.least) * ROOM // length
        right = max(BEGIN + (end - self.least) * ROOM // length, left + 10)
        self.shapes.append(Shape("rect", style, title, tenths(left), str(y), tenths(right - left), str(height)))
        return left, right

    def hatch(self, style: str, edges: Tuple[int, int], lane: Lane) -> None:
        """Strokes across a rectangle, from lower left to upper right. A pattern would make large files of prints."""
        left, right, tall = edges[0], edges[1], lane.height * 10
        step, strokes = max(STROKES[0] * 10, (right - left + tall) // STROKES[1]), []
        for begin in range(left - tall + step // 2, right, step):
            low, high = max(begin, left), min(begin + tall, right)
            if low < high:
                length = tenths(high - low)
                strokes.append(f"M{tenths(low)} {tenths(lane.bottom * 10 - (low - begin))}l{length}-{length}")
        self.path(f"hatch {style}", "", "".join(strokes))

    def stripes(self, style: str, title: str, places: Tuple[int, int], lane: Lane) -> None:
        """The part of a strip of upright strokes that is on the sheet. The style sheet has their height."""
        near, far = min(places), max(places)
        if near < self.greatest and far > self.least or near == far and self.shows(near):
            begin, end = self.nearest(near), self.nearest(far) + 10
            self.path(style, title, f"M{tenths(begin)} {lane.top + lane.height // 2}H{tenths(end)}")

    def path(self, style: str, title: str, path: str) -> None:
        """A line through points."""
        self.shapes.append(Shape("path", style, title, "", "", "", "", path))

    def mark(self, style: str, title: str, place: int, y: int, height: int) -> None:
        """An upright line at a place, if that is on the sheet."""
        if self.least <= place <= self.greatest:
            path = f"M{tenths(self.x(place))} {y}v{height}"
            self.shapes.append(Shape("path", style, title, "", "", "", "", path))

    def text(self, style: str, text: str, x: int, y: int, title: str = "") -> None:
        """A text at a coordinate, which is rounded down to a pixel. The caller knows that it covers no other text."""
        x -= x % 10
        self._put(Shape("text", style, title, tenths(x), str(y), "", "", "", text), box(style, text, x, y))

    def _put(self, shape: Shape, covered: Box) -> None:
        self.texts.append(shape)
        for strip in range(covered[1] // 160, covered[3] // 160 + 1):
            self._covered[strip].append(covered)

    def short(self, style: str, text: str, x: int, y: int, room: int) -> None:
        """A text, shortened if it does not fit into the room. Then its title has all of it."""
        written = shortened(style, text, room)
        self.text(style, written, x, y, "" if written == text else text)

    def is_free(self, wanted: Box, within: Tuple[int, int] = EDGES) -> bool:
        """Whether it is between the edges, and no text covers a part of it."""
        left, top, right, bottom = wanted
        if left < within[0] or right > within[1]:
            return False
        for strip in range(top // 160, bottom // 160 + 1):
            for begin, upper, end, lower in self._covered[strip]:
                if begin < right and left < end and upper < bottom and top < lower:
                    return False
        return True

    def label(self, style: str, text: str, spots: Iterable[Spot], within: Tuple[int, int] = EDGES) -> Optional[Spot]:
        """A text at the first of these coordinates that is free. If none is, it is left out."""
        for place, y in spots:
            x = place - place % 10
            wanted = box(style, text, x, y)
            if self.is_free(wanted, within):
                self._put(Shape("text", style, "", tenths(x), str(y), "", "", "", text), wanted)
                return x, y
        return None

    def inside(self, style: str, text: str, edges: Tuple[int, int], y: int) -> None:
        """A text in the middle between two coordinates, if it fits there."""
        left, right = edges
        if width(style, text) <= right - left:
            self.label(style, text, [((left + right) // 2, y)])

    def axis(self, title: str, places: Iterable[int]) -> None:
        """A line from the least place to the greatest, with a tick at each of these places."""
        at = [self.x(self.least), *map(self.x, places)]
        ticks = "".join(f"m{tenths(x - before)}-4v4" for before, x in zip(at, at[1:]))
        line = f"M{tenths(at[0])} {self.y}H{tenths(self.x(self.greatest))}"
        self.path("axis", title, f"{line}M{tenths(at[0])} {self.y + 4}{ticks}")

    def tick(self, text: str, place: int, y: int) -> None:
        """A text below the axis, within the picture."""
        half = width("tick", text) // 2 + 10
        self.text("tick", text, min(max(self.x(place), half), WIDTH * 10 - half), y)

    def picture(self, title: str, margin: int, description: str = "") -> Picture:
        """What has been drawn."""
        return Picture(title, self.y + margin, (*self.shapes, *self.texts), description=description)

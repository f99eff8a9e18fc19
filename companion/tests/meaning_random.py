"""Random sound lines of 5 to 200 groups for the rules E: `random_line(seed)`.

Places are whole decimetres and the kilometres of the table are rounded to 1 m. Distances are rounded to the unit of
their packet. A line has one or two tracks, signals for one or both directions, infill, level borders, temporary speed
restrictions, and single balises that packets 5 of both directions name.
"""
from __future__ import annotations

from dataclasses import dataclass, field
from functools import lru_cache
from itertools import accumulate
from math import ceil
from random import Random
from typing import Any, Callable, Iterator, List, Optional, Sequence, Tuple

import meaning_line
from meaning_line import END, INFILL_BEFORE, OVERLAP, Form, Row, telegram
from meaning_mistakes_of_groups import raw

UNITS = (0.1, 1, 10)
"""In metres, by Q_SCALE."""
ASPECTS = (("red", "green"), ("red", "yellow", "green"), ("red", "yellow", "double yellow", "green"))
APART = 40
"""Metres between any two groups at least."""
Steps = Sequence[Tuple[float, int]]


@dataclass(eq=False)
class Site:
    """A group. Its place is in metres, and for the rows it is rounded."""

    kind: str
    """`Signal`, `Infill`, `Border`, `Single` or `Fixed`: the last one has profiles and links only."""
    place: float
    way: int
    """Of its trains: 1 towards greater kilometres, else -1, and 0 for both."""
    nominal: int
    scale: int
    spacing: int
    number: int = 0
    signal: Optional[Site] = None
    """Of an infill group."""
    level: int = 0
    extra: List[Form] = field(default_factory=list)
    """The further packets of its fixed balise."""


class Track:
    """A track of a random line, and all that its groups send."""

    def __init__(self, random: Random, name: str, begin: int, signals: int, first: int, has_137: bool) -> None:
        """`first` is the NID_BG of its first group, and `has_137` is whether stop aspects have a packet 137."""
        self.random, self.name, self.has_137 = random, name, has_137
        self.aspects = random.choice(ASPECTS)
        self.ways = random.choice(((1,), (-1,), (1, -1), (1, -1)))
        self.accuracy = random.choice((5, 12))
        """Q_LOCACC of all links. D_LINK has a unit of 10 m only if that is greater."""
        self.sites: List[Site] = []
        for way in self.ways:
            self._signals(way, begin, max(signals // len(self.ways), 3))
        # (beyond the last signal of a way an authority ends at no group)
        places = [[each.place for each in self.sites if each.way == way and each.kind == "Signal"] for way in self.ways]
        low, high = round(max(min(own) for own in places) * 10), round(min(max(own) for own in places) * 10)
        for kind in ("Single", "Fixed"):
            for _ in range(random.randint(0, 1 + signals // 10) if low < high else 0):
                self._add(kind, random.randrange(low, high) / 10, 0 if len(self.ways) == 2 else self.ways[0])
        self.sites.sort(key=lambda site: site.place)
        for number, site in enumerate(self.sites, first):
            site.number = number
        self.gradients = self._random_steps(lambda: random.randint(-20, 20))
        self.speeds = self._random_steps(lambda: random.choice((80, 100, 120, 140, 160)))
        for way in self.ways:
            self._orders(way)
            self._restrictions(way)

    def _add(self, kind: str, place: float, way: int, signal: Optional[Site] = None) -> Optional[Site]:
        """A group, unless another one is too near."""
        if any(abs(each.place - place) < APART for each in self.sites):
            return None
        random = self.random
        nominal = random.choice((1, 1, 1, -1)) * (way or 1)
        site = Site(kind, place, way, nominal, random.choice((0, 1, 1, 2)), random.randint(3, 11), signal=signal)
        self.sites.append(site)
        return site

    def _signals(self, way: int, begin: int, count: int) -> None:
        """The signals of a direction, and their infill and border."""
        place = float(begin)
        for _ in range(count):
            while self._add("Signal", place, way) is None:
                place += APART
            place = round(place + self.random.randrange(9_000, 22_000) / 10, 1)
        own = self.sites[-count:]
        for signal in self.random.sample(own, self.random.randint(0, 2)):
            self._add("Infill", signal.place - way * INFILL_BEFORE, way, signal)
        if self.random.random() < 0.4:
            signal = self.random.choice(own)
            border = self._add("Border", round(signal.place + way * self.random.randrange(3_000, 7_000) / 10, 1), way)
            if border:
                border.level = self.random.choice((0, 2, 3))

    def _random_steps(self, value: Callable[[], int]) -> Steps:
        """Values, each with the place from which on it holds, from before the first group to after the last one."""
        found: List[Tuple[float, int]] = []
        at = self.sites[0].place - 20_000
        while at < self.sites[-1].place + 20_000:
            found.append((round(at, 1), value()))
            at += self.random.randrange(8_000, 40_000) / 10
        return found

    def ahead(self, site: Site, way: int, trains: int = 0) -> List[Site]:
        """The groups on one side of a site, the nearest one first: those for trains of this way, or of another one."""
        ways = (trains or way, 0)
        return [each for each in self.sites[::way] if each.way in ways and (each.place - site.place) * way > 0]

    @lru_cache(maxsize=None)
    def ends(self, signal: Site) -> List[float]:
        """How far it is to each of the next signals, and beyond the last one to some more."""
        signals = [each for each in self.ahead(signal, signal.way) if each.kind == "Signal"]
        found = [abs(each.place - signal.place) for each in signals[: len(self.aspects) - 1]]
        while len(found) < len(self.aspects) - 1:
            found.append((found[-1] if found else 0) + 1500)
        return found

    def _orders(self, way: int) -> None:
        """The level transition orders of borders, and what level 2 needs."""
        for border in [each for each in self.sites if each.kind == "Border" and each.way == way]:
            rear = [each for each in self.ahead(border, -way, way) if each.kind == "Signal"]
            transitions = [{"m_leveltr": border.level, "l_ackleveltr": 0}]
            now = self.random.choice((0, 32_767))
            border.extra.append(self.packet(border, way, 41, 1, d_leveltr=now, transitions=transitions))
            for site in rear[:2]:
                distance = abs(border.place - site.place)
                scale = self.scale(site, 41, distance)
                order = {"d_leveltr": round(distance / UNITS[scale]), "transitions": transitions}
                site.extra.append(self.packet(site, way, 41, scale, **order))
            if border.level == 3:
                first = rear[:2][-1]
                first.extra.append(raw(42, f"1{352:010b}{1:014b}{'1' * 64}0", self.direction(first, way)))
                body = f"01{round(abs(border.place - first.place)):015b}{352:010b}{2:014b}{'1' * 64}0"
                first.extra.append(raw(131, body, self.direction(first, way)))
                border.extra.append(raw(46, f"{3:03b}{0:05b}", self.direction(border, way)))

    def _restrictions(self, way: int) -> None:
        """A temporary speed restriction that two signals have."""
        own = [each for each in self.sites if each.kind == "Signal" and each.way == way and not each.extra][::way]
        if self.random.random() < 0.5 and len(own) > 1:
            index = self.random.randrange(len(own) - 1)
            place = own[index + 1].place + way * self.random.randrange(100, 9000) / 10
            length, speed = self.random.randrange(100, 900, 10), self.random.choice((40, 60, 80))
            for site in own[index : index + 2]:
                distance = abs(place - site.place)
                scale = self.scale(site, 65, distance)
                fields = f"{round(distance / UNITS[scale]):015b}{round(length / UNITS[scale]):015b}"
                body = f"{scale:02b}{10 + (way > 0):08b}{fields}0{speed // 5:07b}"
                site.extra.append(raw(65, body, self.direction(site, way)))

    @staticmethod
    def direction(site: Site, way: int) -> int:
        """Q_DIR of packets for trains of a way."""
        return int(way == site.nominal)

    @staticmethod
    def scale(site: Site, number: int, greatest: float) -> int:
        """Q_SCALE of a packet of a group, in which this distance fits."""
        scale = site.scale if number == 12 else (site.scale + site.number + number) % 3
        return max(scale, 1) if greatest > 3200 else scale

    def packet(self, site: Site, way: int, number: int, scale: int, **keys: Any) -> Form:
        """A packet of a group for trains of a way."""
        return {"nid_packet": number, "q_dir": self.direction(site, way), "q_scale": scale, **keys}

    @property
    def rows(self) -> List[Row]:
        """The rows of the table."""
        return [row for site in self.sites for row in self._rows(site)]

    def _rows(self, site: Site) -> Iterator[Row]:
        name = self.name_of(site)
        header = meaning_line.Site(name, site.number, 0, site.way, site.nominal)
        telegrams = self._telegrams(site)
        for aspect, balise, packets in telegrams:
            counter = 1 + self.aspects.index(aspect) if aspect in self.aspects else 255
            form = {**telegram(header, balise, counter, *packets), "n_total": telegrams[-1][1]}
            place = round(site.place) + site.nominal * site.spacing * balise
            yield Row(name, f"{name} {balise + 1}", place, aspect, balise, form, self.name.strip())

    def name_of(self, site: Site) -> str:
        """The name of a group."""
        return f"{self.name}{site.kind} {site.number}"

    def _telegrams(self, site: Site) -> List[Tuple[str, int, List[Form]]]:
        """The aspect, the balise and the packets of each telegram, the last balise last."""
        way, signal = site.way or self.ways[0], site.signal or site
        fixed = [*self._linking(site, way), *site.extra]
        if site.kind == "Border":
            return [("", 0, fixed), ("", 1, [])]
        if site.kind == "Single":
            return [("", 0, self._profiles(site, way))]
        if site.kind == "Fixed":
            other = [("", 2, [*self._linking(site, -way), *self._profiles(site, -way)])] if site.way == 0 else []
            return [("", 0, fixed), ("", 1, self._profiles(site, way)), *other]
        direction = self.direction(site, way)
        reference = [raw(136, f"0{signal.number:014b}", direction)] if site.signal else []
        aspects = enumerate(self.aspects)
        first = 0 if direction or not reference else 1  # (what follows a packet 136 counts from its signal)
        own = [(each, 1 - first, [*reference, *self._of_aspect(signal, index, direction)]) for index, each in aspects]
        return sorted([("*", first, fixed), *own], key=lambda each: each[1])

    def _profiles(self, site: Site, way: int) -> List[Form]:
        """Gradients and speeds over 2 km, without an authority."""
        return [self._profile(site, way, number, 2000) for number in (21, 27)]

    def _of_aspect(self, signal: Site, aspect: int, direction: int) -> List[Form]:
        """Authority, gradients and speeds of an aspect of a signal, for this Q_DIR."""
        ends = [0.0, *self.ends(signal)][: aspect + 1]
        scale = self.scale(signal, 12, ends[-1] + OVERLAP)
        unit = UNITS[scale]
        lengths = [round((end - before) / unit) for before, end in zip(ends, ends[1:])] or [0]
        if signal.number % 2:
            lengths = [round(ends[-1] / unit)]
        supervised = (sum(lengths) + round(OVERLAP / unit)) * unit
        steep, fast = (self._profile(signal, signal.way, each, supervised) for each in (21, 27))
        authority: Form = {
            **self.packet(signal, signal.way, 12, scale),
            "v_main": max(each["v_static"] for each in fast["elements"][:-1]) if aspect else 0,
            "end_speed": 0,
            "end_timeout": 1023,
            "sections": [{"l_section": each} for each in lengths[:-1]],
            "l_endsection": lengths[-1],
        }
        if aspect:
            overlap = {"d_startol": round(100 / unit), "t_ol": 60, "d_ol": round(OVERLAP / unit), "v_releaseol": 6}
            authority["overlap"] = overlap
        stop = [raw(137, "0")] if aspect == 0 and self.has_137 else []
        return [{**each, "q_dir": direction} for each in (authority, steep, fast, *stop)]

    def _profile(self, site: Site, way: int, number: int, reach: float) -> Form:
        """A packet 21 or 27 that reaches `reach` metres, rounded up."""
        scale = self.scale(site, number, reach)
        unit, sign = UNITS[scale], way if number == 21 else 1
        end = ceil(round(reach / unit, 6))
        found: List[Tuple[int, int]] = []
        for at, value in self._stretches(site, way, self.gradients if number == 21 else self.speeds, reach, sign):
            found = [each for each in found if each[0] < round(at / unit)]
            if round(at / unit) < end and (not found or found[-1][1] != value):
                found.append((round(at / unit), value))
        distances = [at - before for (before, _), (at, _) in zip([(0, 0), *found], [*found, (end, END)])]
        element = _gradient if number == 21 else _speed
        elements = [element(distance, value) for distance, (_, value) in zip(distances, [*found, (end, END)])]
        return self.packet(site, way, number, scale, elements=elements)

    def _stretches(self, site: Site, way: int, steps: Steps, reach: float, sign: int) -> List[Tuple[float, int]]:
        """Values, each with the distance from which on it holds, in the order in which a train meets them."""
        cuts = sorted((at - site.place) * way for at, _ in steps if 0 < (at - site.place) * way < reach)
        found = []
        for distance in (0.0, *cuts):
            middle = site.place + way * (distance + 0.05)
            found.append((distance, next(value for begin, value in reversed(steps) if begin <= middle) * sign))
        return found

    def _linking(self, site: Site, way: int) -> List[Form]:
        """The groups ahead, up to 50 m beyond the farthest authority: its signal may have its group there."""
        signal = site.signal or site
        reach = max(self.ends(signal)) + abs(site.place - signal.place) if signal.kind == "Signal" else 2000
        ahead = [each for each in self.ahead(site, way) if abs(each.place - site.place) <= reach + 50]
        distances = [abs(each.place - before.place) for before, each in zip([site, *ahead], ahead)]
        scale = min(self.scale(site, 5, max(distances, default=0)), 2 if self.accuracy > 10 else 1)
        unit = UNITS[scale]
        totals = [0, *(round(each / unit) for each in accumulate(distances))]
        rounded = [after - before for before, after in zip(totals, totals[1:])]
        if site.number % 3 == 0 and unit < 10:
            rounded = [round(each / unit) for each in distances]
        links = [
            {
                "d_link": distance,
                "nid_bg": each.number,
                "q_linkorientation": int(each.nominal == way),
                "q_linkreaction": 1,
                "q_locacc": self.accuracy,
            }
            for distance, each in zip(rounded, ahead)
        ]
        return [self.packet(site, way, 5, scale, links=links)] if links else []


def _gradient(distance: int, value: int) -> Form:
    """An element of a packet 21."""
    return {"d_gradient": distance, "q_gdir": int(0 <= value < END), "g_a": min(abs(value), 255)}


def _speed(distance: int, value: int) -> Form:
    """An element of a packet 27."""
    return {"d_static": distance, "v_static": 127 if value == END else value // 5, "q_front": 0, "differences": []}


class RandomLine:
    """One or two tracks."""

    def __init__(self, seed: int, most: int) -> None:
        random = Random(f"line {seed}")
        groups = random.randint(5, most)
        has_137 = random.random() < 0.5
        self.tracks = [Track(random, "", 10_000, max(groups * 7 // 10, 5), 1, has_137)]
        if groups > 9 and random.random() < 0.3:
            begin = 10_000 + random.randrange(0, 5000)
            self.tracks.append(Track(random, "2 ", begin, random.randint(4, 6), 8000, has_137))

    @property
    def rows(self) -> List[Row]:
        """The rows of the table."""
        return [row for track in self.tracks for row in track.rows]


def random_line(seed: int, most: int = 200) -> RandomLine:
    """A line of 5 to about `most` groups."""
    return RandomLine(seed, most)

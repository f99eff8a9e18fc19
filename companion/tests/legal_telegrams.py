"""What the groups of legal lines send: sites with routes, the habits of a project, and the packets of each aspect.

`legal_lines.py` has the lines. Lengths are whole decimetres.
"""
from __future__ import annotations

from dataclasses import dataclass, field
from functools import lru_cache
from math import ceil
from random import Random
from typing import Any, Dict, List, Optional, Sequence, Set, Tuple

import meaning_line
from meaning_line import Row, telegram
from meaning_mistakes_of_groups import raw

UNITS = (1, 10, 100)
"""In decimetres, by Q_SCALE."""
ENDLESS, NATIONAL, INFINITE = 1023, 126, 32_767
"""T_LOA without a limit, the release speed of the national values, and a mode up to the end of authority."""
WORDS = (("red", "yellow", "green", "slow", "calling-on"), ("Stop", "Caution", "Clear", "Diverging", "On sight"))
"""What the aspects are called."""
Form = Any
Steps = List[Tuple[int, int]]
"""Values, each with the place or distance in decimetres from which on it holds."""


@dataclass(eq=False)
class Site:
    """A group, with what belongs to the place at its signal: what a train finds there that has to stop."""

    name: str
    track: str
    place: int
    way: int
    """Of its trains: 1 towards greater kilometres, else -1."""
    kind: str
    number: int = 0
    nominal: int = 1
    spacing: int = 30
    accuracy: int = 5
    permissive: bool = False
    danger: Optional[Form] = None
    overlap: Optional[Form] = None
    v_main: int = 0
    """In km/h, if the signal has a speed of its own."""
    extra: List[Form] = field(default_factory=list)
    """Further packets of its fixed balise."""
    routes: List[Route] = field(default_factory=list)
    infill_of: Optional[Site] = None


@dataclass(eq=False)
class Route:
    """What an aspect leads to. Distances count from its signal, in decimetres."""

    aspect: str
    ends: List[int]
    """Where its sections end."""
    to: Optional[Site]
    """The signal at its end, if the table has it."""
    passed: List[Tuple[Site, int]]
    """The groups that a train passes."""
    slow: Tuple[int, int, int] = (0, 0, 0)
    """From which distance to which one a lower speed holds, and which: over points."""
    on_sight: bool = False


@dataclass
class Habits:
    """What a project does at all its signals."""

    words: Sequence[str]
    v_main: str
    stop_in_sr: bool
    go_in_sr: bool
    danger_for_sh: bool
    stop_profiles: bool
    links_in_aspects: bool
    danger: Optional[int]
    overlap: Optional[int]
    t_ol: int
    release: int
    start_ol: str
    own: float
    """How many of the signals have an overlap, a danger point or a speed of their own."""
    section_timer: str
    end_timer: float
    accuracy: int
    reaction: int
    line_speed: int
    sections: str
    track_first: bool
    """Whether the balise with the aspects is the first one."""
    scales: Sequence[int]
    fronts: float
    """How many of the lower speeds end with the front of the train."""

    @classmethod
    def of(cls, random: Random) -> Habits:
        """Some project."""
        has_danger, has_overlap = random.choice(((True, False), (False, True), (True, True), (False, False)))
        return cls(
            random.choice(WORDS),
            random.choice(("line", "profile", "profile", "own", "aspect")),
            random.random() < 0.7,
            random.random() < 0.3,
            random.random() < 0.3,
            random.random() < 0.5,
            random.random() < 0.5,
            random.choice((200, 500, 1000)) if has_danger else None,
            random.choice((500, 1000, 2000)) if has_overlap else None,
            random.choice((30, 45, 60)),
            random.choice((NATIONAL, NATIONAL, 127, 3, 8)),
            random.choice(("constant", "section", "own")),
            random.choice((0, 0, 0.1, 0.3)),
            random.choice(("none", "none", "constant", "length", "some")),
            random.choice((0, 0, 0.2, 1)),
            random.choice((5, 5, 12)),
            random.choice((0, 1, 1)),
            random.choice((100, 120, 160)),
            random.choice(("one", "several")),
            random.random() < 0.3,
            random.choice(((1,), (1,), (0, 1, 2))),
            random.choice((0, 0, 0, 0.2, 1)),
        )


class Telegrams:
    """The rows of a table, made of its sites and of the habits of its project."""

    def __init__(self, random: Random) -> None:
        self.random = random
        self.habits = Habits.of(random)
        self.sites: List[Site] = []
        self.gradients: Steps = []
        self.speeds: Dict[str, Steps] = {}
        self.fronts: Set[int] = set()
        """The places at which a lower speed ends with the front of the train, such as beyond a level crossing."""

    def _further_packets(self, signals: Sequence[Site]) -> None:
        """What few signals have beside the others."""
        if self.random.random() < 0.4:
            site = self.random.choice(list(signals))
            site.extra.append(raw(44, f"{17:09b}{0xA5A5:016b}", self.direction(site)))

    def _conditions(self, signals: Sequence[Site]) -> None:
        """What two or three signals of one track, in the order of passing, announce of the track ahead of them."""
        random = self.random
        for _ in range(random.randint(1, 3)):
            last = random.randrange(2, len(signals))
            place, length = random.randrange(300, 1_500), random.randrange(50, 900)
            kind, distance_to_next = random.choice((0, 1, 3, 4, 9)), random.choice((0, 0, length + 60))
            for site in signals[last - random.choice((1, 1, 2)) : last + 1]:
                begin = abs(signals[last].place - site.place) // 10 + place
                elements = f"{begin:015b}{length:015b}{kind:04b}{bool(distance_to_next):05b}"
                elements += f"{distance_to_next:015b}{length:015b}{kind:04b}" if distance_to_next else ""
                site.extra.append(raw(68, f"010{elements}", self.direction(site)))
                crossing = f"{last:08b}{begin + 2_000:015b}{25:015b}0"
                site.extra.append(raw(88, f"01{crossing}", self.direction(site)))
        self._restriction(signals)

    def _restriction(self, signals: Sequence[Site]) -> None:
        """A temporary restriction that one or two signals give, and that the next one revokes in some projects."""
        random = self.random
        last, number, speed = random.randrange(1, len(signals) - 1), random.randrange(255), random.choice((20, 60, 80))
        begin, length = random.randrange(100, 700), random.randrange(20, 200)
        for site in signals[last - random.choice((0, 1)) : last + 1]:
            distance = abs(signals[last].place - site.place) // 10 + begin
            site.extra.append(
                raw(65, f"01{number:08b}{distance:015b}{length:015b}0{speed // 5:07b}", self.direction(site))
            )
        if random.random() < 0.7:
            after = signals[last + 1]
            after.extra.append(raw(66, f"{number:08b}", random.choice((self.direction(after), 2))))

    def direction(self, site: Site) -> int:
        """Q_DIR of the packets for the trains of a site."""
        return int(site.way == site.nominal)

    def _packet(self, site: Site, number: int, scale: int, **keys: Any) -> Form:
        return {"nid_packet": number, "q_dir": self.direction(site), "q_scale": scale, **keys}

    def _scale(self, greatest: int) -> int:
        """A Q_SCALE by which a distance fits."""
        scale = self.random.choice(self.habits.scales)
        return max(scale, 1) if greatest > 32_000 else scale

    def _linking(self, site: Site, passed: Sequence[Tuple[Site, int]]) -> List[Form]:
        """A packet 5 with these groups."""
        if not passed:
            return []
        scale = min(self._scale(max(distance for _, distance in passed)), 2 if self.habits.accuracy > 10 else 1)
        totals = [round(distance / UNITS[scale]) for _, distance in passed]
        links = [
            {
                "d_link": total - before,
                "nid_bg": each.number,
                "q_linkorientation": int(each.nominal == site.way),
                "q_linkreaction": 2 if each.kind in ("fixed", "infill") else self.habits.reaction,
                "q_locacc": each.accuracy,
            }
            for (each, _), total, before in zip(passed, totals, [0, *totals])
        ]
        return [self._packet(site, 5, scale, links=links)]

    def _authority(self, signal: Site, route: Route, fast: Form) -> Form:
        """The packet 12 of a proceed aspect."""
        scale = self._scale(route.ends[-1] + 2_500)
        unit = UNITS[scale]
        ends = [round(end / unit) for end in (route.ends if self.habits.sections == "several" else route.ends[-1:])]
        lengths = [end - before for end, before in zip(ends, [0, *ends])]
        main = self._main(signal, route, fast)
        form: Form = self._packet(signal, 12, scale, v_main=main, end_speed=0, end_timeout=ENDLESS)
        form["sections"] = [{"l_section": each} for each in lengths[:-1]]
        form["l_endsection"] = lengths[-1]
        self._put_timers(signal, form, lengths, unit)
        end = route.to or signal
        if end.danger:
            form["danger_point"] = {**end.danger, "d_dp": round(end.danger["d_dp"] / unit)}
        if end.overlap and not route.on_sight:
            start = {"constant": 1_000, "section": route.ends[-1], "own": 500 + 10 * (end.number % 90)}
            start_ol = min(round(start[self.habits.start_ol] / unit), lengths[-1])
            length = max(round(end.overlap["d_ol"] / unit), form.get("danger_point", {"d_dp": 0})["d_dp"])
            form["overlap"] = {"d_startol": start_ol, **end.overlap, "d_ol": length}
        return form

    def _put_timers(self, signal: Site, form: Form, lengths: Sequence[int], unit: int) -> None:
        """The timers of the sections, which are as many as the lengths, and that of the end section."""
        kind = self.habits.section_timer
        if kind in ("constant", "length") or kind == "some" and signal.kind == "entry":
            for part, length in zip([*form["sections"], form], lengths):
                seconds = 180 if kind != "length" else min(60 + length * unit // 100, 1000)
                stop = min(round(500 / unit), length)
                part["section_timer"] = {"t_sectiontimer": seconds, "d_sectiontimerstoploc": stop}
        if self.random.random() < self.habits.end_timer:
            form["end_timer"] = {"t_endtimer": 60, "d_endtimerstartloc": min(round(4_000 / unit), lengths[-1])}

    def _main(self, signal: Site, route: Route, fast: Form) -> int:
        """V_MAIN as it is sent."""
        habits, yellow = self.habits, self.habits.words[1]
        of_profile: int = max(each["v_static"] for each in fast["elements"] if each["v_static"] != 127)
        if route.on_sight:
            return 8
        if habits.v_main == "line":
            return route.slow[2] // 5 or habits.line_speed // 5
        if habits.v_main == "own" and signal.v_main:
            return min(signal.v_main // 5, of_profile)
        if habits.v_main == "aspect" and route.aspect == yellow:
            return min(16, of_profile)
        return of_profile

    def _reach(self, route: Route, signal: Site) -> int:
        """How far profiles have to reach: the overlap, else the danger point, else the end of authority."""
        end = route.to or signal
        parts = [each[key] for each, key in ((end.overlap, "d_ol"), (end.danger, "d_dp")) if each]
        return route.ends[-1] + max(parts, default=0) + 100

    def _profile(self, signal: Site, route: Route, number: int) -> Form:
        """Gradients or speeds of a route."""
        reach = self._reach(route, signal)
        scale = self._scale(reach)
        unit = UNITS[scale]
        to, (begin, end, slow) = ceil(reach / unit), route.slow
        steps = self.gradients if number == 21 else self.speeds[signal.track]
        cuts = {
            0,
            *((at - signal.place) * signal.way for at, _ in steps),
            *((begin, end) if number == 27 and slow else ()),
        }
        found: Steps = []
        fronts: Set[int] = set()
        for cut in sorted(each for each in cuts if 0 <= each < reach):
            middle = signal.place + signal.way * (cut + 1)
            value = next(value for at, value in reversed(steps) if at <= middle)
            if number == 27 and slow and begin <= cut < end:
                value = min(value, slow)
            value = value * signal.way if number == 21 else value
            found = [each for each in found if each[0] < round(cut / unit)]
            if round(cut / unit) < to and (not found or found[-1][1] != value):
                found.append((round(cut / unit), value))
                if number == 27 and signal.place + signal.way * cut in self.fronts:
                    fronts.add(len(found) - 2)
        distances = [at - before for (at, _), before in zip(found, [0, *(at for at, _ in found)])]
        made = _gradient if number == 21 else _speed
        elements = [made(distance, value) for distance, (_, value) in zip(distances, found)]
        for place in fronts:
            elements[place]["q_front"] = 1
        return self._packet(signal, number, scale, elements=[*elements, made(to - found[-1][0], None)])

    def _stop(self, signal: Site) -> List[Form]:
        """The packets of a stop aspect."""
        habits, direction = self.habits, self.direction(signal)
        end = {"v_main": 0, "end_speed": 0, "end_timeout": ENDLESS, "sections": [], "l_endsection": 0}
        made = [self._packet(signal, 12, 1, **end)]
        if habits.stop_profiles:
            made += [self._profile(signal, Route("", [0], None, []), number) for number in (21, 27)]
        if habits.stop_in_sr and not (signal.permissive and habits.danger_for_sh):
            made.append(raw(137, "1" if signal.permissive else "0", direction))
        if habits.danger_for_sh:
            made.append(raw(132, "0", direction))
        return made

    def _proceed(self, signal: Site, route: Route) -> List[Form]:
        """The packets of a proceed aspect."""
        habits, direction = self.habits, self.direction(signal)
        profiles = [self._profile(signal, route, number) for number in (21, 27)]
        made = [
            *(self._linking(signal, route.passed) if self._has_own_links else []),
            self._authority(signal, route, profiles[1]),
        ]
        made += profiles
        if route.on_sight:
            length = round(route.ends[-1] / 10)
            made.append(
                raw(80, f"01{0:015b}00{8:07b}{self.random.choice((length, INFINITE)):015b}{20:015b}0{0:05b}", direction)
            )
        if habits.go_in_sr:
            made.append(raw(137, "1", direction))
        return made

    @property
    def _has_own_links(self) -> bool:
        """Whether each aspect has its packet 5, which it needs if routes part."""
        return self.habits.links_in_aspects or len(self.speeds) > 2 or any(each.kind == "entry" for each in self.sites)

    @property
    def rows(self) -> List[Row]:
        """The rows of the table."""
        return [row for site in self.sites for row in self._rows(site)]

    @lru_cache(maxsize=None)
    def _aspects(self, signal: Site) -> List[Tuple[str, List[Form]]]:
        """The packets of each aspect of a signal, without those of its fixed balise."""
        own = ((each.aspect, self._proceed(signal, each)) for each in signal.routes)
        return [(self.habits.words[0], self._stop(signal)), *own]

    def _rows(self, site: Site) -> List[Row]:
        signal = site.infill_of or site
        if site.kind == "fixed":
            return [self._row(site, 0, "", 255, site.extra), self._row(site, 1, "", 255, [])]
        reference = [raw(136, f"0{signal.number:014b}", self.direction(site))] if site.infill_of else []
        aspects = self._aspects(signal)
        turned = [
            (name, [*reference, *({**each, "q_dir": self.direction(site)} for each in own)]) for name, own in aspects
        ]
        fixed = list(site.extra)
        if not self._has_own_links:
            apart = abs(site.place - signal.place)
            longest = max(signal.routes, key=lambda each: each.ends[-1]).passed
            ahead = ([(signal, 0)] if site.infill_of else []) + list(longest)
            fixed = self._linking(site, [(each, distance + apart) for each, distance in ahead]) + fixed
        elif site.infill_of:
            fixed = self._linking(site, [(signal, abs(site.place - signal.place))])
        first = 1 if self.habits.track_first and not site.infill_of else 0
        if site.infill_of and not self.direction(site):
            first = 1  # (what follows a packet 136 counts from its signal)
        own = [self._row(site, 1 - first, name, counter, packets) for counter, (name, packets) in enumerate(turned, 1)]
        both = [self._row(site, first, "*", 255, fixed), *own]
        return sorted(both, key=lambda row: row.balise)

    def _row(self, site: Site, balise: int, aspect: str, counter: int, packets: Sequence[Form]) -> Row:
        header = meaning_line.Site(site.name, site.number, 0, site.way, site.nominal)
        place = round((site.place + site.nominal * site.spacing * balise) / 10) + 10_000
        return Row(
            site.name,
            f"{site.name}/{balise + 1}",
            place,
            aspect,
            balise,
            telegram(header, balise, counter, *packets),
            site.track,
        )


def _gradient(distance: int, value: Optional[int]) -> Form:
    """An element of a packet 21, or its end mark."""
    return {"d_gradient": distance, "q_gdir": int((value or 0) >= 0), "g_a": 255 if value is None else abs(value)}


def _speed(distance: int, value: Optional[int]) -> Form:
    """An element of a packet 27, or its end mark."""
    return {"d_static": distance, "v_static": 127 if value is None else value // 5, "q_front": 0, "differences": []}

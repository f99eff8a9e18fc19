"""Legal lines of five kinds, for false remarks: `legal_line(kind, seed)` for each of KINDS.

They are made from the standard and from what designers do, and not from the rules. What differs from signal to signal
in practice differs here too: overlaps, danger points, release speeds, timers, speeds, lengths, further packets. Places
are whole decimetres, and the kilometres of the table are rounded to 1 m.
"""
from __future__ import annotations

from itertools import accumulate
from random import Random
from typing import Callable, Dict, List, Optional, Sequence, Tuple

from legal_telegrams import INFINITE, Route, Site, Steps, Telegrams
from meaning_line import Form, Row
from meaning_mistakes import digits
from meaning_mistakes_of_groups import raw

KINDS = ("single track", "double track", "station", "level 2 border", "low density")


def _steps(random: Random, low: int, high: int, value: Callable[[], int]) -> Steps:
    """Values from one place to another one, each other than the one before it."""
    found: Steps = []
    at = low
    while at < high:
        new = value()
        if not found or found[-1][1] != new:
            found.append((at, new))
        at += random.randrange(8_000, 60_000, 10)
    return found


class LegalLine(Telegrams):
    """A line of a kind. Its sites are made by the method of the kind, and then numbered in the order of the table."""

    def __init__(self, kind: str, seed: int) -> None:
        super().__init__(Random(f"{kind} {seed}"))
        self.number = ""
        {
            "single track": lambda: self._stations(self.random.randint(4, 6), 2),
            "double track": self._double_track,
            "station": lambda: self._stations(2, self.random.randint(3, 5)),
            "level 2 border": self._level_border,
            "low density": self._low_density,
        }[kind]()

    # ---- the track

    def _profiles(self, tracks: Sequence[str], high: int) -> None:
        """Gradients of the line, and speeds of each track, from before the first group to after the last one."""
        low, fast = -100_000, self.habits.line_speed
        self.gradients = _steps(self.random, low, high + 200_000, lambda: self.random.randint(-12, 12))
        for track in tracks:
            choice = (fast - 40, fast - 20, fast, fast, fast)
            self.speeds[track] = _steps(self.random, low, high + 200_000, lambda: self.random.choice(choice))
            self.fronts |= {at for at, _ in self.speeds[track] if self.random.random() < self.habits.fronts}

    def _site(self, name: str, track: str, place: int, way: int, kind: str) -> Site:
        random, habits = self.random, self.habits
        site = Site(name, track, place, way, kind, len(self.sites) + 1)
        site.nominal = way * random.choice((1, 1, 1, -1))
        site.spacing = random.choice((30, 30, 30, 45, 60))
        site.accuracy = 10 if random.random() < habits.own / 2 else habits.accuracy
        is_own = random.random() < habits.own
        if habits.danger is not None:
            length = random.randrange(100, 1500, 50) if is_own else habits.danger
            site.danger = {"d_dp": length, "v_releasedp": random.choice((2, 4)) if is_own else habits.release}
        is_own = random.random() < habits.own
        if habits.overlap is not None and (habits.danger is None or random.random() < 0.8):
            length = max(
                random.randrange(500, 2500, 50) if is_own else habits.overlap, (site.danger or {"d_dp": 0})["d_dp"]
            )
            seconds = habits.t_ol if length == habits.overlap or random.random() < 0.5 else habits.t_ol + 15
            site.overlap = {"d_ol": length, "t_ol": seconds, "v_releaseol": habits.release}
        if random.random() < habits.own:
            site.v_main = random.randrange(60, habits.line_speed, 20)
        self.sites.append(site)
        return site

    # ---- the kinds

    def _chain(self, way: int, signals: Sequence[Site], others: Sequence[Site], beyond: Sequence[Site] = ()) -> None:
        """The routes of signals one after the other, in the order of passing: yellow to the next, green to two.

        Beyond the last one they lead to the sites `beyond`, or to signals that the table lacks.
        """
        _, yellow, green, _, sight = self.habits.words
        last = signals[-1].place + way * 20_000
        for index, signal in enumerate(signals):
            ahead = [*signals[index + 1 :]]
            to = [*ahead, *beyond]
            places = [*(each.place for each in to), last, last + way * 15_000]
            ends = [abs(place - signal.place) for place in places]
            passed = sorted(
                ((each, (each.place - signal.place) * way) for each in (*ahead, *others)), key=lambda each: each[1]
            )
            passed = [each for each in passed if 0 < each[1]]
            for aspect, count in ((yellow, 1), (green, 2)):
                own = [each for each in passed if each[1] <= ends[count - 1]]
                signal.routes.append(Route(aspect, ends[:count], to[count - 1] if count <= len(to) else None, own))
            if signal.kind == "home":
                own = [each for each in passed if each[1] <= ends[0]]
                signal.routes.append(Route(sight, ends[:1], to[0] if to else None, own, on_sight=True))

    def _block(self, track: str, way: int, count: int, begin: int) -> List[Site]:
        """Signals for trains of one way, in the order of passing. Some are home signals of a station."""
        random, place, found = self.random, begin, []
        homes = random.choice(((), (), range(2, count, 4)))
        permissive = random.choice((0, 0, 0, 0.5))
        for index in range(count):
            kind = "home" if index in homes else "block"
            site = self._site(f"{'ABCD'[int(track or 0)]}{index + 1}", track, place, way, kind)
            site.permissive = kind == "block" and random.random() < permissive
            found.append(site)
            place += way * random.randrange(9_000, 22_000)
        return found

    def _double_track(self) -> None:
        count = self.random.randint(7, 14)
        self._profiles(("1", "2"), count * 22_000)
        for track, way in (("1", 1), ("2", -1)):
            own, infill = self._block(track, way, count, 0 if way == 1 else count * 16_000), []
            for signal in self.random.sample(own[1:], self.random.randint(0, 3)):
                infill.append(self._site(f"I {signal.name}", track, signal.place - way * 4_000, way, "infill"))
                infill[-1].infill_of = signal
            self._chain(way, own, infill)
            self._further_packets(own)
            self._conditions(own)

    def _level_border(self) -> None:
        """Level 1 up to a border, and groups of level 2 beyond it; on one or two tracks."""
        random = self.random
        self.number = random.choice(("", f"{random.randrange(10**12):012}"))
        for track, way in (("1", 1), ("2", -1))[: random.choice((1, 2))]:
            count = random.randint(6, 9)
            if not self.gradients or track not in self.speeds:
                self._profiles(("1", "2"), 14 * 22_000)
            own = self._block(track, way, count, 0 if way == 1 else 14 * 16_000)
            border = self._site(
                f"Border {track}", track, own[-1].place + way * random.randrange(3_000, 8_000), way, "fixed"
            )
            beyond = [
                self._site(
                    f"P{track}{index}", track, border.place + way * index * random.randrange(9_000, 9_900), way, "fixed"
                )
                for index in (1, 2, 3, 4)
            ]
            self._chain(way, own, [border, *beyond], beyond[1:3])
            for site, ahead in zip((border, *beyond), (beyond, beyond[1:], beyond[2:], beyond[3:])):
                distances = [abs(each.place - site.place) for each in ahead]
                site.extra += self._linking(site, list(zip(ahead, distances)))
            self._level_orders(border, own, way)
            self._centres(beyond)
            self._leaving(border, beyond)
            self._further_packets(own)

    def _level_orders(self, border: Site, signals: Sequence[Site], way: int) -> None:
        """The orders to change to level 2 at the border, and its announcement, session and radio network in rear."""
        transitions = [{"m_leveltr": 3, "l_ackleveltr": 0}, {"m_leveltr": 2, "l_ackleveltr": 0}]
        border.extra.insert(0, self._packet(border, 41, 1, d_leveltr=INFINITE, transitions=transitions))
        announced = [site for site in signals[-2:]]
        for site in announced:
            distance = round(abs(border.place - site.place) / 10)
            site.extra.append(self._packet(site, 41, 1, d_leveltr=distance, transitions=transitions))
        first = signals[-4]
        first.extra.append(raw(45, f"{0x262_01F:024b}", self.direction(first)))
        for site in (first, *self.random.choice(((), (signals[-3],)))):
            site.extra.append(raw(42, f"1{352:010b}{77:014b}{digits(self.number)}0", self.direction(site)))

    def _centres(self, beyond: Sequence[Site]) -> None:
        """Another radio block centre after the last group beyond the border, which two groups announce."""
        place = beyond[-1].place + (beyond[-1].place - beyond[-2].place) // 2
        for site in beyond[-2:]:
            distance, number = abs(place - site.place) // 10, digits("4711")
            order = f"01{distance:015b}{352:010b}{78:014b}{number}1"
            site.extra.append(raw(131, order, self.direction(site)))

    def _leaving(self, border: Site, beyond: Sequence[Site]) -> None:
        """On some lines, what trains of the other direction need to leave level 2."""
        if self.random.random() < 0.5:
            levels = [{"m_leveltr": 2, "l_ackleveltr": 0}]
            for site in (border, *beyond[:2]):
                distance = abs(border.place - site.place) // 10 or INFINITE
                order = self._packet(site, 41, 1, d_leveltr=distance, transitions=levels)
                site.extra.append({**order, "q_dir": 1 - order["q_dir"]})
            end = raw(42, f"0{352:010b}{77:014b}{'1' * 64}0", 1 - self.direction(border))
            border.extra.append(end)

    def _stations(self, count: int, tracks: int) -> None:
        """Stations of a single track for both directions: entry signals, and exit signals on each track."""
        random = self.random
        names = [str(number + 1) for number in range(tracks)]
        places = list(accumulate([0, *(random.randrange(50_000, 90_000) for _ in range(count - 1))]))
        self._profiles(names, places[-1] + 20_000)
        entries: Dict[Tuple[int, int], Site] = {}
        exits: Dict[Tuple[int, int, str], Site] = {}
        for index, at in enumerate(places):
            letter = "KLMNOP"[index]
            entries[index, 1] = self._site(f"{letter} entry A", "1", at, 1, "entry")
            entries[index, -1] = self._site(f"{letter} entry F", "1", at + 13_000, -1, "entry")
            for name in names:
                shift = random.randrange(-300, 300, 10)
                exits[index, -1, name] = self._site(f"{letter} exit A{name}", name, at + 2_500 + shift, -1, "exit")
                exits[index, 1, name] = self._site(f"{letter} exit F{name}", name, at + 10_500 + shift, 1, "exit")
        limits = {name: random.choice((40, 40, 60)) for name in names}
        for (index, way), entry in entries.items():
            following = entries.get((index + way, way))
            after = entries[index, -way].place
            for name in names:
                self._through(entry, exits[index, way, name], following, after, 0 if name == "1" else limits[name])
        self._further_packets(list(entries.values()))

    def _through(self, entry: Site, leaving: Site, following: Optional[Site], after: int, limit: int) -> None:
        """The routes of an entry signal over a track of the station, and those of its exit signal."""
        _, yellow, green, slow, sight = self.habits.words
        name = leaving.track
        length = abs(leaving.place - entry.place)
        to_next = abs(following.place - leaving.place) if following else 40_000
        onward = [(following, to_next)] if following else []
        point = 1_500
        over = (point, length + 3_000, limit) if limit else (0, 0, 0)
        aspect = f"{slow} {name}" if limit else yellow
        entry.routes.append(Route(aspect, [length], leaving, [(leaving, length)], over))
        if not limit:
            passed = [(leaving, length), *((site, length + distance) for site, distance in onward)]
            entry.routes.append(Route(green, [length, length + to_next], following, passed))
        elif name == "2" and self.random.random() < 0.4:
            entry.routes.append(Route(sight, [length], leaving, [(leaving, length)], over, True))
        out = (0, abs(after - leaving.place) + 1_000, limit) if limit else (0, 0, 0)
        leaving.routes.append(Route(green, [to_next], following, onward, out))

    def _low_density(self) -> None:
        """A single track with few trains: two aspects, and temporary restrictions that two signals announce."""
        self._stations(self.random.randint(4, 6), 2)
        entries = [each for each in self.sites if each.kind == "entry"]
        for number, site in enumerate(self.random.sample(entries, self.random.randint(1, 4)), 1):
            begin, length = self.random.randrange(14_000, 25_000, 10), self.random.randrange(1_000, 9_000, 10)
            speed = self.random.choice((20, 40, 60))
            fields = f"01{number:08b}{begin // 10:015b}{length // 10:015b}{self.random.randint(0, 1)}{speed // 5:07b}"
            site.extra.append(raw(65, fields, self.direction(site)))
        for site in self.random.sample(entries, 1):
            site.extra.append(raw(68, f"010{200:015b}{500:015b}{9:04b}{0:05b}", self.direction(site)))


def legal_line(kind: str, seed: int) -> LegalLine:
    """A line of one of KINDS."""
    return LegalLine(kind, seed)


def with_limits(line: LegalLine) -> List[Row]:
    """The rows of a line whose authorities end at the level border at the latest: trains may pass it by V_LOA.

    Yellow lets them pass slowly, because the first signal of the other level is at danger. On some lines only green
    lets them pass.
    """
    sites, rows = {site.name: site for site in line.sites}, line.rows
    for row in rows:
        site = sites[row.group].infill_of or sites[row.group]
        border = sites.get(f"Border {site.track}")
        for form in row.form["packets"]:
            if border and site.kind != "fixed" and form["nid_packet"] == 12 and form["v_main"]:
                is_yellow = row.aspect == line.habits.words[1]
                _end_at(form, abs(border.place - site.place), (0 if line.habits.own else 12) if is_yellow else 20)
    return rows


def _end_at(form: Form, ahead: int, speed: int) -> None:
    """Ends a packet 12 at this distance in decimetres, if it leads farther."""
    unit, lengths = (1, 10, 100)[form["q_scale"]], [each["l_section"] for each in form["sections"]]
    if (sum(lengths) + form["l_endsection"]) * unit <= ahead:
        return
    before = [total for total in accumulate(lengths) if total * unit < ahead]
    form["sections"] = form["sections"][: len(before)]
    form.update(l_endsection=round(ahead / unit) - (before or [0])[-1], end_speed=min(speed, form["v_main"]))
    for part in ("overlap", "danger_point", "end_timer"):
        form.pop(part, None)

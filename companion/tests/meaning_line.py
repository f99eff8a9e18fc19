"""Makes sound lines for the rules E: one field can then be changed, to see which rule remarks on it.

`Line(seed=None)` is the sound line of `examples/meaning/line.csv`: 15 signals, rising, with red, yellow and green.
`python3 companion/tests/meaning_line.py` writes it. `random_line(seed)` is a line of 5 to 200 groups, of all kinds.
All places are whole multiples of 10 m, so that each of them can be written in each unit of Q_SCALE.
"""
from __future__ import annotations

import csv
import io
import sys
from dataclasses import dataclass, field
from pathlib import Path
from random import Random
from typing import Any, Callable, Dict, Iterator, List, Optional, Sequence, Tuple

HERE = Path(__file__).resolve().parent
sys.path.insert(0, str(HERE.parent / "src"))

from balisekit.engine.program import Program, Text  # noqa: E402  (the path comes first)

FOLDER = HERE.parents[1] / "examples" / "meaning"
HEADING = ("group", "name", "km", "track", "aspect", "balise", "telegram")
OVERLAP, INFILL_BEFORE = 200, 400
"""In metres: the overlap after a signal, and how far before its signal an infill group is."""
SPACING = 3
"""Metres from one balise of a group to the next one."""
END = 1000
"""The value of the end mark of a profile."""
Form = Any
Steps = Sequence[Tuple[int, int]]
"""Values, each with the place in metres from which on it holds."""


@dataclass
class Row:
    """A row of the table, with a form in place of its telegram."""

    group: str
    name: str
    place: int
    """In metres along the track."""
    aspect: str
    balise: int
    form: Form
    track: str = ""


@dataclass
class Site:
    """A group at a place of the line: a signal, an infill group or a border."""

    name: str
    number: int
    """NID_BG."""
    place: int
    way: int
    """1 if it is for trains towards greater kilometres, else -1."""
    nominal: int
    """1 if the kilometres rise in nominal direction, else -1."""
    scale: int = 1
    """Q_SCALE of its packets, if the distances fit."""
    infill_of: Optional[Site] = None
    level: Optional[int] = None
    """M_LEVELTR, if the level changes here."""

    @property
    def direction(self) -> int:
        """Q_DIR of the packets for its trains."""
        return int(self.way == self.nominal)


@dataclass
class Line:
    """The properties of a line, of which its rows are made."""

    signals: int = 15
    way: int = 1
    """1 if the trains of its signals go towards greater kilometres, else -1."""
    both: bool = False
    """Whether there are signals for the other direction between them."""
    aspects: Tuple[str, ...] = ("red", "yellow", "green")
    """The first one stops. Each other one leads to one signal more."""
    infill: Tuple[int, ...] = ()
    """The signals that have an infill group."""
    border: Optional[int] = None
    """M_LEVELTR of a level border after the fifth signal, which the two signals before it announce."""
    seed: Optional[int] = None
    """Of a random line. Without it all signals are 1,500 m apart, and face their trains."""
    begin: int = 10_000
    sites: List[Site] = field(init=False)
    gradients: Steps = field(init=False)
    """In per mille, positive if the track rises towards greater kilometres."""
    speeds: Steps = field(init=False)
    """In km/h."""

    def __post_init__(self) -> None:
        random = Random(68 if self.seed is None else self.seed)
        self.sites = sorted(self._sites(random), key=lambda site: site.place)
        low, high = self.begin - 20_000, self.sites[-1].place + 20_000
        self.gradients = _steps(random, low, high, lambda: random.randint(-20, 20))
        self.speeds = _steps(random, low, high, lambda: random.choice((80, 100, 120, 140, 160)))

    def _sites(self, random: Random) -> Iterator[Site]:
        """The groups of the line."""
        number = 0
        for way in (self.way, -self.way) if self.both else (self.way,):
            place = self.begin + (600 if way != self.way else 0)
            own = []
            for index in range(self.signals):
                number += 1
                letter = f"{'' if way == self.way else 'R'}{index + 1}"
                nominal = way if self.seed is None else way * random.choice((1, 1, 1, -1))
                scale = 1 if self.seed is None else random.choice((0, 1, 1, 2))
                own.append(Site(f"Signal {letter}", number, place, way, nominal, scale))
                place += 1500 if self.seed is None else random.randrange(900, 2200, 10)
            yield from own
            if way == self.way:
                yield from self._others(own if way == 1 else own[::-1], number)

    def _others(self, own: Sequence[Site], number: int) -> Iterator[Site]:
        """The infill groups and the border of the signals of one direction, which are in the order of passing."""
        for index in self.infill:
            site = own[index]
            place = site.place - site.way * INFILL_BEFORE
            yield Site(f"Infill of {site.name}", 5000 + index, place, site.way, site.nominal, site.scale, site)
        if self.border is not None:
            place = own[4].place + own[4].way * 700
            yield Site("Border", 6000, place, own[4].way, own[4].way, level=self.border)

    @property
    def rows(self) -> List[Row]:
        """The rows of the table."""
        return [row for site in self.sites for row in self._rows(site)]

    def ahead(self, site: Site) -> List[Site]:
        """The groups after a site for trains of the same direction, in the order of passing."""
        own = [each for each in self.sites if each.way == site.way and (each.place - site.place) * site.way > 0]
        return own if site.way == 1 else own[::-1]

    def ends(self, site: Site) -> List[int]:
        """How far it is to each of the next signals, and beyond the last one to two more."""
        signals = [each for each in self.ahead(site) if each.infill_of is None and each.level is None]
        found = [abs(each.place - site.place) for each in signals[: len(self.aspects)]]
        while len(found) < len(self.aspects):
            found.append((found[-1] if found else 0) + 1500)
        return found

    def _rows(self, site: Site) -> Iterator[Row]:
        if site.level is not None:
            yield from self._border(site)
            return
        signal = site.infill_of or site
        fixed = self._linking(site) + (self._announcement(site) if site.infill_of is None else [])
        yield self._row(site, 0, "*", telegram(site, 0, 255, *fixed))
        for counter, aspect in enumerate(self.aspects, 1):
            packets = self._packets(signal, counter - 1, site.direction)
            reference = [infill_reference(signal, site)] if site.infill_of else []
            yield self._row(site, 1, aspect, telegram(site, 1, counter, *reference, *packets))

    def _border(self, site: Site) -> Iterator[Row]:
        order = packet(site, 41, d_leveltr=32_767, transitions=[{"m_leveltr": site.level, "l_ackleveltr": 0}])
        yield self._row(site, 0, "", telegram(site, 0, 255, order))
        yield self._row(site, 1, "", telegram(site, 1, 255))

    def _row(self, site: Site, balise: int, aspect: str, form: Form) -> Row:
        place = site.place + site.nominal * SPACING * balise
        return Row(site.name, f"{site.name} {balise + 1}", place, aspect, balise, form)

    def _packets(self, signal: Site, aspect: int, direction: int) -> List[Form]:
        """Authority, gradients and speeds of an aspect of a signal, which is counted from 0."""
        length = self.ends(signal)[aspect - 1] if aspect else 0
        reach = length + OVERLAP
        speeds = self._steps(self.speeds, signal, reach, 1)
        speed = max(value for _, value in speeds if value != END) if aspect else 0
        scale = signal.scale if reach < 3200 else max(signal.scale, 1)
        unit = (0.1, 1, 10)[scale]

        def scaled(distance: int) -> int:
            return round(distance / unit)

        head = {"q_dir": direction, "q_scale": scale}
        authority: Form = {
            "nid_packet": 12,
            **head,
            "v_main": speed // 5,
            "end_speed": 0,
            "end_timeout": 1023,
            "sections": [],
            "l_endsection": scaled(length),
        }
        if aspect:
            authority["overlap"] = {"d_startol": scaled(100), "t_ol": 60, "d_ol": scaled(OVERLAP), "v_releaseol": 126}
        steep = [
            {"d_gradient": scaled(distance), "q_gdir": int(0 <= value < END), "g_a": min(abs(value), 255)}
            for distance, value in self._steps(self.gradients, signal, reach, signal.way)
        ]
        fast = [
            {
                "d_static": scaled(distance),
                "v_static": 127 if value == END else value // 5,
                "q_front": 0,
                "differences": [],
            }
            for distance, value in speeds
        ]
        return [authority, {"nid_packet": 21, **head, "elements": steep}, {"nid_packet": 27, **head, "elements": fast}]

    def _steps(self, steps: Steps, site: Site, reach: int, sign: int) -> List[Tuple[int, int]]:
        """The steps as a train meets them: the distance of each from the one before it, and its value."""
        found: List[Tuple[int, int]] = []
        cuts = [at for at, _ in steps if 0 < (at - site.place) * site.way < reach]
        before = 0
        for at in [site.place, *sorted(cuts, key=lambda at: abs(at - site.place))]:
            distance = abs(at - site.place)
            middle = at + site.way * 5
            value = [value for begin, value in steps if begin <= middle][-1] * sign
            if not found or value != found[-1][1]:
                found.append((distance - before, value))
                before = distance
        return [*found, (reach - before, END)]

    def _linking(self, site: Site) -> List[Form]:
        """The groups ahead, as far as the farthest authority goes."""
        reach = max(self.ends(site.infill_of or site)) + (INFILL_BEFORE if site.infill_of else 0)
        ahead = [each for each in self.ahead(site) if abs(each.place - site.place) <= reach]
        distances = [abs(each.place - before.place) for before, each in zip([site, *ahead], ahead)]
        scale = site.scale if all(distance < 3200 for distance in distances) else max(site.scale, 1)
        links = [
            {
                "d_link": round(distance / (0.1, 1, 10)[scale]),
                "nid_bg": each.number,
                "q_linkorientation": int(each.nominal == site.way),
                "q_linkreaction": 1,
                "q_locacc": 5,
            }
            for distance, each in zip(distances, ahead)
        ]
        return [{"nid_packet": 5, "q_dir": site.direction, "q_scale": scale, "links": links}] if links else []

    def _announcement(self, site: Site) -> List[Form]:
        """The level transition order of the two signals before the border."""
        border = next((each for each in self.ahead(site) if each.level is not None), None)
        if border is None or abs(border.place - site.place) > 3200:
            return []
        distance = abs(border.place - site.place)
        transitions = [{"m_leveltr": border.level, "l_ackleveltr": 200}]
        return [packet(site, 41, d_leveltr=distance, transitions=transitions)]


def packet(site: Site, number: int, **keys: Any) -> Form:
    """A packet for the trains of a site, in metres."""
    return {"nid_packet": number, "q_dir": site.direction, "q_scale": 1, **keys}


def infill_reference(signal: Site, site: Site) -> Form:
    """A packet 136 that names a signal of the same country."""
    return {"nid_packet": 136, "q_dir": site.direction, "l_packet": 38, "body": f"{signal.number << 1:04x}"}


def telegram(site: Site, position: int, counter: int, *packets: Form) -> Form:
    """A long telegram of one of two balises."""
    return {
        "m_version": 33,
        "n_pig": position,
        "n_total": 1,
        "m_dup": 0,
        "m_mcount": counter,
        "nid_c": 352,
        "nid_bg": site.number,
        "q_link": 1,
        "user_bits": 830,
        "packets": list(packets),
    }


def _steps(random: Random, low: int, high: int, value: Callable[[], int]) -> Steps:
    """Steps along the track."""
    found, at = [], low
    while at < high:
        found.append((at, value()))
        at += random.randrange(800, 4000, 10)
    return found


def random_line(seed: int) -> Line:
    """A line of 5 to 200 groups, of any kind."""
    random = Random(seed)
    signals = random.randint(5, 66)
    return Line(
        signals,
        random.choice((1, -1)),
        random.random() < 0.5,
        random.choice((("red", "green"), ("red", "yellow", "green"))),
        tuple(random.sample(range(1, signals), min(random.randint(0, 2), signals - 1))),
        random.choice((None, None, 0)),
        seed,
    )


def change(rows: List[Row], group: str, aspect: str, number: int) -> Form:
    """The first packet with this number of an aspect of a group: the one whose fields a test changes."""
    rows = [row for row in rows if row.group == group and row.aspect in (aspect, "*")]
    return next(each for row in rows for each in row.form["packets"] if each["nid_packet"] == number)


def table(program: Program, rows: Sequence[Row]) -> str:
    """The table as CSV."""
    out = io.StringIO(newline="")
    writer = csv.writer(out, lineterminator="\n")
    writer.writerow(HEADING)
    for row, text in zip(rows, program.encode([row.form for row in rows])):
        if not isinstance(text, Text):
            raise ValueError(f"{row}: {text.line}")
        km = f"{row.place // 1000}.{row.place % 1000:03}"
        writer.writerow([row.group, row.name, km, row.track, row.aspect, row.balise, text.line])
    return out.getvalue()


SOUND: Dict[str, Line] = {
    "line": Line(),
    "falling": Line(way=-1),
    "both-directions": Line(both=True),
    "infill": Line(infill=(3, 8)),
    "level-border": Line(border=0),
}
"""The sound lines of examples/meaning."""


if __name__ == "__main__":
    _program = Program.find()
    FOLDER.mkdir(exist_ok=True)
    for _name, _line in SOUND.items():
        (FOLDER / f"{_name}.csv").write_text(table(_program, _line.rows), "utf-8")

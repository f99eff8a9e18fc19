"""Lines whose pictures are looked at: both directions, falling kilometres, level borders, restrictions, and so on.

`python3 companion/tests/picture_lines.py DIR` writes their tables, and their pictures beside them.
"""
from __future__ import annotations

import csv
import io
import sys
from pathlib import Path
from typing import Any, Callable, Dict, Iterator, List, Mapping, Sequence, Tuple

HERE = Path(__file__).resolve().parent
sys.path.insert(0, str(HERE.parent / "src"))

from balisekit.cli import main as cli  # noqa: E402  (the path comes first)
from balisekit.engine.program import Program, Text  # noqa: E402

HEADING = ("group", "name", "km", "nominal", "aspect", "telegram")
Form = Any
Row = Tuple[str, str, str, str, str, Form]


def packet(number: int, direction: int, **keys: Any) -> Form:
    """A packet in metres."""
    return {"nid_packet": number, "q_dir": direction, "q_scale": 1, **keys}


def raw(number: int, direction: int, *fields: Tuple[int, int]) -> Form:
    """A packet that the program keeps as bits, of numbers with their widths after Q_SCALE, which is 1 m."""
    bits = "01" + "".join(f"{value:0{wide}b}" for wide, value in fields)
    whole = bits.ljust(-(-len(bits) // 8) * 8, "0")
    body = f"{int(whole, 2):0{len(whole) // 4}x}"
    return {"nid_packet": number, "q_dir": direction, "l_packet": 23 + len(bits), "body": body}


def restriction(direction: int, begin: int, length: int, speed: int, identity: int = 1) -> Form:
    """A packet 65: NID_TSR, D_TSR, L_TSR, Q_FRONT and V_TSR."""
    return raw(65, direction, (8, identity), (15, begin), (15, length), (1, 0), (7, speed // 5))


def mode(direction: int, *parts: Tuple[int, int, int]) -> Form:
    """A packet 80 of modes on sight: D_MAMODE, L_MAMODE and L_ACKMAMODE of each."""
    fields: List[Tuple[int, int]] = []
    for index, (begin, length, acknowledged) in enumerate(parts):
        fields += [(15, begin), (2, 0), (7, 8), (15, length), (15, acknowledged), (1, 0)]
        fields += [(5, len(parts) - 1)] if index == 0 else []
    return raw(80, direction, *fields)


def level(direction: int, begin: int, to: int, acknowledged: int = 0) -> Form:
    """A packet 41 with one level."""
    choice = {"m_leveltr": to, "l_ackleveltr": acknowledged}
    return packet(41, direction, d_leveltr=begin, transitions=[choice])


def authority(direction: int, length: int, speed: int, *sections: int, end_speed: int = 0, **parts: Form) -> Form:
    """A packet 12, with V_LOA in km/h."""
    own = [{"l_section": each} for each in sections]
    head = {"v_main": speed // 5, "end_speed": end_speed // 5, "end_timeout": 1023}
    return packet(12, direction, **head, sections=own, l_endsection=length, **parts)


def gradients(direction: int, *steps: Tuple[int, int], reach: int) -> Form:
    """A packet 21: places and per mille, up to a place."""
    ends = [at for at, _ in steps][:1] + [to - at for (at, _), (to, _) in zip(steps, [*steps[1:], (reach, 0)])]
    elements = [{"d_gradient": at, "q_gdir": int(value >= 0), "g_a": abs(value)} for at, (_, value) in zip(ends, steps)]
    return packet(21, direction, elements=[*elements, {"d_gradient": ends[-1], "q_gdir": 0, "g_a": 255}])


def speeds(direction: int, *steps: Tuple[int, int], reach: int, **categories: int) -> Form:
    """A packet 27: places and km/h, up to a place; `cd100=110` and `freight=70` are speeds of categories."""
    differences = [
        {"q_diff": 0, "nc": 1, "v_diff": value // 5}
        if name.startswith("cd100")
        else {"q_diff": 0, "nc": 2, "v_diff": value // 5}
        if name.startswith("cd130")
        else {"q_diff": 1, "nc": 0, "v_diff": value // 5}
        for name, value in categories.items()
    ]
    ends = [at for at, _ in steps][:1] + [to - at for (at, _), (to, _) in zip(steps, [*steps[1:], (reach, 0)])]
    elements = [
        {"d_static": at, "v_static": value // 5, "q_front": 0, "differences": differences}
        for at, (_, value) in zip(ends, steps)
    ]
    return packet(
        27, direction, elements=[*elements, {"d_static": ends[-1], "v_static": 127, "q_front": 0, "differences": []}]
    )


def linking(direction: int, *links: Tuple[int, int, int]) -> Form:
    """A packet 5: D_LINK, NID_BG and Q_LINKORIENTATION of each group."""
    items = [
        {"d_link": at, "nid_bg": identity, "q_linkorientation": way, "q_linkreaction": 1, "q_locacc": 5}
        for at, identity, way in links
    ]
    return packet(5, direction, links=items)


def pair(
    name: str, km: float, identity: int, aspects: Mapping[str, Sequence[Form]], *fixed: Form, rising: int = 1
) -> Iterator[Row]:
    """A group of a fixed balise with these packets, and one that is switched."""

    def telegram(place: int, counter: int, packets: Sequence[Form]) -> Form:
        return {
            "m_version": 33,
            "n_pig": place,
            "n_total": 1,
            "m_dup": 0,
            "m_mcount": counter,
            "nid_c": 1,
            "nid_bg": identity,
            "q_link": 1,
            "user_bits": 830,
            "packets": list(packets),
        }

    yield name, "1", f"{km:.3f}", "", "*" if len(aspects) > 1 else "", telegram(0, 255, fixed)
    for counter, (aspect, packets) in enumerate(aspects.items(), 1):
        where = f"{km + 0.003 * rising:.3f}"
        yield name, "2", where, "", aspect if len(aspects) > 1 else "", telegram(1, counter, packets)


def run(direction: int, length: int, speed: int, slope: int = 3, **parts: Form) -> List[Form]:
    """An authority with profiles that reach its supervised location."""
    far = max(length, *(length + part.get("d_ol", part.get("d_dp", 0)) for part in parts.values())) if parts else length
    return [
        authority(direction, length, speed, **parts),
        gradients(direction, (0, slope), (far // 2, -slope), reach=far),
        speeds(direction, (0, speed), (far // 3, max(speed - 20, 5)), reach=far),
    ]


OVERLAP = {"d_startol": 100, "t_ol": 30, "d_ol": 120, "v_releaseol": 126}
DANGER_POINT = {"d_dp": 60, "v_releasedp": 5}


def both() -> Iterator[Row]:
    """Groups for both directions. The first one has a different speed in each direction."""
    for index, name in enumerate("GHK"):
        here = [*run(1, 1800, 140, overlap=OVERLAP), *run(0, 1500, 80, danger_point=DANGER_POINT)]
        links = [linking(1, (2000, index + 2, 1))] if index < 2 else []
        back = [linking(0, (2000, index, 0))] if index else []
        yield from pair(name, 12.5 + 2 * index, index + 1, {"": here}, *links, *back)


def falling() -> Iterator[Row]:
    """Signals for falling kilometres, the last of which reaches below km 0."""
    for index, name in enumerate(("N", "P", "Q", "R")):
        km = 9.5 - 2.4 * index
        aspects = {"red": run(1, 0, 0, overlap=OVERLAP)[:1], "green": run(1, 3000, 120, overlap=OVERLAP)}
        links = [linking(1, (2400, index + 2, 1))] if index < 3 else []
        yield from pair(name, km, index + 1, aspects, *links, rising=-1)


def borders() -> Iterator[Row]:
    """Level transitions with areas of acknowledgement, announced and carried out."""
    yield from pair("Announcement of level 2", 20.0, 1, {"": [level(1, 1500, 3, 400)]}, linking(1, (1500, 2, 1)))
    yield from pair("Border", 21.5, 2, {"": [level(1, 32_767, 3), level(0, 900, 2, 300), *run(0, 1200, 100)]})
    yield from pair("S 1", 22.4, 3, {"": [*run(1, 2000, 160), level(1, 200, 2, 300), level(1, 1200, 3, 50)]})


def restrictions() -> Iterator[Row]:
    """Temporary speed restrictions that overlap, modes, and a limit of authority."""
    several = [restriction(1, 300, 500, 80), restriction(1, 700, 600, 40, 2), restriction(1, 1500, 20, 60, 3)]
    here = [*run(1, 2000, 120), *several, mode(1, (400, 200, 100), (900, 700, 0))]
    yield from pair("T 1", 30.1, 1, {"": here}, linking(1, (2100, 2, 1)))
    limit = [authority(1, 900, 100, 400, 300, end_speed=40), *run(1, 1600, 100)[1:], restriction(2, 100, 900, 30)]
    yield from pair("T 2", 32.2, 2, {"": limit})


def categories() -> Iterator[Row]:
    """Speeds of three categories over a profile of several steps."""
    profile = speeds(1, (0, 80), (700, 120), (1500, 60), reach=2500, cd100=100, cd130=110, freight=70)
    here = [authority(1, 2500, 140), gradients(1, (0, 3), (500, -12), (900, 0), reach=2500), profile]
    yield from pair("C 1", 40.2, 1, {"": here})


def outlier() -> Iterator[Row]:
    """A group at km 900, and an authority that is longer than all of the line."""
    for index, km in enumerate((10.0, 11.8, 13.5, 900.0)):
        length = 16_000 if index == 2 else 1700
        yield from pair(
            f"U {index}", km, index + 1, {"": run(1, length, 120)}, *([linking(1, (1800, 2, 1))] if not index else [])
        )


def signals(count: int, distance: float) -> Iterator[Row]:
    """`count` signals with three aspects."""
    for index in range(count):
        length = int(distance * 1000)
        aspects = {
            "red": [authority(1, 0, 0, overlap=OVERLAP), *run(1, 120, 100)[1:]],
            "yellow": run(1, length, 120, index % 5, overlap=OVERLAP),
            "green": run(1, 2 * length, 160, index % 7, overlap=OVERLAP),
        }
        links = [linking(1, (length, index + 2, 1), (length, index + 3, 1))] if index + 2 < count else []
        yield from pair(f"Signal {index + 1}", 3 + distance * index, index + 1, aspects, *links)


LINES: Dict[str, Callable[[], Iterator[Row]]] = {
    "both directions": both,
    "falling": falling,
    "level borders": borders,
    "restrictions": restrictions,
    "categories": categories,
    "outlier": outlier,
    "fifteen": lambda: signals(15, 1.4),
    "close": lambda: signals(15, 0.3),
    "one": lambda: signals(1, 2.0),
}


def table(program: Program, rows: Sequence[Row]) -> str:
    """The table as CSV."""
    out = io.StringIO(newline="")
    writer = csv.writer(out, lineterminator="\n")
    writer.writerow(HEADING)
    for row, text in zip(rows, program.encode([row[-1] for row in rows])):
        if not isinstance(text, Text):
            raise ValueError(f"{row}: {text.line}")
        writer.writerow([*row[:-1], text.line])
    return out.getvalue()


def write(folder: Path) -> None:
    """Writes the tables and pictures."""
    for each, made in LINES.items():
        path = folder / f"{each.replace(' ', '-')}.csv"
        path.write_text(table(Program.find(), list(made())), "utf-8")
        cli.main(["draw", str(path), "--track", "--force", "--svg", str(path.with_suffix(".svg"))])
        cli.main(["draw", str(path), "--all", str(path.with_suffix(""))])


if __name__ == "__main__":
    write(Path(sys.argv[1]))

"""Makes examples/table/line.csv: a line of level 1 with eight signals, `python3 companion/tests/line_table.py`.

Each signal has a fixed balise with linking, and a switched one with authority, gradients and speeds in three aspects.
Four things are out of the ordinary: the stop aspect of signal C has no profiles, the infill group of signal D has a
packet 136, the gradients of signal E end too soon at green, and a value in a telegram of signal F is spare.
"""
from __future__ import annotations

import csv
import io
import sys
from pathlib import Path
from typing import Any, Iterator, List, Sequence, Tuple

HERE = Path(__file__).resolve().parent
sys.path.insert(0, str(HERE.parent / "src"))

from balisekit.engine.program import Program, Text  # noqa: E402
from balisekit.etcs.layout import telegram_fields, user_bits  # noqa: E402  (the path comes first)

LINE = HERE.parents[1] / "examples" / "table" / "line.csv"
HEADING = ("group", "name", "km", "aspect", "balise", "telegram")
#: Places of the signals in metres along the line, and those of two more that the last authorities reach.
SIGNALS = {"A": 12300, "B": 13850, "C": 15300, "D": 16900, "E": 18250, "F": 19800, "G": 21400, "H": 22900}
ENDS = [*SIGNALS.values(), 24300, 25900]
#: By the metre of the line from which on they hold: gradients in per mille, and speeds in km/h.
GRADIENTS = ((12000, 2), (14200, -5), (16000, 0), (17700, 4), (20500, -3), (23000, 1))
SPEEDS = ((12000, 120), (15900, 100), (18900, 120), (22000, 80))
OVERLAP = 200
INFILL = (SIGNALS["D"] - 400, 201)
"""Place and number of the infill group."""
Form = Any
Item = Tuple[str, str, str, str, str, Form]


def packet(number: int, **keys: Any) -> Form:
    """A packet for the nominal direction, in metres."""
    return {"nid_packet": number, "q_dir": 1, "q_scale": 1, **keys}


def steps(places: Sequence[Tuple[int, int]], at: int, reach: int) -> Iterator[Tuple[int, int]]:
    """The distance of each step from the one before it, and its value, from a place of the line on."""
    before = 0
    for place, (begins, value) in enumerate(places):
        ends = places[place + 1][0] if place + 1 < len(places) else at + reach + 1
        distance = max(begins - at, 0)
        if ends > at and distance < reach:
            yield distance - before, value
            before = distance
    yield reach - before, 1000


def gradients(at: int, reach: int) -> Form:
    """The gradient profile from `at` on, over `reach` metres."""
    return packet(
        21,
        elements=[
            {"d_gradient": distance, "q_gdir": int(value >= 0 and value < 1000), "g_a": min(abs(value), 255)}
            for distance, value in steps(GRADIENTS, at, reach)
        ],
    )


def speeds(at: int, reach: int) -> Form:
    """The speed profile from `at` on, over `reach` metres."""
    return packet(
        27,
        elements=[
            {"d_static": distance, "v_static": 127 if value == 1000 else value // 5, "q_front": 0, "differences": []}
            for distance, value in steps(SPEEDS, at, reach)
        ],
    )


def authority(length: int, speed: int) -> Form:
    """The authority up to a signal, with an overlap after it."""
    overlap = {"d_startol": 300, "t_ol": 60, "d_ol": OVERLAP, "v_releaseol": 126}
    return packet(
        12, v_main=speed // 5, end_speed=0, end_timeout=1023, sections=[], l_endsection=length, overlap=overlap
    )


def linking(signal: int) -> List[Form]:
    """The groups up to the second signal from here, as far as the table goes, and the infill group among them."""
    places = [(at, 101 + one) for one, at in enumerate(SIGNALS.values())]
    ahead = sorted([*places[signal + 1 : signal + 3], *([INFILL] if signal in (1, 2) else [])])
    links = [
        {"d_link": at - before, "nid_bg": identity, "q_linkorientation": 1, "q_linkreaction": 1, "q_locacc": 5}
        for (before, _), (at, identity) in zip([places[signal], *ahead], ahead)
    ]
    return [packet(5, links=links)] if links else []


def telegram(identity: int, position: int, total: int, counter: int, *packets: Form) -> Form:
    """A long telegram."""
    return {
        "m_version": 33,
        "n_pig": position,
        "n_total": total,
        "m_dup": 0,
        "m_mcount": counter,
        "nid_c": 352,
        "nid_bg": identity,
        "q_link": 1,
        "user_bits": 830,
        "packets": list(packets),
    }


def aspects(signal: int, name: str) -> Iterator[Tuple[str, List[Form]]]:
    """Each aspect with the packets of the switched balise."""
    at = ENDS[signal]
    for aspect, end, speed in (("red", 0, 0), ("yellow", 1, 120), ("green", 2, 160)):
        length = ENDS[signal + end] - at
        reach = length + OVERLAP
        short = 100 if (name, aspect) == ("E", "green") else 0
        profiles = [] if (name, aspect) == ("C", "red") else [gradients(at, reach - short), speeds(at, reach)]
        yield aspect, [authority(length, speed), *profiles]


def items() -> Iterator[Item]:
    """The rows, with forms instead of telegrams."""
    for signal, (name, at) in enumerate(SIGNALS.items()):
        group, identity = f"Signal {name}", 101 + signal
        if name == "D":
            yield from infill(INFILL[0], identity)
        yield group, f"{name}1", f"{at / 1000:.3f}", "*", "0", telegram(identity, 0, 1, 255, *linking(signal))
        for counter, (aspect, packets) in enumerate(aspects(signal, name), 1):
            form = telegram(identity, 1, 1, counter, *packets)
            yield group, f"{name}2", f"{(at + 3) / 1000:.3f}", aspect, "1", form


def infill(at: int, identity: int) -> Iterator[Item]:
    """A group ahead of a signal, whose packet 136 names the signal's group."""
    body = f"{identity << 1:04x}"
    contents: List[Tuple[str, List[Form]]] = [("red", []), ("green", [authority(1350, 120)])]
    for counter, (aspect, packets) in enumerate(contents, 1):
        profiles = [gradients(at + 400, 1550), speeds(at + 400, 1550)] if packets else []
        reference = {"nid_packet": 136, "q_dir": 1, "l_packet": 38, "body": body}
        form = telegram(INFILL[1], 0, 0, counter, reference, *packets, *profiles)
        yield "Infill of D", "D0", f"{at / 1000:.3f}", aspect, "0", form


def with_spare_direction(digits: str) -> str:
    """The telegram with 3 as Q_DIR of its second packet."""
    bits = user_bits(digits)
    field = [one for one in telegram_fields(bits) if one.name == "Q_DIR"][1]
    spoilt = (bits[: field.at] + "11" + bits[field.at + 2 :]).ljust(len(digits) * 4, "0")
    return f"{int(spoilt, 2):0{len(digits)}x}"


def table(program: Program) -> str:
    """The table as CSV."""
    out = io.StringIO(newline="")
    rows = csv.writer(out, lineterminator="\n")
    rows.writerow(HEADING)
    made = list(items())
    for item, text in zip(made, program.encode([item[5] for item in made])):
        if not isinstance(text, Text):
            raise ValueError(f"{item}: {text.line}")
        spoilt = item[0] == "Signal F" and item[3] == "yellow"
        digits = with_spare_direction(text.line) if spoilt else text.line
        rows.writerow([str(cell) for cell in item[:5]] + [digits])
    return out.getvalue()


if __name__ == "__main__":
    LINE.write_text(table(Program.find()), "utf-8")

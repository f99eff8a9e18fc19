"""Lines with one mistake each for the rules E1 to E11, as teams make them: `examples/meaning/mistakes`.

`python3 companion/tests/meaning_mistakes_of_groups.py` writes each table, and beside it what
`check TABLE --only E --rules all --folded` writes after its first line.
"""
from __future__ import annotations

import contextlib
import copy
import io
from pathlib import Path
from typing import Any, Callable, Dict, List, NamedTuple, Sequence

import meaning_line
from meaning_line import FOLDER, Line, Row, change

from balisekit.cli import main as cli
from balisekit.engine.program import Program

Change = Callable[[List[Row]], Any]
MISTAKES_FOLDER = FOLDER / "mistakes"
RED, YELLOW, GREEN, FIXED = "red", "yellow", "green", "*"
SHORT = Line(signals=6)


def row_of(signal: int, aspect: str) -> int:
    """The row of an aspect of a signal in the table of the short line."""
    return next(
        number for number, row in enumerate(SHORT.rows, 2) if (row.group, row.aspect) == (f"Signal {signal}", aspect)
    )


def packet_with(signal: int, aspect: str, number: int, **values: Any) -> Change:
    """Sets these values in a packet. One that is None is removed."""

    def set_values(rows: List[Row]) -> None:
        form = change(rows, f"Signal {signal}", aspect, number)
        form.update(values)
        for key, value in values.items():
            if value is None:
                del form[key]

    return set_values


def element_with(signal: int, aspect: str, number: int, place: int, **values: Any) -> Change:
    """Sets these values in an element of a profile."""
    return lambda rows: change(rows, f"Signal {signal}", aspect, number)["elements"][place].update(values)


def packets_added(signal: int, aspect: str, *packets: Any, place: int = 99) -> Change:
    """Puts packets into a telegram."""

    def add(rows: List[Row]) -> None:
        form = next(row.form for row in rows if (row.group, row.aspect) == (f"Signal {signal}", aspect))
        form["packets"][place:place] = packets

    return add


def raw(number: int, bits: str, direction: int = 1) -> Any:
    """A packet that is kept as bits, with these bits after L_PACKET."""
    whole = bits + "0" * (-len(bits) % 8)
    body = "".join(f"{int(whole[at:at + 8], 2):02x}" for at in range(0, len(whole), 8))
    return {"nid_packet": number, "q_dir": direction, "l_packet": 23 + len(bits), "body": body}


def restriction(speed: int, more: str = "") -> Any:
    """A packet 65: 100 m, from 200 m on."""
    return raw(65, f"01{7:08b}{200:015b}{100:015b}0{speed:07b}{more}")


def telegram(rows: List[Row], signal: int, aspect: str) -> Any:
    """The telegram of an aspect."""
    return next(row.form for row in rows if (row.group, row.aspect) == (f"Signal {signal}", aspect))


def turned(signal: int, aspect: str) -> Change:
    """All packets of an aspect are for the other direction."""

    def turn(rows: List[Row]) -> None:
        for packet in telegram(rows, signal, aspect)["packets"]:
            packet["q_dir"] = 1 - packet["q_dir"]

    return turn


def exchanged(signal: int) -> Change:
    """Yellow and green have each other's packets."""

    def exchange(rows: List[Row]) -> None:
        one, other = (telegram(rows, signal, aspect) for aspect in (YELLOW, GREEN))
        one["packets"], other["packets"] = other["packets"], one["packets"]

    return exchange


def repeated(rows: List[Row]) -> None:
    """The first gradient of signal 3 at green is entered twice."""
    elements = change(rows, "Signal 3", GREEN, 21)["elements"]
    elements[1]["d_gradient"] -= 100
    elements.insert(1, {**elements[0], "d_gradient": 100})


def copied(rows: List[Row]) -> None:
    """Yellow of signal 3 has the packets of green."""
    telegram(rows, 3, YELLOW)["packets"] = telegram(rows, 3, GREEN)["packets"]


def moved(rows: List[Row]) -> None:
    """The second balise of signal 3 is 30 m farther than it should be."""
    for row in rows:
        row.place += 30 * (row.group == "Signal 3" and row.balise == 1)


def linked_twice(rows: List[Row]) -> None:
    """Yellow of signal 3 has a packet 5 too."""
    packets_added(3, YELLOW, copy.deepcopy(change(rows, "Signal 3", FIXED, 5)))(rows)


class Mistake(NamedTuple):
    """A sound line, and how it is changed."""

    line: Line
    change: Change
    messages: Sequence[Any] = ()
    """The radio messages beside it."""

    def lines(self, program: Program) -> str:
        """The messages as a file has them."""
        return "".join(f"{text.line}\n" for text in program.encode(self.messages, radio=True))

    @property
    def rows(self) -> List[Row]:
        """The rows with the mistake."""
        rows = copy.deepcopy(self.line.rows)
        self.change(rows)
        return rows


MISTAKES: Dict[str, Mistake] = {
    "E1": Mistake(SHORT, packets_added(3, RED, restriction(8, "00000000"))),
    "E2": Mistake(SHORT, packet_with(3, GREEN, 12, v_main=120)),
    "E3": Mistake(SHORT, packet_with(3, GREEN, 12, danger_point={"d_dp": 250, "v_releasedp": 126})),
    "E4": Mistake(SHORT, repeated),
    "E5": Mistake(Line(signals=6, border=0), packet_with(4, FIXED, 41, q_dir=2)),
    "E6": Mistake(SHORT, linked_twice),
    "E7": Mistake(SHORT, copied),
    "E8": Mistake(SHORT, turned(3, GREEN)),
    "E9": Mistake(SHORT, exchanged(3)),
    "E10": Mistake(SHORT, element_with(3, YELLOW, 27, 0, v_static=32)),
    "E11": Mistake(SHORT, moved),
}
"""A realistic mistake for each rule."""


def messages_of(name: str) -> Path:
    """The file of the radio messages of an example, if it has any."""
    return MISTAKES_FOLDER / f"{name}-messages.txt"


def answer(name: str) -> str:
    """What `check` writes about the table with this mistake, after the lines on table, program and settings.

    The line that lists all rules is not stored: a new rule would change each file.
    """
    out, messages = io.StringIO(), messages_of(name)
    given = ["--messages", str(messages)] if messages.exists() else []
    with contextlib.redirect_stdout(out):
        cli.main(["check", str(MISTAKES_FOLDER / f"{name}.csv"), *given, "--only", "E", "--rules", "all", "--folded"])
    lines = out.getvalue().splitlines(keepends=True)[3:]
    return "".join(line for line in lines if not line.startswith("applied: "))


if __name__ == "__main__":
    MISTAKES_FOLDER.mkdir(exist_ok=True)
    _program = Program.find()
    for _name, _mistake in MISTAKES.items():
        (MISTAKES_FOLDER / f"{_name}.csv").write_text(meaning_line.table(_program, _mistake.rows), "utf-8")
        (MISTAKES_FOLDER / f"{_name}.txt").write_text(answer(_name), "utf-8")

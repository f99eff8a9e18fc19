"""Accepted entries after each packet got a balise of its own: an entry covers all packets of its message it rests on.

A remark is about one telegram, but a message has those of all balises of a group. What a rule compares with another
balise is looked at again if that telegram changes.
"""
from __future__ import annotations

import copy
import csv
import io
import re
from pathlib import Path
from typing import Any, Dict, Iterator, List, Optional, Sequence, Tuple

import pytest
from cases_of_program import TOP
from meaning_line import table as written
from meaning_mistakes_of_groups import SHORT
from plan_example import Cells, text_of
from test_meaning_along import repositioning

from balisekit.engine.program import Program, Text
from balisekit.errors import KitError
from balisekit.rules import accepted, checking
from balisekit.rules.accepted import Key, checksum, keys
from balisekit.rules.families import apply
from balisekit.rules.rule import ALL, Options, Remark
from balisekit.tables import reader

EXAMPLES = TOP / "examples"
MISTAKES = sorted([*EXAMPLES.glob("links/*.csv"), *EXAMPLES.glob("meaning/mistakes/*.csv")])
MOST_BALISES, USER_BITS = 8, 830
TRIED = 3
"""How many changes of a packet are tried that leave the sentence as it is."""
SHOWN = (("E10", 5), ("E12", 5), ("E13", 5), ("E25", 5))
"""Packets that only show where trains go. If they go elsewhere, the sentence is another one."""
NAMES = re.compile("[A-Z]+_[A-Z0-9_]+")
Form = Any
Line = List[Tuple[Cells, Form]]
Found = Dict[Key, Tuple[str, Tuple[str, ...], List[Remark]]]
"""By what an entry names: the checksum of its remarks, their sentences, and the remarks."""


def apart(line: Line) -> Line:
    """The same line with each packet of an aspect in a balise of its own, as far as a group has balises."""
    groups: Dict[str, Line] = {}
    for cells, form in line:
        groups.setdefault(cells["group"], []).append((cells, form))
    return [each for own in groups.values() for each in _apart(own)]


def _apart(own: Line) -> Iterator[Tuple[Cells, Form]]:
    if any(form["m_dup"] for _, form in own):
        yield from own
        return
    names = [name for name in dict.fromkeys(cells.get("aspect", "") for cells, _ in own) if name != "*"] or [""]
    rows = {
        name: sorted(
            (each for each in own if each[0].get("aspect", "") in (name, "*")), key=lambda it: int(it[1]["n_pig"])
        )
        for name in names
    }
    packets = {name: [packet for _, form in rows[name] for packet in form["packets"]] for name in names}
    count = max(min(MOST_BALISES, max(map(len, packets.values()))), *map(len, rows.values()))
    for name in names:
        (cells, first), counter = rows[name][0], rows[name][-1][1]["m_mcount"]
        for place in range(count):
            said = packets[name][place:] if place == count - 1 else packets[name][place : place + 1]
            head = {"n_pig": place, "n_total": count - 1, "m_mcount": counter, "user_bits": USER_BITS}
            yield {**cells, "aspect": name, "balise": str(place), "name": ""}, {**first, **head, "packets": said}


def table_of(program: Program, line: Line) -> Optional[str]:
    """The table, or nothing if a telegram is none."""
    texts = program.encode([form for _, form in line])
    lines = [each.line for each in texts if isinstance(each, Text)]
    made = [{**cells, "telegram": text} for (cells, _), text in zip(line, lines)]
    return text_of(made) if len(lines) == len(line) else None


def found(program: Program, path: Path, line: Line) -> Optional[Found]:
    """The remarks of a line, or nothing if it is no line."""
    text = table_of(program, line)
    if text is None:
        return None
    path.write_text(text, "utf-8")
    try:
        checked = checking.check(program, reader.read(str(path)))
    except KitError:
        return None
    items = [item for item in apply(checked, "LEX", Options(asked=frozenset({ALL}))).items if isinstance(item, Remark)]
    by_key: Dict[Key, List[Remark]] = {}
    for key, item in zip(keys(items, checked), items):
        by_key.setdefault(key, []).append(item)
    return {key: (checksum(some), tuple(sorted(map(sentence, some))), some) for key, some in by_key.items()}


def sentence(remark: Remark) -> str:
    """The sentence without numbers of rows."""
    return accepted.ROW_NUMBERS.sub("", remark.sentence)


def changed(line: Line, at: int, place: int, packet: Optional[Form]) -> Line:
    """The line with another packet at a place of a telegram, or without it."""
    cells, form = line[at]
    packets = [*form["packets"][:place], *([packet] if packet else []), *form["packets"][place + 1 :]]
    return [*line[:at], (cells, {**form, "packets": packets}), *line[at + 1 :]]


def leaves(form: Form, before: Tuple[Any, ...] = ()) -> Iterator[Tuple[Any, ...]]:
    """Where the numbers of a packet are."""
    for key, value in form.items() if isinstance(form, dict) else enumerate(form):
        if isinstance(value, (dict, list)):
            yield from leaves(value, (*before, key))
        elif isinstance(value, int) and key not in ("nid_packet", "l_packet"):
            yield (*before, key)


def others(packet: Form) -> Iterator[Tuple[str, Form]]:
    """The packet with one other number, and which one."""
    for where in leaves(packet):
        for step in (1, -1):
            made = copy.deepcopy(packet)
            parent = made
            for key in where[:-1]:
                parent = parent[key]
            parent[where[-1]] += step
            if parent[where[-1]] >= 0:
                yield str(where[-1]), made


def not_covered(program: Program, path: Path, line: Line) -> List[str]:
    """The packets on which a remark rests, and that can change although its entry stays accepted."""
    first = found(program, path, line) or {}
    wrong = []
    for at, (cells, form) in enumerate(line):
        for place, packet in enumerate(form["packets"]):
            own = {key for key, (_, _, some) in first.items() if any(_is_of(each, cells) for each in some)}
            without = found(program, path, changed(line, at, place, None)) if own else None
            if without is None:
                continue
            changes = [key for key in own if key not in without or without[key][1] != first[key][1]]
            resting = [key for key in changes if (key[0], packet["nid_packet"]) not in SHOWN]
            wrong += [
                f"{key[0]}: {name} of packet {packet['nid_packet']}, row {at + 2}: {first[key][1]}"
                for name, key in _accepted(program, path, (line, at, place), first, resting)
            ]
    return wrong


def _groups(remark: Remark) -> Sequence[str]:
    """The group at which a remark is."""
    return [remark.location.group.group.name] if remark.location.group else []


def _is_of(remark: Remark, cells: Cells) -> bool:
    """Whether a row is of the group and aspect of a remark."""
    row = remark.location.row
    aspects = {*remark.aspects, *([row.aspect] if row else [])}
    return cells["group"] in _groups(remark) and (not aspects or cells["aspect"] in aspects)


def _accepted(
    program: Program, path: Path, where: Tuple[Line, int, int], first: Found, resting: Sequence[Key]
) -> Iterator[Tuple[str, Key]]:
    """Which of these entries stay accepted, and which number of the packet may change."""
    line, at, place = where
    spoken = {name.lower() for key in resting for words in first[key][1] for name in NAMES.findall(words)}
    tried = 0
    for name, other in others(line[at][1]["packets"][place]) if resting else ():
        if tried >= TRIED and name not in spoken:
            continue
        now = found(program, path, changed(line, at, place, other))
        tried += now is not None
        yield from ((name, key) for key in resting if now and key in now and now[key][0] == first[key][0])


def example(program: Program, path: Path) -> Line:
    """An example with its telegrams decoded."""
    rows = list(csv.DictReader(io.StringIO(path.read_text("utf-8"))))
    return [(row, getattr(record, "form")) for row, record in zip(rows, program.decode([r["telegram"] for r in rows]))]


def stays(program: Program, path: Path, rule: str, line: Line, number: int, changes: Dict[str, Any]) -> bool:
    """Whether an entry of a rule stays accepted after a change of each packet with this number in its group."""
    first = {key: own for key, own in (found(program, path, line) or {}).items() if key[0] == rule}
    ((key, (_, _, (remark,))),) = first.items()
    made = copy.deepcopy(line)
    packets = [each for cells, form in made if cells["group"] in _groups(remark) for each in form["packets"]]
    for packet in (each for each in packets if each["nid_packet"] == number):
        packet.update(changes)
    now = found(program, path, made) or {}
    assert made != line and now[key][1] == first[key][1]
    return now[key][0] == first[key][0]


def test_the_authority_of_a_mode_profile_is_covered(program: Program, tmp_path: Path) -> None:
    """E26: the packet 12 is in another balise than the packet 80, and its V_MAIN changes."""
    line = apart(example(program, EXAMPLES / "meaning/mistakes/E26.csv"))
    assert not stays(program, tmp_path / "t.csv", "E26", line, 12, {"v_main": 4})


def test_the_links_of_a_section_are_covered(program: Program, tmp_path: Path) -> None:
    """E30: the packet 5 is in another balise than the packet 16, and gets another link."""
    rows, path = SHORT.rows, tmp_path / "short.csv"
    repositioning(250)(rows)
    path.write_text(written(program, rows), "utf-8")
    line = apart(example(program, path))
    link = {"d_link": 500, "nid_bg": 4, "q_linkorientation": 1, "q_linkreaction": 2, "q_locacc": 5}
    assert not stays(program, tmp_path / "t.csv", "E30", line, 5, {"links": [link]})


def test_the_packet_136_of_infill_is_covered(program: Program, tmp_path: Path) -> None:
    """E15: the packet 136 is in another balise than the packet 12, and is for both directions afterwards."""
    line = apart(example(program, EXAMPLES / "meaning/mistakes/E15.csv"))
    assert not stays(program, tmp_path / "t.csv", "E15", line, 136, {"q_dir": 2})


@pytest.mark.slow
@pytest.mark.parametrize("path", MISTAKES, ids=lambda path: str(path.stem))
def test_all_packets_of_a_message_are_covered(program: Program, tmp_path: Path, path: Path) -> None:
    """Of each rule E and L, by its example."""
    assert not not_covered(program, tmp_path / "t.csv", apart(example(program, path)))

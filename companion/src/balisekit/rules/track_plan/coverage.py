"""How much of a table a design confirms: a word for each variable of each telegram, and for each row of the design."""
from __future__ import annotations

from dataclasses import dataclass, field
from typing import Collection, Dict, Iterable, List, Mapping, NamedTuple, Sequence, Tuple

from balisekit.rules.decoded import Decoded
from balisekit.rules.telegrams import Packet
from balisekit.rules.track_plan.confirmed import (
    DERIVED,
    HEADER,
    HEADER_BITS,
    NOBODY,
    OF_PACKET,
    Confirmed,
    Path,
    Place,
    Words,
)
from balisekit.tables.plan import Plan, PlanRow

FREE = "other"
"""The column of a matrix for what the design has no kind for."""
HEADER_KIND = "group"
OF_HEADER = frozenset({"nid_c", "nid_bg", "q_link", "n_pig"})
"""The variables of a header that a row of kind `group` states."""
COMPARED: Mapping[int, Tuple[str, Tuple[str, ...]]] = {
    5: ("group", ("d_link", "q_linkorientation", "nid_c", "nid_bg")),
    12: (
        "aspect",
        (
            "v_main",
            "end_speed",
            "end_timeout",
            "l_section",
            "l_endsection",
            "t_endtimer",
            "d_endtimerstartloc",
            "d_dp",
            "v_releasedp",
            "d_startol",
            "t_ol",
            "d_ol",
            "v_releaseol",
        ),
    ),
    15: ("signal", ("l_section", "l_endsection")),
    21: ("gradient", ("d_gradient", "q_gdir", "g_a")),
    27: ("speed", ("d_static", "v_static")),
    41: ("level", ("d_leveltr", "m_leveltr", "nid_ntc")),
    42: ("rbc", ("q_rbc", "nid_c", "nid_rbc")),
    46: ("level", ("m_leveltr", "nid_ntc")),
    131: ("rbc", ("d_rbctr", "nid_c", "nid_rbc")),
}
"""By NID_PACKET: the kind of a design that states what a packet says, and the variables that it states."""
NOT_TOLD = "no telegram can be compared with it"
NOT_STATED, NO_KIND = "no row of the design states it", "no kind of row is counted for it"
NO_ROW = "the design has no row of this kind"
OF_WAY = "it states where kilometres or trains go, and no telegram states it"


class RowWord(NamedTuple):
    """What became of a row of a design."""

    row: PlanRow
    word: str
    """`met`, `contradicted`, `uncovered` or `not compared`."""
    telegrams: Sequence[int] = ()
    """The rows of the telegrams that meet or contradict it."""
    why: str = ""
    """Why it is not compared."""


@dataclass
class Cell:
    """What became of the variables of a group for which a kind of the design is there."""

    counts: List[int] = field(default_factory=lambda: [0] * len(Words._fields))
    reasons: Dict[str, int] = field(default_factory=dict)
    """How many variables are not compared, or free, by the reason."""

    @property
    def words(self) -> Words:
        """How many variables have each word."""
        return Words(*self.counts)


@dataclass
class Coverage:
    """What a design confirms of a table."""

    design: Plan
    words: Words
    rows: Sequence[RowWord]
    cells: Mapping[Tuple[str, str], Cell]
    """By the name of a group and a kind, in the order of the table."""

    def rows_with(self, word: str) -> Sequence[RowWord]:
        """The rows of the design that have this word."""
        return [each for each in self.rows if each.word == word]

    @property
    def share(self) -> float:
        """How many of a hundred variables are confirmed. It is 100 if there are none."""
        return 100 * self.words.confirmed / self.words.total if self.words.total else 100.0


def coverage_of(decoded: Decoded, design: Plan, some: Iterable[Confirmed]) -> Coverage:
    """What the rules X have confirmed of a table, by what each of them reports."""
    confirmed = Confirmed()
    for each in some:
        confirmed.add(each)
        confirmed.known = each.known
    kinds = {row.kind for row in design.rows}
    cells: Dict[Tuple[str, str], Cell] = {}
    masks = _Masks()
    for data in decoded.groups:
        name = data.group.group.name
        for number, telegram in data.telegrams.items():
            _add(confirmed, cells, (name, HEADER_KIND), (number, HEADER), masks.of_header, kinds)
            for packet in telegram.packets:
                kind, _ = COMPARED.get(packet.number, (FREE, ()))
                _add(confirmed, cells, (name, kind), (number, packet.place), masks.of(confirmed, packet), kinds)
    counts = (sum(column) for column in zip(*(cell.counts for cell in cells.values())))
    return Coverage(design, Words(*counts), [_row_word(confirmed, row) for row in design.rows], cells)


Masks = Tuple[int, int, int]
"""The bits of all variables of a packet or header, of those that a design can state, and of those that are derived."""


class _Masks:
    """The masks of packets, by the ids of their bits, which `Confirmed` keeps."""

    def __init__(self) -> None:
        self.of_header = _masks_of(HEADER_BITS, OF_HEADER)
        self._known: Dict[int, Masks] = {}

    def of(self, confirmed: Confirmed, packet: Packet) -> Masks:
        """Those of a packet."""
        bits = confirmed.bits_of(packet)
        known = self._known.get(id(bits))
        if known is None:
            _, keys = COMPARED.get(packet.number, (FREE, ()))
            known = self._known[id(bits)] = _masks_of(bits, {*keys, *(path[0] for path in OF_PACKET)} if keys else ())
        return known


def _masks_of(bits: Mapping[Path, int], stated: Collection[object]) -> Masks:
    """The masks of variables, if a design can state those with these keys."""
    comparable, derived = (sum(bit for path, bit in bits.items() if path[-1] in some) for some in (stated, DERIVED))
    return (1 << len(bits)) - 1, comparable, derived


def _add(
    confirmed: Confirmed,
    cells: Dict[Tuple[str, str], Cell],
    at: Tuple[str, str],
    place: Place,
    masks: Masks,
    kinds: Collection[str],
) -> None:
    """Adds the words of a packet or header to the cell of its group and kind."""
    words, cell = confirmed.words(place, *masks), cells.get(at)
    if cell is None:
        cell = cells[at] = Cell()
    for index, count in enumerate(words):
        cell.counts[index] += count
    if words.not_compared:
        why = confirmed.why.get(place, NOT_STATED) if at[1] in kinds else NO_ROW
        cell.reasons[why] = cell.reasons.get(why, 0) + words.not_compared
    if words.free:
        cell.reasons[NO_KIND] = cell.reasons.get(NO_KIND, 0) + words.free


def _row_word(confirmed: Confirmed, row: PlanRow) -> RowWord:
    if row.number in confirmed.contradicted:
        return RowWord(row, "contradicted", sorted(confirmed.contradicted[row.number]))
    if row.number in confirmed.uncovered:
        return RowWord(row, "uncovered")
    if row.number in confirmed.met:
        return RowWord(row, "met", sorted(confirmed.met[row.number]))
    if row.is_unconfirmed:
        return RowWord(row, "not compared", why=NOBODY)
    return RowWord(row, "not compared", why=OF_WAY if row.kind in ("jump", "point") else NOT_TOLD)

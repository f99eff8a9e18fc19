"""What the rows of a design confirm or contradict: the rules X report it here, variable by variable and row by row.

Variables are bits of whole numbers, by their order in a packet: a table of 10,000 groups has millions of them.
"""
from __future__ import annotations

from collections import defaultdict
from dataclasses import dataclass, field
from functools import lru_cache
from typing import Any, DefaultDict, Dict, Iterable, List, Mapping, NamedTuple, Sequence, Set, Tuple

from balisekit.rules.telegrams import Packet
from balisekit.tables.plan import PlanRow

Path = Tuple[object, ...]
"""Where a variable is in a packet: `("q_scale",)`, or `("elements", 2, "v_static")`."""
Place = Tuple[int, int]
"""The row of a telegram, and the place of a packet in it. The header has -1."""
HEADER = -1
HEADER_KEYS = ("m_version", "n_pig", "n_total", "m_dup", "m_mcount", "nid_c", "nid_bg", "q_link")
"""The variables of a header that a record has."""
DERIVED = frozenset({"l_packet", "n_total"})
"""What follows from other variables, of those that a record has. N_ITER, and L_PACKET of most packets, are in none."""
OF_PACKET: Sequence[Path] = (("nid_packet",), ("q_dir",), ("q_scale",))
"""What is confirmed together with what a packet says: where it says it, for which trains, and in which unit."""
NOBODY = "its row was made from the telegrams, and the column who names nobody"
Shape = Tuple[Any, ...]


@lru_cache(maxsize=1 << 14)
def _paths(shape: Shape, before: Path = ()) -> Tuple[Path, ...]:
    """The variables of an object of this shape."""
    found: List[Path] = []
    for part in shape:
        if isinstance(part, str):
            found.append((*before, part))
        elif len(part) == 2:
            found += _paths(part[1], (*before, part[0]))
        else:
            key, _, items = part
            for place, item in enumerate(items):
                found += _paths(item, (*before, key, place)) if item else [(*before, key, place)]
    return tuple(found)


@lru_cache(maxsize=1 << 14)
def _bits(shape: Shape) -> Mapping[Path, int]:
    """The bit of each variable of an object of this shape."""
    return {path: 1 << place for place, path in enumerate(_paths(shape))}


def _shape(form: Mapping[str, Any]) -> Shape:
    """The keys of an object, and of the objects in it. A body is no variable if its fields are known."""
    parts: List[Any] = []
    for key, value in form.items():
        if type(value) is list:
            parts.append((key, len(value), tuple([_shape(each) if type(each) is dict else () for each in value])))
        elif type(value) is dict:
            parts.append((key, _shape(value)))
        elif key != "body" or len(form) < 5:
            parts.append(key)
    return tuple(parts)


HEADER_BITS: Mapping[Path, int] = _bits(HEADER_KEYS)


class Words(NamedTuple):
    """How many variables have each word. Derived ones are not in the sum."""

    confirmed: int = 0
    contradicted: int = 0
    free: int = 0
    not_compared: int = 0
    derived: int = 0

    @property
    def total(self) -> int:
        """All but the derived ones."""
        return sum(self[:4])


@dataclass
class Confirmed:
    """What rules X have compared, and how it came out."""

    known: Dict[int, Mapping[Path, int]] = field(default_factory=dict)
    """The bits of the variables of packets, by the ids of their forms, which the decoded data keep."""
    same: Dict[Place, int] = field(default_factory=dict)
    """By packet: the bits of the variables that a row confirms."""
    other: Dict[Place, int] = field(default_factory=dict)
    """Those that a row contradicts."""
    why: Dict[Place, str] = field(default_factory=dict)
    """Why something of a packet is not compared."""
    met: DefaultDict[int, Set[int]] = field(default_factory=lambda: defaultdict(set))
    """By the number of a row of the design: the rows of the telegrams that meet it. Messages are in none."""
    contradicted: DefaultDict[int, Set[int]] = field(default_factory=lambda: defaultdict(set))
    """The rows of the telegrams that contradict it."""
    uncovered: Set[int] = field(default_factory=set)
    """The rows of the design that no telegram states, or whose name the table lacks."""

    def confirm(self, rows: Sequence[PlanRow], packet: Packet, paths: Sequence[Path]) -> None:
        """These rows imply the values of these variables."""
        number = packet.row.number if packet.row else 0
        is_signed = False
        for row in rows:
            if row.is_made and not row.who:
                self.pass_over(packet, NOBODY)
            else:
                self.met[row.number].add(number)
                is_signed = True
        if is_signed and paths and number:
            self._add(self.same, packet, [*paths, *OF_PACKET])

    def contradict(self, rows: Sequence[PlanRow], packet: Packet, paths: Sequence[Path]) -> None:
        """These rows imply other values of these variables."""
        for row in rows:
            self.contradicted[row.number].add(packet.row.number if packet.row else 0)
        if packet.row:
            self._add(self.other, packet, paths)

    def _add(self, bits: Dict[Place, int], packet: Packet, paths: Sequence[Path]) -> None:
        """Adds the bits of these variables, of those that the packet has."""
        own, place = self.bits_of(packet), (packet.row.number if packet.row else 0, packet.place)
        found = bits.get(place, 0)
        for path in paths:
            found |= own.get(path, 0)
        bits[place] = found

    def bits_of(self, packet: Packet) -> Mapping[Path, int]:
        """The bit of each variable of a packet."""
        known = self.known.get(id(packet.form))
        if known is None:
            known = self.known[id(packet.form)] = _bits(_shape(packet.form))
        return known

    def of_header(self, row: PlanRow, number: int, key: str, is_same: bool) -> None:
        """A row implies the value of a variable of the header of the telegram in this row, or another one."""
        if is_same and row.is_unconfirmed:
            self.why.setdefault((number, HEADER), NOBODY)
            return
        rows, bits = (self.met, self.same) if is_same else (self.contradicted, self.other)
        rows[row.number].add(number)
        place = number, HEADER
        bits[place] = bits.get(place, 0) | HEADER_BITS[(key,)]

    def tell(self, row: PlanRow, numbers: Iterable[int], is_same: bool) -> None:
        """Telegrams meet a row of the design in what is no variable of one packet, or contradict it."""
        if not (is_same and row.is_unconfirmed):
            (self.met if is_same else self.contradicted).setdefault(row.number, set()).update(numbers)

    def pass_over(self, packet: Packet, why: str) -> None:
        """Something of a packet is not compared."""
        if why and packet.row:
            self.why.setdefault((packet.row.number, packet.place), why)

    def add(self, other: Confirmed) -> None:
        """Takes over what another rule has compared."""
        for own, more in ((self.same, other.same), (self.other, other.other)):
            for place, bits in more.items():
                own[place] = own.get(place, 0) | bits
        for place, why in other.why.items():
            self.why.setdefault(place, why)
        for rows, further in ((self.met, other.met), (self.contradicted, other.contradicted)):
            for number, telegrams in further.items():
                rows[number] |= telegrams
        self.uncovered |= other.uncovered

    def words(self, place: Place, known: int, comparable: int, derived: int) -> Words:
        """The words of the `known` variables of a packet or header. A design can state the `comparable` ones."""
        return _words(self.same.get(place, 0), self.other.get(place, 0), known, comparable, derived)


@lru_cache(maxsize=1 << 14)
def _words(same: int, other: int, known: int, comparable: int, derived: int) -> Words:
    confirmed = same & ~other & ~derived
    left = known & ~other & ~confirmed & ~derived
    counts = (confirmed, other, left & ~comparable, left & comparable, derived & ~other)
    return Words(*(bin(each).count("1") for each in counts))

"""Telegrams and their packets: what each balise sends. Lengths are whole decimetres, and count from the group.

A packet says the same in every telegram that has its text, so that each text is decoded once.
"""
from __future__ import annotations

import json
from dataclasses import dataclass
from itertools import accumulate, chain, islice
from typing import Callable, Dict, Iterable, Iterator, List, NamedTuple, Optional, Sequence, Tuple, cast

from balisekit.engine.program import Record
from balisekit.engine.records import Header, packet_texts
from balisekit.etcs import geometry
from balisekit.etcs.geometry import ELEMENT_KEYS, Site
from balisekit.etcs.raw_packets import fields_of
from balisekit.etcs.variables import UNITS, Form
from balisekit.rules.location import NOT_KNOWN, BaliseGroup, Identity
from balisekit.tables.chainage import rounding as rounding
from balisekit.tables.model import Row

LINKING, GRADIENTS, SPEEDS, LEVELS = 5, 21, 27, 41
AUTHORITIES = (12, 15)
HOLDING = ((1,), (0,), (0, 1))
"""By Q_DIR: the places in DIRECTIONS of those in which a packet holds. Packet 0, without Q_DIR, holds in both."""
WITHOUT_DIRECTION = (44, 145, 254)
"""Packets whose direction is not compared: other applications, inhibition of balise reactions, default telegrams."""
SAYS_NOTHING = frozenset({0, 145, 254, 255})
"""Packets by which a group says nothing of the track."""
AT_ONCE = 500
"""How many telegrams are decoded together: their keys then share memory."""
KEPT = 1 << 12
"""How many texts of packets are kept with their objects."""
FIELDS_OF: Callable[[Form], Optional[Form]] = fields_of
"""What decodes a packet that is kept as bits. Its fields are put beside the keys of the packet."""


class Link(NamedTuple):
    """A group that a packet 5 names."""

    number: int
    """Its place in the packet, counted from 0."""
    identity: Identity
    distance: int
    """D_LINK, from the group before it."""
    total: int
    """The sum of D_LINK, from the group that sends the packet."""
    nominal: bool
    """Whether Q_LINKORIENTATION says that it is passed in nominal direction."""
    reaction: int
    """Q_LINKREACTION, as it is sent."""
    accuracy: int
    """Q_LOCACC, in metres."""
    unit: int
    """That of D_LINK in decimetres, by Q_SCALE."""
    target: Optional[BaliseGroup]
    """The group of the table with this identity."""

    @property
    def known(self) -> bool:
        """Whether it names a group: NID_BG 16,383 says that the group is not known yet."""
        return self.identity[1] != NOT_KNOWN


class Stretch(NamedTuple):
    """An element of a profile: what holds from one distance to another one. Without an end it is open."""

    begin: int
    end: Optional[int]
    value: int
    """V_STATIC as it is sent, or G_A with its sign: uphill is positive."""
    element: Form


@dataclass(eq=False)
class Packet:
    """A packet of a telegram or message. (A large table has very many, so they have no dictionary.)"""

    __slots__ = ("number", "place", "form", "row", "n_pig", "links", "_stretches")
    number: int
    """NID_PACKET."""
    place: int
    """In its telegram or message, counted from 0."""
    form: Form
    """Its fields. A packet that is kept as bits has those of its layout beside `body`, if the layout is known."""
    row: Optional[Row]
    """The row of its telegram. A message has none."""
    n_pig: Optional[int]
    links: Sequence[Link]
    """Of a packet 5, once all groups of the table are known. Equal packets of one country or region share them."""
    _stretches: Optional[Tuple[Stretch, ...]]

    @property
    def unit(self) -> int:
        """The unit of its distances in decimetres, by Q_SCALE."""
        return UNITS[self.form.get("q_scale", 0)]

    @property
    def end(self) -> int:
        """Of a packet 12 or 15: how far the authority goes."""
        return geometry.end_of(self.form)

    @property
    def authority(self) -> geometry.Authority:
        """Of a packet 12 or 15: its places, among them `end` and `supervised`."""
        return geometry.authority(Site(0, self.place), self.form)

    @property
    def stretches(self) -> Tuple[Stretch, ...]:
        """Of a packet 21 or 27: its elements before the end mark."""
        if self._stretches is None:
            self._stretches = self._elements()
        return self._stretches

    def _elements(self) -> Tuple[Stretch, ...]:
        distance, value, mark = ELEMENT_KEYS[self.number]
        unit, elements = self.unit, self.form["elements"]
        places = [*accumulate([each[distance] * unit for each in elements])]
        values = [each[value] for each in elements]
        before = values[: values.index(mark)] if mark in values else values
        if self.number != SPEEDS:
            before = [own if each["q_gdir"] else -own for own, each in zip(before, elements)]
        return tuple(map(Stretch, places, [*places[1:], None], before, elements))

    @property
    def begin(self) -> int:
        """Of a packet 21 or 27: where its first element lies."""
        return self.form["elements"][0][ELEMENT_KEYS[self.number][0]] * self.unit

    @property
    def is_open(self) -> bool:
        """Of a packet 21 or 27: whether it has no end mark."""
        _, value, mark = ELEMENT_KEYS[self.number]
        return mark not in [each[value] for each in self.form["elements"]]

    @property
    def lengths(self) -> int:
        """Of a packet 12 or 15: how many lengths its end is the sum of."""
        return len(self.form["sections"]) + 1


class Telegram(NamedTuple):
    """A telegram of the table."""

    row: Row
    header: Header
    packets: Sequence[Packet]
    hash: int
    """That of the text of the packets: different packets mostly have different ones."""

    @property
    def identity(self) -> Identity:
        """NID_C and NID_BG."""
        return self.header.nid_c, self.header.nid_bg


def _learn(known: Dict[str, Form], texts: Iterable[str]) -> None:
    """Decodes the packets whose texts are not known, together."""
    if len(known) > KEPT:
        known.clear()
    new = [text for text in dict.fromkeys(texts) if text not in known]
    known.update(zip(new, map(_with_fields, json.loads(f"[{','.join(new)}]"))))


def telegrams_of(records: Iterable[Tuple[Row, Record]]) -> Iterator[Telegram]:
    """The telegrams of these records, decoded in parts."""
    known: Dict[str, Form] = {}
    left = iter(records)
    while some := list(islice(left, AT_ONCE)):
        headers, packets = zip(*[record.parts for _, record in some])
        texts = list(map(packet_texts, packets))
        _learn(known, chain.from_iterable(texts))
        for (row, _), header, text, own in zip(some, headers, packets, texts):
            made = packets_of([known[each] for each in own], row, header.n_pig) if own else ()
            yield Telegram(row, header, made, hash(text))


def telegram_of(row: Row, form: Form) -> Telegram:
    """The telegram of the object of a record."""
    values = cast(Dict[str, int], form)
    header = Header(**{key: values.get(key, 0) for key in Header._fields})
    packets = packets_of(list(map(_with_fields, form["packets"])), row, header.n_pig)
    return Telegram(row, header, packets, 0)


def packets_of(forms: Sequence[Form], row: Optional[Row] = None, n_pig: Optional[int] = None) -> Sequence[Packet]:
    """The packets of a telegram, or of a message."""
    return tuple([Packet(form["nid_packet"], place, form, row, n_pig, (), None) for place, form in enumerate(forms)])


def packets_of_message(form: Form) -> Sequence[Packet]:
    """The packets of the object of a message's record."""
    return packets_of(list(map(_with_fields, form["packets"])))


def holding(packets: Sequence[Packet]) -> Tuple[Sequence[Packet], ...]:
    """The packets that hold in each of the DIRECTIONS."""
    own: Tuple[List[Packet], List[Packet]] = ([], [])
    for packet in packets:
        for index in HOLDING[packet.form.get("q_dir", 2)]:
            own[index].append(packet)
    return own


def _with_fields(packet: Form) -> Form:
    """A packet that is kept as bits with its fields, if its layout is known."""
    if "body" not in packet:
        return packet
    fields = FIELDS_OF(packet)
    return packet if fields is None else cast(Form, {**dict(packet), **dict(fields)})


def allowance(packet: Packet, lengths: int = 1) -> int:
    """What rounding may add to a sum of lengths of a packet: one unit, and half a unit for each further length.

    It is in whole decimetres, rounded up.
    """
    return rounding(packet.unit, lengths)

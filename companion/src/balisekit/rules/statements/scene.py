"""A finding of the program with all telegrams of its group, or with its message."""
from __future__ import annotations

import json
from functools import cached_property
from typing import Dict, Iterable, List, Mapping, NamedTuple, Optional, Sequence, Tuple

from balisekit.engine.grammar import Finding
from balisekit.etcs.geometry import Kilometres, kilometres
from balisekit.etcs.packets import packet_name
from balisekit.etcs.variables import Around, Form, value_words
from balisekit.tables.model import Group, Row
from balisekit.tables.names import balise_name, ordinal, quoted, rows_words


class Statement(NamedTuple):
    """What is wrong. Its sentence names other rows in one place, so that those of several aspects can be united."""

    before: str
    """The sentence up to the rows."""
    others: Tuple[int, ...] = ()
    """The other rows that it names."""
    after: str = ""
    values: Mapping[str, str] = {}
    """The values that it names, by their variables or as `supervised_location_m`."""
    packet: Optional[int] = None
    """The NID_PACKET of the packet that it is about."""
    further: Tuple[int, ...] = ()
    """The rows that its end names."""
    lacking: str = ""
    """What is missing, if the sentence begins with it."""

    def __str__(self) -> str:
        return f"{self.lacking}{self.before}{f', {rows_words(self.others)}' if self.others else ''}{self.after}"


class BaliseName(NamedTuple):
    """What a balise is called."""

    name: str
    """Its own name, if it has one."""
    n_pig: int
    """As its telegram says."""
    number: Optional[int] = None
    """That of the column `balise`, if it is another one than its place."""

    def __str__(self) -> str:
        return balise_name(self.name, self.n_pig, number=self.number)


class Balise(NamedTuple):
    """A telegram, and its row. A message has none."""

    row: Optional[Row]
    form: Form
    place: int = 0
    """In its group, counted from 0."""

    @property
    def rows(self) -> Tuple[int, ...]:
        """The number of its row."""
        return () if self.row is None else (self.row.number,)

    @property
    def name(self) -> BaliseName:
        """What it is called."""
        name, number = (self.row.name, self.row.balise) if self.row else ("", None)
        return BaliseName(name, self.form["n_pig"], None if number == self.place else number)

    def __str__(self) -> str:
        return f"balise {self.name}"

    def value(self, key: str) -> str:
        """A value of the header as it is sent, and its name where it has one."""
        number = dict(self.form)[key]
        words = value_words(key, number, Around()) if isinstance(number, int) else ""
        return f"{number} ({words})" if words else str(number)


Aspect = Sequence[Balise]


class Aspects(List[Aspect]):
    """The balises of each aspect of a group, or the message alone, and what each of many findings asks of them all."""

    def __init__(self, aspects: Iterable[Aspect], group: Optional[Group] = None) -> None:
        """`group` is their group. Of a message it is the group from which its distances count, if that is known."""
        super().__init__(aspects)
        self._group = group

    @property
    def kilometres(self) -> Kilometres:
        """What the table says of the place of the group."""
        return kilometres(self._group) if self._group else Kilometres()

    def name(self, index: int) -> str:
        """The name of an aspect."""
        return self._group.aspects[index].name if self._group else ""

    @cached_property
    def forms(self) -> Sequence[Sequence[Form]]:
        """The telegrams of each aspect, or the message."""
        return [[balise.form for balise in aspect] for aspect in self]

    @cached_property
    def texts(self) -> Sequence[Sequence[str]]:
        """The same as texts, which are equal if the telegrams are. A fixed balise has one object for all aspects."""
        known = {id(form): form for forms in self.forms for form in forms}
        texts = {key: json.dumps(form, sort_keys=True) for key, form in known.items()}
        return [[texts[id(form)] for form in forms] for forms in self.forms]

    @cached_property
    def are_repeated(self) -> bool:
        """Whether two aspects send the same."""
        return len(self) > 1 and len({tuple(texts) for texts in self.texts}) < len(self)

    @cached_property
    def is_one_controlled(self) -> bool:
        """Whether the telegrams differ at one place only, where each aspect has its own, and all have one counter."""
        differing = [place for place, own in enumerate(zip(*self.texts)) if len(set(own)) > 1]
        if len(differing) != 1:
            return False
        is_repeated = len({own[differing[0]] for own in self.texts}) < len(self)
        return not is_repeated and len({forms[differing[0]]["m_mcount"] for forms in self.forms}) == 1

    @cached_property
    def has_default(self) -> bool:
        """Whether a telegram has a packet 254."""
        return any(packet["nid_packet"] == 254 for forms in self.forms for form in forms for packet in form["packets"])

    @cached_property
    def first_with(self) -> Mapping[int, int]:
        """The first aspect with each M_MCOUNT."""
        first: Dict[int, int] = {}
        for index, forms in enumerate(self.forms):
            for form in forms:
                first.setdefault(form["m_mcount"], index)
        return first


class Scene(NamedTuple):
    """A finding, and what it is about."""

    finding: Finding
    aspects: Aspects
    earlier: Optional[Group] = None
    """Of F14: the first group with the same identity."""

    @property
    def aspect(self) -> Aspect:
        """The balises of the aspect that the finding names, or of the first one."""
        return self.aspects[self.finding.aspect or 0]

    @property
    def place(self) -> int:
        """The place of the balise that it names, counted from 0."""
        return self.finding.balise or 0

    @property
    def own(self) -> Balise:
        """The balise that it names, or the message."""
        return self.aspect[self.place]

    @property
    def forms(self) -> List[Form]:
        """The telegrams of the aspect, or the message."""
        return [balise.form for balise in self.aspect]

    def of_aspect(self, index: int) -> str:
        """Which aspect it is, if there are several."""
        if len(self.aspects) == 1:
            return ""
        name = self.aspects.name(index)
        return f"aspect {quoted(name)}" if name else f"the {ordinal(index)} aspect"


def packet_words(form: Form, place: int) -> str:
    """A packet by its number, its name, and its place in this telegram or message."""
    number = form["packets"][place]["nid_packet"]
    where = "message" if "nid_message" in form else "telegram"
    return f"packet {number} ({packet_name(number)}), {ordinal(place)} in the {where}"

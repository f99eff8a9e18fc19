"""Rules that users add: how such a rule is written, and what it is given of a table.

The module of an added rule has its page as docstring, a function `find`, and an `AddedRule` called RULE. The function
is given a view of the line, whose objects are the rule's own: what it changes in them changes nothing of the answer.
"""
from __future__ import annotations

import json
from copy import deepcopy
from dataclasses import dataclass
from decimal import Decimal
from functools import cached_property
from itertools import islice
from typing import (
    Any,
    Callable,
    Dict,
    Iterable,
    Iterator,
    List,
    Mapping,
    NamedTuple,
    Optional,
    Sequence,
    Tuple,
    Union,
    cast,
)

from balisekit.etcs.raw_packets import fields_of
from balisekit.etcs.variables import UNITS
from balisekit.rules.checking import Telegrams
from balisekit.rules.line import Line
from balisekit.rules.location import BaliseGroup, Identity, Location
from balisekit.rules.template import Given
from balisekit.tables.model import Message, Row

Form = Dict[str, Any]
"""An object of the program's JSON."""
AT_ONCE = 1000
"""How many telegrams are read at once."""


class AddedRemark(NamedTuple):
    """What an added rule has found, and where. The method `remark` of a view makes it."""

    location: Location
    values: Mapping[str, Given]
    """What stands in the fields of the rule's sentence."""


Answer = Union[AddedRemark, str, None]
"""A remark; None if all is well; or why something cannot be looked at, such as `no kilometre`."""


@dataclass(frozen=True, eq=False)
class AddedRule:
    """A rule that is not balisekit's: its name, its page, its sentence, and the function that looks for it."""

    name: str
    """Letters and a number, such as `U1` or `ACME-7`. F, L, E and X are the letters of balisekit."""
    page: str
    """The docstring of the module: `ACME-7: the title.`, and below it the paragraphs of a page."""
    looks_at: str
    """What it counts, in the plural: `speed profiles`."""
    sentence: str
    """What is wrong, with a field for each value and its unit: `V_STATIC is {v_static_kmh} km/h`."""
    find: Callable[[LineView], Iterable[Answer]]
    """Yields an answer for each thing that it looks at."""
    urgency: str = "rule_only"
    """What may follow at worst: wrong_information, wrong_place, not_judged, braking or rule_only."""
    needs_kilometres: bool = False
    """Whether it is not applied to a table without kilometres."""
    is_default: bool = True
    """Whether it is applied if `--rules` does not name it."""

    def __str__(self) -> str:
        return str(getattr(getattr(self.find, "__code__", None), "co_filename", self.name))


class View:
    """What a remark can be about."""

    def __init__(self, location: Location) -> None:
        self._location = location

    def remark(self, **values: Given) -> AddedRemark:
        """A remark about this, with a value for each field of the rule's sentence."""
        return AddedRemark(self._location, values)


class PacketView(View):
    """A packet of a telegram or message."""

    def __init__(self, location: Location, form: Form) -> None:
        super().__init__(location._replace(number=form["nid_packet"]))
        self.form = form
        """Its fields by their keys. A packet that the program keeps as bits also has those of its known layout."""
        self.number: int = form["nid_packet"]
        """NID_PACKET."""

    def metres(self, distance: int) -> Decimal:
        """One of its distances in metres, by its Q_SCALE."""
        return Decimal(distance * UNITS[self.form.get("q_scale", 0)]) / 10

    def __repr__(self) -> str:
        return f"<packet {self.number}>"


class _Sent(View):
    """What has packets."""

    def __init__(self, location: Location, form: Form) -> None:
        super().__init__(location)
        self.form = form
        """The program's JSON, by the keys of docs/formats.md."""

    def packets(self, *numbers: int) -> Sequence[PacketView]:
        """Its packets, or those with one of these NID_PACKET, in their order."""
        return [packet for packet in self._packets if not numbers or packet.number in numbers]

    @cached_property
    def _packets(self) -> Sequence[PacketView]:
        forms = enumerate(map(_with_fields, self.form["packets"]))
        return [PacketView(self._location._replace(packet=place), form) for place, form in forms]


class TelegramView(_Sent):
    """A telegram that the program has read."""

    def __init__(self, row: Row, group: GroupView, form: Form) -> None:
        super().__init__(Location(group._location.group, row, n_pig=form["n_pig"]), form)
        self.row: int = row.number
        """The number of its row, as a spreadsheet counts."""
        self.group: GroupView = group
        """Its group."""
        self.aspect: str = row.aspect
        """The name of its aspect: `*` if it is sent in every aspect, and empty if the group has no aspects."""
        self.name: str = row.name
        """The name of its balise, if the table has one."""
        self.km: Optional[Decimal] = row.km
        """The kilometre of its balise."""

    def __repr__(self) -> str:
        return f"<telegram of row {self.row}>"


class GroupView(View):
    """A balise group of the table."""

    def __init__(self, group: BaliseGroup) -> None:
        super().__init__(Location(group))
        self.name: str = group.group.name
        """Its name in the table."""
        self.km: Optional[Decimal] = group.km
        """The kilometre of its first balise."""
        self.track: str = group.track
        """The name of its track, if the table has one."""
        self.identity: Optional[Identity] = group.identity
        """NID_C and NID_BG."""
        self.unread = group.unread
        """The rows whose telegrams the program has not read: `telegrams` lacks them."""
        self.telegrams: List[TelegramView] = []
        """In the order of the table. A row for every aspect is here once."""

    def __repr__(self) -> str:
        return f"<group {self.name!r}>"


class MessageView(_Sent):
    """A radio message that the program has read."""

    def __init__(self, message: Message, form: Form) -> None:
        super().__init__(Location(message=message), form)
        self.line: int = message.number
        """The number of its line in the file of messages."""
        self.name: str = message.name
        """Its name, if the file has one."""

    def __repr__(self) -> str:
        return f"<message of line {self.line}>"


class LineView:
    """What an added rule is given: the groups, telegrams and messages of a table in their order."""

    def __init__(self, line: Line) -> None:
        self.groups: Sequence[GroupView] = list(map(GroupView, line.groups))
        """All groups, also those with a telegram that was refused."""
        by_name = {group.name: group for group in self.groups}
        for row, form in _records(line):
            group = by_name[row.group]
            group.telegrams.append(TelegramView(row, group, form))
        self.telegrams: Sequence[TelegramView] = [each for group in self.groups for each in group.telegrams]
        """Those that the program has read, in the order of the table."""
        self.messages: Sequence[MessageView] = [
            MessageView(message, deepcopy(cast(Form, form))) for message, form in line.messages
        ]
        """Those that the program has read."""

    def __repr__(self) -> str:
        return f"<{len(self.groups)} groups, {len(self.telegrams)} telegrams, {len(self.messages)} messages>"


def _records(line: Line) -> Iterator[Tuple[Row, Form]]:
    """The telegrams that the program has read, in the order of the table, each as an object of its own.

    Several are read at once: their objects then share the texts of their keys, which would take most of the memory.
    """
    if isinstance(line.forms, Telegrams):
        rest = line.forms.decoded()
        while True:
            part = list(islice(rest, AT_ONCE))
            forms = json.loads(f"[{','.join(record.line for _, record in part)}]")
            yield from ((row, form) for (row, _), form in zip(part, forms))
            if not part:
                return
    rows = {row.number: row for group in line.table_groups for row in group.rows() if row.number in line.forms}
    yield from ((row, deepcopy(cast(Form, line.forms[number]))) for number, row in rows.items())


def _with_fields(packet: Form) -> Form:
    """A packet. One that is kept as bits has the fields of its layout beside them, if that is known."""
    fields = fields_of(cast(Any, packet)) if "body" in packet else None
    return {**deepcopy(cast(Form, fields)), **packet} if fields else packet

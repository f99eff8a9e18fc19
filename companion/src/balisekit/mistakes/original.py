"""The line in which mistakes are made: its rows, its telegrams and messages as objects, and all variables of these.

A telegram is named by its row. A radio message is named by the line of its file as a negative number, so that one
number names either.
"""
from __future__ import annotations

from copy import deepcopy
from functools import cached_property
from typing import Any, Dict, Iterable, Iterator, List, Mapping, NamedTuple, Optional, Sequence, Tuple, Union, cast

from balisekit.engine.records import BODIES, Form, allowed
from balisekit.etcs.raw_layouts import variables as raw_variables
from balisekit.etcs.raw_packets import RawField, body_bits, content_of
from balisekit.etcs.variables import NO_FORM, UNITS, Around, Values, metres, value_words, variable_name
from balisekit.rules.checking import Checked
from balisekit.tables.model import Group, Row

DERIVED = ("nid_packet", "nid_message", "l_packet", "body", "user_bits")
"""Keys whose values follow from others, or that no tool writes wrongly by itself."""
Path = Tuple[Union[str, int], ...]
Spans = Sequence[Tuple[int, int]]
"""The first and the last number of each span that a variable may have."""


class Value(NamedTuple):
    """A variable with its number in one telegram or message."""

    row: int
    """The row, or the message."""
    packet: Optional[int]
    """The place of its packet in the telegram. The header has none."""
    path: Path
    """Where the object of the telegram has it."""
    variable: str
    """The standard's name."""
    number: int
    label: str
    """`packet 12 V_MAIN`, `header N_PIG`."""
    q_scale: int = 0
    raw: Optional[RawField] = None
    """Its bits, if the program keeps the packet as bits."""

    @property
    def spans(self) -> Spans:
        """The numbers that are not spare."""
        if self.raw is not None:
            return [(span.first, span.last) for span in raw_variables()[self.variable].spans]
        parts = allowed(str(self.path[-1]))
        return [(part, part) if isinstance(part, int) else (part[0], part[-1]) for part in parts]

    def allows(self, number: int) -> bool:
        """Whether the variable may have this number: it is no spare one, and fits its bits."""
        return any(first <= number <= last for first, last in self.spans)

    def is_distance(self, number: int) -> bool:
        """Whether this number would be a distance in the unit of Q_SCALE, and no special one such as `now` (32,767)."""
        words = value_words(str(self.path[-1]), number, Around({"q_scale": 0}))
        return self.packet is not None and words == metres(number)

    @property
    def unit_dm(self) -> int:
        """The unit of the distances of its packet, in decimetres."""
        return UNITS[self.q_scale]


class Original:
    """A line that was checked, as mistakes are made in it. Nobody changes what it gives."""

    def __init__(self, checked: Checked) -> None:
        self.checked = checked
        self.groups: Sequence[Group] = checked.kept
        self.rows: Mapping[int, Row] = {row.number: row for group in checked.kept for row in group.each_row}

    @cached_property
    def forms(self) -> Mapping[int, Form]:
        """The telegram of each row, and each message, as an object."""
        return {**self.telegrams, **self.messages}

    @cached_property
    def messages(self) -> Mapping[int, Form]:
        """Each message as an object, by its line as a negative number."""
        return {-each.message.number: each.record.shared for each in self.checked.accepted_messages}

    @cached_property
    def telegrams(self) -> Mapping[int, Form]:
        """The telegram of each row as an object."""
        return {row.number: record.shared for row, record in self.checked.accepted.decoded(self.rows)}

    @cached_property
    def group_of(self) -> Mapping[int, Group]:
        """The group of each row."""
        return {row.number: group for group in self.groups for row in group.each_row}

    @cached_property
    def values(self) -> Mapping[str, Sequence[Value]]:
        """All variables by packet and name, each with all its places in the line."""
        found: Dict[str, List[Value]] = {}
        for number, form in self.forms.items():
            for value in values_of(number, form):
                found.setdefault(value.label, []).append(value)
        return found

    @cached_property
    def numbers(self) -> Mapping[Tuple[int, str, Path], int]:
        """The number of each variable by its row, its packet and name, and its place in the telegram."""
        return {(each.row, label, each.path): each.number for label, some in self.values.items() for each in some}

    def elsewhere(self, value: Value, row: int) -> Optional[int]:
        """The number that the same variable has in another telegram, at the same place. None if it is not there."""
        return self.numbers.get((row, value.label, value.path))

    def of_other_aspects(self, row: int) -> List[int]:
        """The rows of the same balise in the other aspects of its group. A message has none."""
        group = self.group_of.get(row)
        if group is None:
            return []
        place = group.places[row]
        rows = [aspect.rows[place].number for aspect in group.aspects if place < len(aspect.rows)]
        return [each for each in dict.fromkeys(rows) if each != row]

    def of_next_group(self, row: int) -> Optional[int]:
        """The row of the same aspect and balise in the group that follows in the table. None if there is none."""
        group = self.group_of.get(row)
        index = self._index[group.name] + 1 if group else len(self.groups)
        if group is None or index == len(self.groups):
            return None
        names = [aspect.name for aspect in group.aspects if any(each.number == row for each in aspect.rows)]
        aspect = next(
            (each for each in self.groups[index].aspects if each.name in names), self.groups[index].aspects[0]
        )
        place = group.places[row]
        return aspect.rows[place].number if place < len(aspect.rows) else None

    @cached_property
    def _index(self) -> Mapping[str, int]:
        return {group.name: index for index, group in enumerate(self.groups)}


def values_of(row: int, form: Form) -> Iterator[Value]:
    """The variables of a telegram or message, but those that follow from others."""
    message = form.get("nid_message")
    whose = "" if message is None else f"message {message} "
    header = {key: value for key, value in form.items() if key not in ("packets", *DERIVED)}
    yield from _of_object(row, None, (), header, f"{whose}header", 0)
    for place, packet in enumerate(form["packets"]):
        label, path = f"{whose}packet {packet['nid_packet']}", cast(Path, ("packets", place))
        yield from _of_object(row, place, path, packet, label, packet.get("q_scale", 0))
        content = content_of(packet, is_from_track(form)) if "body" in packet else None
        scale = int(content.values.get("q_scale", 0)) if content and not content.fault else 0
        for field in content.fields if content and not content.fault else ():
            if isinstance(field.raw, int) and field.path:
                parts: Path = tuple(int(part) if part.isdigit() else part for part in field.path[1:].split("/"))
                yield Value(row, place, path + parts, field.name, field.raw, f"{label} {field.name}", scale, field)


def is_understood(form: Form, place: int) -> bool:
    """Whether all bits of a packet are in its variables, by a layout that is certain."""
    packet = form["packets"][place]
    content = content_of(packet, is_from_track(form))
    return "body" not in packet or content is not None and content.is_complete and content.layout.is_certain


def is_from_track(form: Form) -> bool:
    """Whether a telegram or message goes from track to train."""
    return form.get("nid_message") != 136


def _of_object(row: int, packet: Optional[int], path: Path, form: Values, label: str, scale: int) -> Iterator[Value]:
    """The variables of an object of a telegram or message, and of the objects and lists in it."""
    for key, value in form.items():
        if isinstance(value, dict):
            yield from _of_object(row, packet, (*path, key), value, label, scale)
        elif isinstance(value, list):
            for place, item in enumerate(value):
                yield from _of_object(row, packet, (*path, key, place), item, label, scale)
        elif key not in DERIVED:
            name = variable_name(key, form if packet is not None else NO_FORM)
            yield Value(row, packet, (*path, key), name, value, f"{label} {name}", scale)


def with_number(form: Form, value: Value, number: int) -> Form:
    """The telegram or message with another number of a variable."""
    made = deepcopy(form)
    inner: Any = made
    if value.raw is not None:
        packet = made["packets"][value.packet or 0]
        packet["body"] = _with_bits(packet, value.raw, number, is_from_track(form))
        return made
    for part in value.path[:-1]:
        inner = inner[part]
    inner[value.path[-1]] = number
    return made


def with_packets(form: Form, packets: Iterable[Any]) -> Form:
    """The telegram or message with the same header and these packets."""
    return cast(Form, {**form, "packets": list(packets)})


def _with_bits(packet: Form, field: RawField, number: int, from_track: bool) -> str:
    """The body of a packet with another number in the bits of a field."""
    bits = body_bits(packet["l_packet"], packet["body"], from_track)
    at = field.at - BODIES[from_track][0]
    bits = f"{bits[:at]}{number:0{field.width}b}{bits[at + field.width :]}"
    whole = bits + "0" * (-len(bits) % 8)
    return bytes(int(whole[place : place + 8], 2) for place in range(0, len(whole), 8)).hex()


def named(place: int) -> str:
    """A row, or a message, in words."""
    return f"row {place}" if place > 0 else f"message of line {-place}"


def telegram_or_message(place: int) -> str:
    """What a row has, or what a message is."""
    return "telegram" if place > 0 else "message"

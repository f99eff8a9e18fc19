"""The fields in which two packets with one NID_PACKET differ."""
from __future__ import annotations

from decimal import Decimal
from typing import AbstractSet, Any, Iterator, List, Mapping, NamedTuple, Optional, Sequence, Tuple

from balisekit.etcs.variables import Around, Form, value_words, variable_name
from balisekit.rules.rule import Field
from balisekit.rules.telegrams import AUTHORITIES, Packet
from balisekit.tables.names import ordinal

NOT_COMPARED = {"q_dir", "q_scale", "l_packet", "body", "nid_packet"}
SECTIONS, TIMERS = {"sections", "l_endsection"}, ("section_timer", "end_timer")
SIGN = "q_gdir"
"""The sign of a gradient."""
DETAILS: Mapping[str, Tuple[str, AbstractSet[int]]] = {
    SIGN: ("g_a", {0, 255}),
    "q_front": ("v_static", {127}),
    "differences": ("v_static", {127}),
}
"""What says more of a value, and the numbers of which it says nothing: a level, and the end mark of a profile."""
INFINITE = 32_767
"""A distance that has no unit."""


class Apart(NamedTuple):
    """A field that differs."""

    name: str
    own: str
    other: str
    values: Mapping[str, Decimal] = {}
    """Both numbers as they are sent."""
    key: str = ""
    place: Optional[int] = None
    """Of which element it is, counted from 0."""

    def field_of(self, packet: Packet) -> Sequence[Field]:
        """It in one of the two packets. The sign of a gradient is a part of the gradient."""
        key = "g_a" if self.key == SIGN else self.key
        return [(packet.row.number, packet.place, key, self.place)] if packet.row else []


def fields_apart(one: Packet, other: Packet) -> Iterator[Apart]:
    """The fields that differ. Distances may differ by the greater unit if Q_SCALE differs.

    Authorities without timers that end at one place may have other sections.
    """
    allowed = 0 if one.unit == other.unit else max(one.unit, other.unit)
    own: Any = one.form
    theirs: Any = other.form
    if (
        one.number in AUTHORITIES
        and abs(one.end - other.end) <= allowed
        and not (_has_timer(own) or _has_timer(theirs))
    ):
        own, theirs = ({key: form[key] for key in form if key not in SECTIONS} for form in (own, theirs))
    yield from _compared(own, theirs, (one, other), "", allowed)


def _has_timer(form: Form) -> bool:
    """Whether a section of an authority has a timer."""
    return any(key in part for part in (form, *form["sections"]) for key in TIMERS)


def _compared(own: Any, theirs: Any, packets: Tuple[Packet, Packet], where: str, allowed: int) -> Iterator[Apart]:
    """The fields of two objects that differ, by their order in the first one."""
    keys: List[str] = [key for key in own if key not in NOT_COMPARED] + [key for key in theirs if key not in own]
    for key in keys:
        if key in NOT_COMPARED or _says_nothing(key, own, theirs):
            continue
        values: Sequence[Any] = own.get(key), theirs.get(key)
        if isinstance(values[0], dict) and isinstance(values[1], dict):
            yield from _compared(values[0], values[1], packets, where, allowed)
        elif isinstance(values[0], list) and isinstance(values[1], list):
            for place, (mine, its) in enumerate(zip(*values)):
                words = f" of the {ordinal(place)} {key.removesuffix('s')}{where}"
                yield from (each._replace(place=place) for each in _compared(mine, its, packets, words, allowed))
            if len(values[0]) != len(values[1]):
                yield Apart(f"the number of {key}{where}", str(len(values[0])), str(len(values[1])))
        elif _differ(key, values, packets, allowed):
            mine, its = (
                _words(key, value, packet, parent) for value, packet, parent in zip(values, packets, (own, theirs))
            )
            numbers = {key: values[0], f"{key}_of_signal": values[1]}
            sent = {name: Decimal(value) for name, value in numbers.items() if isinstance(value, int)}
            yield Apart(f"{variable_name(key, own)}{where}", mine, its, sent, key)


def _says_nothing(key: str, own: Any, theirs: Any) -> bool:
    """Whether a field says more of a value that, in one of the two elements, there is nothing more to say of."""
    value, bare = DETAILS.get(key, ("", set()))
    return not bare.isdisjoint({own.get(value), theirs.get(value)})


def _differ(key: str, values: Sequence[Any], packets: Sequence[Packet], allowed: int) -> bool:
    numbers = all(isinstance(value, int) for value in values)
    if numbers and key[:2] in ("d_", "l_") and INFINITE not in values:
        return bool(abs(values[0] * packets[0].unit - values[1] * packets[1].unit) > allowed)
    return bool(values[0] != values[1])


def _words(key: str, value: Any, packet: Packet, parent: Any) -> str:
    if not isinstance(value, (int, str)):
        return "absent" if value is None else "present"
    return value_words(key, value, Around(packet.form, parent)) or str(value)

"""The layouts of packets that the program keeps as bits: balisekit's own, not proved, not compared with a print.

`raw_layouts.json` has them as data. A *variable* has a name, its bits, and its `numbers` as docs/assurance/trace.csv
writes them: `0 to 120; 127 the national value`. Any other number of that width is spare. `unit` is of the numbers
without a meaning: that of distances is Q_SCALE, `digits` are digits of 4 bits each that F fills up, and an `identity`
is NID_C and NID_BG. A *layout* has the packet's number, who sends it, how `sure` it is in per cent, and its fields in
the order of the bits, each of them one of:

- the name of a variable, or an object with `variable` and `when` it is there, with a `key` if not that of the variable;
- a `list` of at least `least` items with these `fields`; N_ITER counts the others, and is after the first item;
- `fields` that are there only `when` a variable before them has a number: `Q_SUITABILITY 2 and M_VOLTAGE not 0`;
- a `text` of as many characters as the variable `count` says;
- the `rest` of the body, under this name.
"""
from __future__ import annotations

import json
import os
import re
from dataclasses import dataclass
from functools import lru_cache
from typing import Any, Dict, Iterator, List, Mapping, NamedTuple, Optional, Tuple, Union

from balisekit.expressions import expression

DATA = "raw_layouts.json"
CERTAIN = 97
"""From how many per cent on a layout is certain. No remark rests on another one, but one can make E5 silent.

E14 compares positions by such a layout if four of them agree with the kilometres, which shows that it is right.
"""
IMPLIED = ("Q_NEWCOUNTRY", "N_ITER")
"""Variables without a key, as in the program's JSON: other keys, and lengths of lists, give their values."""
NUMBERS = expression(r"(\d+)(?: to (\d+))?(?: (.+))?")


class Span(NamedTuple):
    """Numbers that a variable may have, with what they mean."""

    first: int
    last: int
    words: str


class Variable(NamedTuple):
    """A variable of the standard (SUBSET-026, 7.5.1), as balisekit believes it to be."""

    name: str
    bits: int
    spans: Tuple[Span, ...]
    unit: str
    meaning: str
    """What it is about. `numbers` say what its numbers mean."""
    doubt: str

    def span_of(self, number: int) -> Optional[Span]:
        """The span that has this number. A spare number has none."""
        return next((span for span in self.spans if span.first <= number <= span.last), None)


class Condition(NamedTuple):
    """Variables before a field that decide whether it is there: name, number, and whether it must have this number."""

    parts: Tuple[Tuple[str, int, bool], ...] = ()

    def holds(self, numbers: Mapping[str, int]) -> bool:
        """Whether it is fulfilled: not if one of its variables is absent."""
        return all(name in numbers and (numbers[name] == number) == wanted for name, number, wanted in self.parts)


class One(NamedTuple):
    """A variable in a layout."""

    variable: Variable
    key: str
    """Its key in an object. A variable that is implied has none."""
    when: Condition


class Many(NamedTuple):
    """A list of items, or without a key fields that are there together."""

    fields: Tuple[LayoutPart, ...]
    when: Condition
    key: str = ""
    least: int = 0


@dataclass(frozen=True)
class Rest:
    """The rest of the body, or a text whose characters a variable counts."""

    name: str
    key: str
    count: str = ""
    """The variable that counts the characters."""


LayoutPart = Union[One, Many, Rest]


class Layout(NamedTuple):
    """The fields in the body of a packet."""

    number: int
    from_track: bool
    sure: int
    """In per cent."""
    doubt: str
    fields: Tuple[LayoutPart, ...]

    @property
    def is_certain(self) -> bool:
        """Whether remarks may rest on it. Any other is shown as "layout not certain"."""
        return self.sure >= CERTAIN


@lru_cache(maxsize=None)
def data() -> Dict[str, Any]:
    """The file as it is."""
    with open(os.path.join(os.path.dirname(__file__), DATA), encoding="utf-8") as file:
        read: Dict[str, Any] = json.load(file)
    return read


@lru_cache(maxsize=None)
def variables() -> Dict[str, Variable]:
    """All variables by their names."""
    return {
        each["name"]: Variable(
            each["name"],
            each["bits"],
            tuple(_spans(each["numbers"])),
            each.get("unit", ""),
            each["meaning"],
            each.get("doubt", ""),
        )
        for each in data()["variables"]
    }


@lru_cache(maxsize=None)
def layouts() -> Dict[Tuple[int, bool], Layout]:
    """All layouts by number, and whether the packet goes from track to train."""
    found = [
        Layout(each["packet"], each["from"] == "track", each["sure"], each.get("doubt", ""), _parts(each["fields"]))
        for each in data()["layouts"]
    ]
    return {(layout.number, layout.from_track): layout for layout in found}


def layout_of(number: int, from_track: bool = True) -> Optional[Layout]:
    """The layout of packets with this number, if balisekit has one."""
    return layouts().get((number, from_track))


def _spans(numbers: str) -> Iterator[Span]:
    for text in numbers.split("; "):
        found = NUMBERS.fullmatch(text)
        if found is None:
            raise ValueError(f"{DATA}: numbers of another form: {text}")
        yield Span(int(found[1]), int(found[2] or found[1]), found[3] or "")


def _parts(fields: List[Any]) -> Tuple[LayoutPart, ...]:
    return tuple(map(_part, fields))


def _part(field: Any) -> LayoutPart:
    field = {"variable": field} if isinstance(field, str) else field
    when = _condition(field.get("when", ""))
    if "fields" in field:
        return Many(_parts(field["fields"]), when, field.get("list", ""), field.get("least", 0))
    if "variable" in field:
        variable = variables()[field["variable"]]
        key = "" if variable.name in IMPLIED else field.get("key", variable.name.lower())
        return One(variable, key, when)
    if "text" in field:
        return Rest(field["text"], field["text"].lower(), field["count"])
    return Rest(field["rest"], field["key"])


def _condition(text: str) -> Condition:
    found = [re.fullmatch(r"(\w+)( not)? (\d+)", part) for part in filter(None, text.split(" and "))]
    if not all(found):
        raise ValueError(f"{DATA}: a condition of another form: {text}")
    return Condition(tuple((part[1], int(part[3]), not part[2]) for part in found if part))


def all_ones(parts: Tuple[LayoutPart, ...]) -> Iterator[One]:
    """The variables of a layout that have keys, those of its lists too."""
    for part in parts:
        if isinstance(part, Many):
            yield from all_ones(part.fields)
        elif isinstance(part, One) and part.key:
            yield part


def objects(parts: Tuple[LayoutPart, ...], key: str = "") -> Iterator[Tuple[str, List[str]]]:
    """The keys of the packet's object in the order of the bits, and of the items of each of its lists, by its key."""
    own: List[str] = []
    for part in parts:
        if isinstance(part, Many) and not part.key:
            inner = list(objects(part.fields, key))
            own += inner.pop()[1]
            yield from inner
        else:
            own += [part.key] if part.key else []
            yield from objects(part.fields, part.key) if isinstance(part, Many) else ()
    yield key, own

"""All variables of a telegram, one for each row of a sheet."""
from __future__ import annotations

import re
from collections import Counter
from functools import lru_cache
from typing import Iterator, Mapping, NamedTuple, Optional, Tuple, Union

from balisekit.etcs.places import Here, packet_kilometres
from balisekit.etcs.raw_packets import content_of, with_content
from balisekit.etcs.variables import (
    BESIDE,
    NO_FORM,
    Around,
    Form,
    Values,
    in_order,
    label_of,
    value_words,
    variable_name,
)

NUMBER = re.compile(r"\+?(-?\d+(?:\.\d+)?) (m|km/h|s|‰|mm|bits|days|A|m/s²)(?:, .*| to either side)?")
"""Words that are a number with its unit."""
CANT = "cant deficiency "


class Variable(NamedTuple):
    """A variable of a telegram."""

    packet: str
    """NID_PACKET, and in brackets which one of this number it is from the second on. The header has none."""
    element: str
    """The part of the packet: `link 0`, `section 1 section timer`."""
    name: str
    raw: Union[int, str]
    """The number, or the digits of a body that is kept as bits."""
    value: str
    """The number in its unit, or its name."""
    unit: str
    km: str = ""
    """The kilometre of the place that the object is about."""


def variables(form: Form, here: Here = Here()) -> Iterator[Variable]:
    """The variables of a telegram in the order of its bits, including those of raw packets with a known layout."""
    around = Around()
    header = {key: value for key, value in form.items() if key != "packets"}
    yield from _object(("", ""), header, "", around, {})
    counts: "Counter[int]" = Counter()
    for index, packet in enumerate(form["packets"]):
        number = packet["nid_packet"]
        counts[number] += 1
        label = f"{number} ({counts[number]})" if counts[number] > 1 else str(number)
        own = _object((label, ""), with_content(packet), "", around, packet_kilometres(index, packet, here))
        content = content_of(packet)
        yield from own if content is None else (
            each._replace(value=content.words) if each.name == "body" else each for each in own
        )


def _object(
    where: Tuple[str, str], form: Values, path: str, around: Around, kilometres: Mapping[str, str]
) -> Iterator[Variable]:
    """The variables of an object and its parts. `where` are its packet and element."""
    inner, own = around.inside(form), kilometres.get(path, "")
    scale = inner.packet.get("q_scale", 0)
    for key in in_order(form):
        value, below = form[key], f"{path}/{key}"
        if isinstance(value, list):
            for place, item in enumerate(value):
                label = _joined(where[1], f"{label_of(key)} {place}")
                item = item if isinstance(item, dict) else {key: item}
                yield from _object((where[0], label), item, f"{below}/{place}", inner, kilometres)
        elif isinstance(value, dict):
            label = _joined(where[1], label_of(key))
            yield from _object((where[0], label), value, below, inner, kilometres)
        else:
            beside = form.get(BESIDE[key]) if key in BESIDE else None
            name, words, unit = _kept(key, value, scale, beside)
            yield Variable(*where, name, value, words, unit, kilometres.get(below, own))


@lru_cache(maxsize=1 << 14)
def _kept(key: str, raw: Union[int, str], scale: int, beside: Optional[int]) -> Tuple[str, str, str]:
    """Name, value and unit. Most are repeated, so they are kept."""
    parent: Values = NO_FORM if beside is None else {BESIDE[key]: beside}
    name = variable_name(key, parent)
    if isinstance(raw, str):
        return name, "not decoded" if key == "body" else raw, ""
    words = value_words(key, raw, Around({"q_scale": scale}, parent)).removeprefix(CANT)
    number = NUMBER.fullmatch(words)
    return (name, number[1], number[2]) if number else (name, words or str(raw), "")


def _joined(*labels: str) -> str:
    return " ".join(filter(None, labels))

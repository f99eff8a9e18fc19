"""A telegram or message bit by bit: each field with its first and last bit, even if the JSON leaves it out."""
from __future__ import annotations

from typing import Dict, Iterator, List, Mapping, Union

from balisekit.errors import NoAnswer
from balisekit.etcs.layout import Field, bits_of, message_fields, telegram_fields, user_bits
from balisekit.etcs.packets import packet_name
from balisekit.etcs.raw_packets import Content, content_of
from balisekit.etcs.variables import Form
from balisekit.present.telegram_text import Shown, form_lines
from balisekit.tables.names import ordinal


def bit_lines(digits: str, form: Form) -> Iterator[str]:
    """A line for each field. NoAnswer is raised if a field found here has another value than in the program's JSON.

    Fields that balisekit's own layout reads in a body follow that body. The JSON has nothing to compare them with.
    """
    is_message, from_track = "nid_message" in form, form.get("nid_message") != 136
    fields = message_fields(bits_of(digits)) if is_message else telegram_fields(user_bits(digits))
    known = {shown.path: shown for line in form_lines(form) for shown in line.values}
    contents = [content_of(packet, from_track) for packet in form["packets"]]
    own = {f"/packets/{place}{each.path}" for place, read in enumerate(contents) if read for each in read.fields}
    _compare(fields, {path: shown.raw for path, shown in known.items() if path not in {*own, "/user_bits"}})
    packet = None
    for field in fields:
        if field.packet is not None and field.packet != packet:
            packet = field.packet
            number, whole = field.number or 0, "message" if is_message else "telegram"
            yield f"  packet {number} ({packet_name(number, from_track)}), {ordinal(packet)} in the {whole}"
        yield f"    {_place(field.at, field.width):<17} {_words(field, known)}"
        content = contents[packet] if field.name == "body" and packet is not None else None
        yield from _content_lines(content, field, f"/packets/{packet}", known) if content else ()


def _content_lines(content: Content, body: Field, path: str, known: Mapping[str, Shown]) -> Iterator[str]:
    """The layout that a body was read with, and each variable with its bits."""
    yield f"        {content.words}:" if content.fields else f"        {content.words}"
    start = body.at - (23 if content.layout.from_track else 21)
    for each in content.fields:
        words = known[path + each.path].text if each.path else f"{each.name} {each.raw}"
        yield f"        {_place(start + each.at, each.width):<17} {words}"


def _place(at: int, width: int) -> str:
    """The first and the last bit of a field. The body of a packet may be empty."""
    if width < 2:
        return f"bit {at}" if width else "no bits"
    return f"bits {at} to {at + width - 1}"


def _words(field: Field, known: Mapping[str, Shown]) -> str:
    if field.name == "fill":
        return "fill, without meaning"
    if not field.parts:
        return f"{field.name} {field.value}"
    return "  ".join(known[path].text for path, _ in field.parts)


def _compare(fields: List[Field], wanted: Dict[str, Union[int, str]]) -> None:
    """Raises NoAnswer unless the fields have exactly the values of the JSON."""
    values: Dict[str, Union[int, str]] = {}
    for field in fields:
        rest = field.digits
        for path, width in field.parts:
            values[path], rest = _value(path, rest[:width]), rest[width:]
    for path in {**values, **wanted}:
        if values.get(path) != wanted.get(path):
            raise NoAnswer(
                f"balisekit's tables and the program disagree about {path}: "
                f"{values.get(path)} and {wanted.get(path)}"
            )


def _value(path: str, digits: str) -> Union[int, str]:
    """A number, or a body as the JSON has it: hexadecimal digits with zeros up to a whole byte."""
    if not path.endswith("/body"):
        return int(digits, 2)
    whole = digits + "0" * (-len(digits) % 8)
    return f"{int(whole, 2):0{len(whole) // 4}x}" if whole else ""

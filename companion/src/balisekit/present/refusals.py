"""What the program has refused: where it is, and a sentence on the field that the program's words are about."""
from __future__ import annotations

from typing import Iterator, List, NamedTuple, Optional, Sequence

from balisekit.engine.grammar import Refusal
from balisekit.etcs.layout import Field, bits_of, message_fields, telegram_fields, user_bits
from balisekit.present.account_text import POSSIBLE
from balisekit.rules.checking import Checked
from balisekit.tables.model import Table
from balisekit.tables.names import counted, describe_balise, describe_message, ordinal, quoted

CODED = {86: 341, 256: 1023}
"""The digits of a telegram with its channel coding, and its bits."""
LENGTHS = (54, 208)
"""The digits of a short telegram and of a long one."""
SENTENCES = {
    "spare": "{name} is {value}, which is spare",
    "short": "{name} needs {width} bits, and {left} are left: a count or length before it is too great, or the text is "
    "too small",
    "length": "{name} is {value}, but its fields have {fields} bits",
    "version": "{name} is {value}{version}: only 32 (2.0) and 33 (2.1) are read",
    "loop": "{name} is {value}: it is for a loop, not for a balise",
    "down-link": "{name} is {value}: it goes from train to track",
    "message kind": "{name} is {value}: only 3 and 136 are read",
    "no authority": "message 3 has no packet 15: its packets end at bit {at}",
    "no report": "message 136 has no packet 0 or 1: its packets end at bit {at}",
}
"""By the reason of a refusal, a sentence on the field at its bit."""


class RefusedInput(NamedTuple):
    """A telegram or message that the program has refused."""

    sentence: str
    """Where it is, and why it is refused."""
    program: str
    """The program's words."""
    id: str
    """Its id in a report."""

    def __str__(self) -> str:
        return f"{self.sentence}: program: {self.program}"


def refused(checked: Checked) -> Iterator[RefusedInput]:
    """Each refused telegram, then each refused message."""
    groups = {row.number: group for group in checked.table.groups for row in group.rows()} if checked.refused else {}
    for row, refusal in ((telegram.row, telegram.refusal) for telegram in checked.refused):
        where = describe_balise(groups.get(row.number), row)
        yield RefusedInput(f"{where}: {telegram_refused(row.telegram, refusal)}", refusal.text, f"r{row.number}")
    for message, refusal in ((item.message, item.refusal) for item in checked.refused_messages):
        where = f"message of {describe_message(message)}"
        yield RefusedInput(f"{where}: {message_refused(message.text, refusal)}", refusal.text, f"m{message.number}")


def refused_lines(checked: Checked, before: str = "") -> Iterator[str]:
    """Two lines for each refused telegram and message: where it is and why, and the program's words."""
    for item in refused(checked):
        yield from (before + item.sentence, f"    program: {item.program}")


def not_tried(checked: Checked) -> List[str]:
    """How many rows and messages were not tried after too many refused ones."""
    counts = ((checked.not_looked_at, "rows"), (checked.messages_not_looked_at, "messages"))
    return [f"{count} {what} not looked at" for count, what in counts if count]


def not_looked_at(checked: Checked) -> List[str]:
    """How many rows and messages were not tried, and how many telegrams are in what is not read."""
    return [*not_tried(checked), *overlooked(checked.table)]


def overlooked(table: Table) -> List[str]:
    """How many telegrams are in columns or sheets that are not read, although no option asked for that.

    Rows that could hold one, and formulas whose values are not stored, are counted by themselves.
    """
    where, account = "in columns or sheets that are not read", table.account
    counts = (
        (account.overlooked, "telegram", where),
        (account.possible, POSSIBLE, where),
        (account.unknown, "formula", "without a stored value"),
    )
    return [f"{counted(count, what)} {which}" for count, what, which in counts if count]


def refused_counts(checked: Checked) -> List[str]:
    """How many telegrams, and how many messages if there are any, were refused."""
    counts = [f"{len(checked.refused)} of {len(checked.table.rows)} telegrams refused"]
    if checked.messages and checked.refused_messages:
        counts.append(f"{len(checked.refused_messages)} of {len(checked.messages.messages)} messages refused")
    return counts


def lacking(checked: Checked) -> List[str]:
    """How many telegrams and messages were refused, not tried or not read."""
    return [count for count in refused_counts(checked) if not count.startswith("0 ")] + not_looked_at(checked)


def telegram_refused(digits: str, refusal: Refusal) -> str:
    """A refused telegram in a sentence."""
    if refusal.text == "wrong size":
        if len(digits) in CODED:
            return f"it is coded ({CODED[len(digits)]} bits in {len(digits)} digits): export user bits"
        return _wrong_length(len(digits))
    if refusal.text == "pad bits set":
        return f"the last {6 if len(digits) == 54 else 2} bits are not all 0: the text has to end with zeros"
    if refusal.text == "not hexadecimal":
        return _no_digit(digits) or _wrong_length(len(digits))
    return _at_field(telegram_fields(user_bits(digits)), refusal, 10)


def message_refused(digits: str, refusal: Refusal) -> str:
    """A refused radio message in a sentence."""
    if refusal.text == "not hexadecimal":
        odd = f"it has {len(digits)} digits, an odd number: a digit is missing, or one too many"
        return _no_digit(digits) or odd + ("; a message 3 begins with 03" if digits[:2] == "30" else "")
    fields = message_fields(bits_of(digits))
    length = _field(fields, 8)
    if refusal.why == "length" and refusal.at == 8 and length:
        return f"L_MESSAGE is {length.value}, but the message has {len(digits) // 2} bytes"
    from_train = bool(fields) and fields[0].value == 136
    return _at_field(fields, refusal, 8 if from_train else 10)


def _wrong_length(length: int) -> str:
    """The length of a telegram's text, compared with the nearer one of the two allowed lengths."""
    nearest = min(LENGTHS, key=lambda known: abs(length - known))
    far = f"{nearest - length} short of" if length < nearest else f"{length - nearest} more than"
    return f"it has {length} digits, {far} {nearest}: a short telegram has {LENGTHS[0]}, a long one {LENGTHS[1]}"


def _no_digit(digits: str) -> str:
    """The first character that is not a hexadecimal digit, or nothing."""
    for place, character in enumerate(digits, 1):
        if character not in "0123456789abcdefABCDEF":
            code = "" if character.isascii() else f" (U+{ord(character):04X})"
            return f"character {place} is {quoted(character)}{code}, no hexadecimal digit"
    return ""


def _field(fields: Sequence[Field], at: int) -> Optional[Field]:
    """The field that begins at this bit."""
    return next((field for field in fields if field.at == at and field.width), None)


def _at_field(fields: Sequence[Field], refusal: Refusal, before_length: int) -> str:
    """A refusal at a bit, by the field that begins there."""
    at, end, why = refusal.at or 0, refusal.end or 0, refusal.why
    if why == "no end":
        packets = [field for field in fields if field.packet is not None and field.at < at]
        last = f" after packet {packets[-1].number}" if packets else ""
        return f"no packet 255{last}: the packets end at bit {at}"
    field = _field(fields, at)
    if field is None or why not in SENTENCES:
        return refusal.text
    name, value, index = field.name, field.value, field.packet
    if index is not None:
        name += f" of packet {field.number} ({ordinal(index)} packet)"
    if why == "length" and end == at + field.width:
        return f"{name} is {value}, less than the {end - at + before_length} bits of its head"
    numbers = {"width": field.width, "left": end - at, "fields": end - at + before_length, "at": at}
    version = f" ({value // 16}.{value % 16})" if value >= 16 else ""
    return SENTENCES[why].format(name=name, value=value, version=version, **numbers)

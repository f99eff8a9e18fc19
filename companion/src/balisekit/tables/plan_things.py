"""The values of further rows of a plan: restrictions, track conditions, reversing areas and repositioning sections."""
from __future__ import annotations

import re
from typing import Callable, Dict, Mapping

from balisekit.errors import TableError
from balisekit.tables.plan_values import (
    GREATEST_COUNTRY,
    INFINITE,
    INFINITE_WORD,
    NO_END,
    Term,
    Terms,
    identity_text,
    keyed,
    length,
    metres,
    mode_length,
    rbc,
    speed,
    speed_word,
)

GREATEST_RESTRICTION, GREATEST_CONDITION, GREATEST_CROSSING, GREATEST_VOLTAGE = 254, 15, 255, 15
"""NID_TSR 255 says that a restriction cannot be revoked."""
Reader = Callable[[str], Term]


def _number(greatest: int, what: str) -> Callable[[str], int]:
    def read(text: str) -> int:
        if not re.fullmatch("[0-9]{1,4}", text) or int(text) > greatest:
            raise TableError(f"{text[:40] or 'nothing'} is no {what}: write a number of at most {greatest}")
        return int(text)

    return read


def _restriction(text: str) -> Term:
    return None if text.lower() == NO_END else _number(GREATEST_RESTRICTION, "NID_TSR")(text)


def _yes_or_no(text: str) -> str:
    if text.lower() not in ("yes", "no"):
        raise TableError(f"{text[:40] or 'nothing'} is neither yes nor no")
    return text.lower()


def _identities(text: str) -> str:
    """Balise groups by NID_C and NID_BG, in the order of packet 49, or `none` for an empty list."""
    return NO_END if text.lower() == NO_END else ",".join(identity_text(word) for word in text.split(","))


def _digits(most: int) -> Callable[[str], str]:
    """Digits as they are dialled, without those that fill them up."""

    def read(text: str) -> str:
        if not re.fullmatch(f"[0-9]{{1,{most}}}", text):
            raise TableError(f"{text[:40] or 'nothing'} is no number: write at most {most} digits")
        return text

    return read


def _phone(text: str) -> str:
    return SHORT if text.lower() == SHORT else _digits(16)(text)


def radio(text: str) -> Terms:
    """An RBC with its telephone number, written as `rbc=352/17 phone=0123456`, or a radio network: `network=123456`."""
    found = keyed(text, RADIO_KEYS, "empty: a radio needs a value such as rbc=352/17 phone=0123456")
    if ("rbc" in found) == ("network" in found) or "phone" in found and "rbc" not in found:
        raise TableError("write rbc=.. with or without phone=.., or network=..")
    return found


SHORT = "short"
"""NID_RADIO of only F: the train uses the short number."""
RADIO_KEYS: Dict[str, Reader] = {"rbc": rbc, "phone": _phone, "network": _digits(6)}
KEYS: Mapping[str, Dict[str, Reader]] = {
    "tsr": {"v": speed, "id": _restriction, "front": _yes_or_no},
    "condition": {"type": _number(GREATEST_CONDITION, "M_TRACKCOND")},
    "reversing": {"v": speed, "distance": mode_length},
    "repositioning": {"section": length},
    "crossing": {"id": _number(GREATEST_CROSSING, "NID_LX"), "v": speed, "protected": _yes_or_no, "stop": _yes_or_no},
    "traction": {
        "voltage": _number(GREATEST_VOLTAGE, "M_VOLTAGE"),
        "country": _number(GREATEST_COUNTRY, "NID_CTRACTION"),
    },
    "stop_in_sr": {"stop": _yes_or_no},
    "shunting": {"stop": _yes_or_no, "balises": _identities},
}
"""The kinds, their keys, and how the value of each is read."""
EXAMPLES = {"tsr": "v=40 id=12 front=no", "condition": "type=0", "reversing": "v=30 distance=500"}
EXAMPLES.update(crossing="id=5 v=40 protected=no stop=yes", traction="voltage=2 country=352")
EXAMPLES.update(repositioning="section=700", stop_in_sr="stop=yes", shunting="stop=no balises=352/17,352/18")
WITH_LENGTH = ("tsr", "condition", "reversing", "crossing")
"""The kinds that hold from one kilometre to another one."""
ENDING = ("tsr", "reversing", "crossing")
"""Those of them that always have a length."""
LENGTH_KEYS = ("distance", "section")


def reader(kind: str) -> Callable[[str], Terms]:
    """What reads the value of rows of a kind."""
    return lambda text: keyed(text, KEYS[kind], f"empty: a {kind} needs a value such as {EXAMPLES[kind]}")


def text(found: Terms) -> str:
    """The value as a plan writes it."""
    return " ".join(f"{key}={word(key, value)}" for key, value in found.items())


def word(key: str, value: Term) -> str:
    """The value of a key."""
    if not isinstance(value, int):
        return NO_END if value is None else str(value)
    if key in LENGTH_KEYS:
        return INFINITE_WORD if value == INFINITE else metres(value)
    return speed_word(value) if key == "v" else str(value)


def words(key: str, value: Term) -> str:
    """The same in a sentence, with its unit."""
    unit = " km/h" if key == "v" else " m" if key in LENGTH_KEYS and value != INFINITE else ""
    return f"{word(key, value)}{unit}"

"""A file of radio messages: one a line, with a name after a semicolon."""
from __future__ import annotations

import re
import unicodedata
from itertools import accumulate
from string import hexdigits
from typing import Iterator, List

from balisekit.errors import TableError, TableErrors, faults_of
from balisekit.expressions import expression
from balisekit.io import inputs
from balisekit.tables.account import of_rows
from balisekit.tables.cells import BLANKS, digits
from balisekit.tables.encoding import text_of
from balisekit.tables.model import Message, Messages
from balisekit.tables.unread_digits import UUID, could_hold_telegram

LEAST_DIGITS = 20
"""How many digits the shortest message has: NID_MESSAGE, L_MESSAGE, T_TRAIN, M_ACK and NID_LRBG."""
DIGITS = frozenset(hexdigits)
MARK = expression(
    r"16#|0[xX]|(?<![^\W_])(?:0|[0-9]{1,2}')[hH](?=[0-9A-Fa-f])"
    r"|[xXhH](?=[\"']?[0-9A-Fa-f]{2})"
    r"|(?<=[0-9A-Fa-f])[hH](?![^\W_])"
)
"""What tells that digits are hexadecimal, in front of them or behind them: 0x, x'..', \\x, &H, 8'h, 16#, a final h."""
GROUP = expression(r"[0-9A-Fa-f]+|[^\W_]")
"""Digits, or another letter, after which no digits of the same message are."""
IN_NAME = "after the semicolon are digits as a message has: write one message per line"
NOTHING = expression(rf"[\s{BLANKS}\u00ad\u2060\ufeff]*")


def read(path: str) -> Messages:
    """The messages of this file. TableError or TableErrors is raised if it cannot be read."""
    file = inputs.read(path)
    with faults_of(path):
        text, encoding = text_of(file.content)
        messages = _messages(text)
    account = of_rows([each.number for each in messages])
    return Messages(path, file.sha256, encoding, tuple(messages), account, inputs.current_folder())


def _messages(text: str) -> List[Message]:
    messages, faults = [], []
    for number, line in enumerate(re.split("\r\n|\r|\n", text), 1):
        if not line.strip():
            continue
        cell, _, name = line.partition(";")
        if could_hold_telegram(name) or any(map(_has_message, _stretches(name))):
            faults.append(TableError(IN_NAME, line=number))
        elif digits(cell):
            messages.append(Message(number, digits(cell), cell.strip(), name.strip()))
        else:
            faults.append(TableError("no message before the semicolon", line=number))
    if faults:
        raise TableErrors(faults)
    if not messages:
        raise TableError("the file has no message: write one per line in hexadecimal digits, with its name after ;")
    return messages


def _stretches(name: str) -> Iterator[List[str]]:
    """The groups of digits of a name that may belong to one message.

    Blanks and marks such as 0x are between them, or any characters if no group is longer than the one before it: the
    end of a name can be in front of the first one, and the last one can be short.
    """
    text = MARK.sub(" ", UUID.sub("z", unicodedata.normalize("NFKC", name)))
    stretch, end = [""], 0
    for found in GROUP.finditer(text):
        is_near = NOTHING.fullmatch(text, end, found.start())
        if not DIGITS.issuperset(found[0]):
            yield stretch
            stretch = [""]
        elif is_near or len(found[0]) % 2 == 0 and len(found[0]) <= len(stretch[-1]):
            stretch.append(found[0])
        else:
            yield stretch
            stretch = [found[0]]
        end = found.end()
    yield stretch


def _has_message(groups: List[str]) -> bool:
    """Whether a message by its L_MESSAGE ends where a group ends. Many are too short to look like a telegram.

    It may begin anywhere: a lost line end puts it behind the end of a name, such as `report 1`.
    """
    text, ends = "".join(groups), {*accumulate(map(len, groups))}
    lengths = (
        (begin, (int(text[begin + 2 : begin + 5], 16) >> 2) * 2) for begin in range(len(text) - LEAST_DIGITS + 1)
    )
    return any(length >= LEAST_DIGITS and begin + length in ends for begin, length in lengths)

"""Digits in what is not read: what counts as a telegram, and what could hold one.

The rule for the second one only adds up: nothing that is beside digits makes them fewer. So no notation hides them.
"""
from __future__ import annotations

import re
import unicodedata
from collections import Counter
from string import ascii_letters, digits as digits_of_ten, hexdigits
from typing import Dict, List, Sequence, Set

from balisekit.expressions import expression
from balisekit.tables.cells import digits, kind_and_text
from balisekit.tables.pieces import (
    BESIDE,
    FIRST,
    LENGTHS,
    VERSIONS,
    are_pieces,
    begins_right,
    has_fill,
    have_rest_beside,
    in_rows,
    is_header,
    is_word,
    without_counters,
)

LEAST_DIGITS, LEAST_LETTERS, LEAST_RUN = 40, 4, 13
"""How many digits could be a telegram: in groups, and how many of them must be letters; or in a run with a letter."""
CHECKSUM = expression(r"(?<![^\W_])(?:0[xX])?([0-9A-Fa-f]{32}|[0-9A-Fa-f]{40}|(?:[0-9A-Fa-f]{32}){2,4})(?![^\W_])")
"""An MD5, SHA-1, SHA-256, SHA-384 or SHA-512, unless it looks like a telegram with fill, or like a part of one."""
LEAST_REST, FILL = 10, expression("(?:[Ff]{4,}|0{4,})$")
"""How many digits with letters can be the rest of a telegram, and what fills one up that begins with a header."""
MOST_IN_ROW = 1000
"""How long a row can be that has a part of a telegram."""
MOST_CHECKSUMS = 4
"""Of one length. More of them could be the lines of a telegram."""
UUID = expression(
    r"(?<![^\W_])(?<![0-9A-Fa-f]-)[0-9A-Fa-f]{8}(?:-[0-9A-Fa-f]{4}){3}-[0-9A-Fa-f]{12}(?![^\W_])(?!-[0-9A-Fa-f])"
)
GROUP = expression(
    rf"([0-9A-Fa-f]{{{LEAST_RUN},}}|(?<=0[xX])[0-9A-Fa-f]+"
    r"|(?<![^\W_])[0-9A-Fa-f]+(?=[hHuU]?(?![^\W_]))|(?<=(?<![^\W_])[xXhHuU])[0-9A-Fa-f]+(?=[hHuU]?(?![^\W_])))"
)
"""A run, or digits that no other letter is beside, except what marks them as hexadecimal: 0x, \\x, \\u, h."""
LETTER, NO_DIGIT = expression("[A-Fa-f]"), expression("[^0-9A-Fa-f]+")
LARGE = expression(
    r"(?<![^\W_])(?:[0-9]+(?:[.,][0-9]+)?[eE]\+|[0-9]+[.,][0-9]+[eE])0*(39|[4-9][0-9]|[1-9][0-9]{2})(?![^\W_])"
)
"""A number of at least 40 digits, to which a spreadsheet has shortened a telegram. Not every tool writes the plus."""
WORDS, OTHERS = (ascii_letters + digits_of_ten).encode(), bytes(set(range(256)).difference(hexdigits.encode()))
RUNS = bytes(ord("a" if chr(each) in hexdigits else " ") for each in range(256))
NUMBERS = bytes(ord("1" if chr(each) in digits_of_ten else "e" if chr(each) in "eE" else " ") for each in range(256))
"""What is put in place of each byte, so that runs of digits and large numbers are alike."""


def is_telegram(cell: str) -> bool:
    """Whether a cell counts as a telegram: of at least 40 characters nine of ten are hexadecimal digits.

    What the reader drops is dropped before, and so are UUIDs and checksums. Groups of digits without a letter are
    numbers, and do not count.
    """
    if len(cell) < LEAST_DIGITS:
        return False
    own = _without_names(kind_and_text(cell)[1]).strip()
    text = digits("".join(own.split()))
    if len(text) < LEAST_DIGITS or 10 * len(NO_DIGIT.sub("", text)) < 9 * len(text):
        return False
    return own.isdecimal() or bool(LETTER.search(text))


def possible_digits(text: str) -> int:
    """How many hexadecimal digits of a text could be those of a telegram, or 0 if they are too few for one."""
    if has_few_digits(text):
        return 0
    groups = groups_of(text)
    sizes = sizes_of(groups)
    counted = [group for group in groups if size(group) in sizes]
    letters = sum(map(len, map(LETTER.findall, counted)))
    is_spread = letters >= LEAST_LETTERS and sum(map(size, counted)) >= LEAST_DIGITS
    if is_spread or any(size(group) >= LEAST_RUN for group in counted):
        return sum(map(len, counted))
    if are_pieces(groups):
        return sum(map(len, groups))
    return max((int(exponent) + 1 for exponent in LARGE.findall(text)), default=0)


def has_few_digits(text: str) -> bool:
    """Whether a text surely holds no telegram. This takes a tenth of the time of looking for one."""
    data = (text if text.isascii() else unicodedata.normalize("NFKC", text)).encode("utf-8", "replace")
    digits_and_gaps = len(data.translate(None, OTHERS)) + len(data.translate(None, WORDS))
    return digits_and_gaps < LEAST_DIGITS * 9 // 10 - 1 and not has_run_or_large_number(data)


def has_run_or_large_number(data: bytes) -> bool:
    """Whether 13 hexadecimal digits are side by side, or a number has an exponent."""
    return b"a" * LEAST_RUN in data.translate(RUNS) or b"1e1" in data.translate(NUMBERS, b"+")


def could_hold_telegram(text: str) -> bool:
    """Whether a text counts as a telegram, or could hold one."""
    return is_telegram(text) or possible_digits(text) > 0


def groups_of(text: str) -> List[str]:
    """The groups of hexadecimal digits of a text, without UUIDs and checksums."""
    return _groups(_without_names(text if text.isascii() else unicodedata.normalize("NFKC", text)))


def all_groups(text: str) -> List[str]:
    """The groups of hexadecimal digits of a text, with UUIDs and checksums."""
    return _groups(text if text.isascii() else unicodedata.normalize("NFKC", text))


def digits_in_rows(texts: Sequence[str]) -> Dict[int, int]:
    """How many digits those of these rows have, counted from 0, that are a telegram together, one below the other."""
    joined = "\n".join(texts)
    small = joined.lower()
    has_version = any(map(small.__contains__, VERSIONS))
    if "f" not in small or not (FIRST.search(joined) or has_version and BESIDE.search(joined)):
        return {}  # (what ends a telegram is an f and parts of two digits)
    rows = [all_groups(text) if FIRST.search(text) or len(text) < MOST_IN_ROW else [] for text in texts]
    counts: Dict[int, int] = {}
    for some in without_counters(rows):
        for found in in_rows(some):
            counts.update({at: sum(map(len, some[at])) for at in found if at not in counts})
    return counts


def _groups(text: str) -> List[str]:
    return GROUP.findall(re.sub("(?=0[xX])", " ", text))


def _without_names(text: str) -> str:
    """The text without UUIDs and checksums, unless there are more of one length than a text names, or it has pieces."""
    plain = UUID.sub("", text)
    checksums = CHECKSUM.findall(plain)
    if not checksums and len(plain) == len(text):
        return text
    if are_pieces(all_groups(text)) or have_rest_beside(_groups(plain), checksums):
        return text
    if max(Counter(map(len, checksums)).values(), default=0) > MOST_CHECKSUMS:
        return plain
    return CHECKSUM.sub(lambda found: found[0] if _begins_telegram(found[1], plain[found.end() :]) else "", plain)


def _begins_telegram(value: str, rest: str) -> bool:
    """Whether digits with the length of a checksum are those of a telegram with fill, or the first ones of one.

    One in 300 random checksums begins with a header, so fill or other digits must follow.
    """
    if has_fill(value) or not is_header(value):
        return has_fill(value)
    groups = _groups(rest)
    lettered = [group for group in groups if LETTER.search(group) and not CHECKSUM.fullmatch(group)]
    is_long = sum(len(group) for group in lettered if not is_word(group)) >= LEAST_REST
    if FILL.search(value) or is_long and begins_right([value, *groups]):
        return True
    return sum(map(len, [value, *groups])) == LENGTHS[-1]


def size(group: str) -> int:
    """How many digits a group has. A single one is a byte whose leading zero is not written."""
    return max(2, len(group))


def sizes_of(groups: Sequence[str]) -> Set[int]:
    """The sizes of the groups that have a letter. A number counts only if it has one of these."""
    return {size(group) for group in groups if LETTER.search(group)}

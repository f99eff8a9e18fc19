"""Digits that are one telegram together: groups, cells side by side or rows, of which some look like a checksum.

Each check is exact enough that no list of checksums, names or numbers is taken for a telegram.
"""
from __future__ import annotations

import re
from itertools import accumulate
from typing import Dict, Iterator, List, Sequence

VERSIONS = ("a0", "a1", "90", "91")
"""With what a telegram begins."""
LENGTHS = (53, 54, 208)
"""How many digits 210 and 830 bits have, without fill: 210 bits end within the 53rd digit, and a byte more is usual."""
SHORT, HEADER, END, VIRTUAL, LEAST_PACKET = 210, 50, 255, 14, 23
"""How many bits a short telegram and the header have, what ends a telegram, the length of packet 0, and the least one
of another packet."""
LEAST_FILL = 8
"""How many equal digits at an end of what is as long as a checksum are fill. A checksum has them once in 10^8."""
LEAST_BESIDE, LEAST_PIECE, LEAST_WORD = 12, 4, 7
"""How many digits beside an MD5 or SHA-1 can be the rest of a telegram, in how long groups, and how long ones without
figures, which else are words."""
LEAST_BEGIN, LONGEST_PACKET, BOTH_WAYS = 6, 780, 2
"""How long a piece with a header is, and the greatest length and direction of a packet."""
LEAST_WITHOUT_FILL = 40
"""How many digits are a telegram whose fill is not written: fewer could be so by chance."""
FILLED = re.compile(r"(?:[fF]\|?){7}[fF](?=\||$)|(?<![0|])0{8,}(?=\||$)")
"""Fill at the end of a piece, or in pieces of its own."""
SHORT_CHECKSUMS = (32, 40)
"""What a telegram of 210 bits has room for."""
MOST = 300
"""How many digits are looked at behind the first one."""
BREAK = "-"
"""In place of a row without digits, which ends what is looked at."""
FIRST = re.compile(r"^(?:[^\w\n]|_)*(?:0[xX])?[0fF]*[aA9][01\W_]", re.MULTILINE)
"""A row in which a telegram could begin. Each row is looked at by itself: signs do not lead to the rows below it."""
BESIDE = re.compile(r"(?<![^\W_])(?:0[xX])?[0fF]*[aA9][01][\W_]?[0-7][0-9A-Fa-f][\W_]?[0-9A-Fa-f]{2}")
"""The beginning of a telegram beside a counter or a word, in a row that begins with another one."""
LETTER, FIGURE = re.compile("[A-Fa-f]"), re.compile("[0-9]")


def is_header(digits: str) -> bool:
    """Whether at least six digits are the first ones of a telegram: version, medium, and place in its group."""
    bits = int(digits[2:6], 16)
    is_legal = not bits >> 15 and bits >> 12 & 7 <= bits >> 9 & 7 and bits >> 7 & 3 < 3
    return digits[:2].lower() in VERSIONS and is_legal


def has_fill(digits: str) -> bool:
    """Whether digits begin or end with a long row of the same digit, and have others too."""
    text = digits.lower()
    ends = (len(text) - len(text.rstrip(text[-1])), len(text) - len(text.lstrip(text[0])))
    return LEAST_FILL <= max(ends) < len(text)


def have_rest_beside(groups: Sequence[str], checksums: Sequence[str]) -> bool:
    """Whether an MD5 or SHA-1 among groups of digits has the rest of a telegram beside it.

    The groups begin with a header and have exactly the digits of a telegram. Or other groups have enough digits, and
    all have fill at the end, begin as a telegram does, or are one with a fault in its version.
    """
    if not checksums or min(map(len, checksums)) not in SHORT_CHECKSUMS:
        return False
    lettered = [group for group in groups if LETTER.search(group)]
    others = [at for at in _starts(groups) if groups[at] not in checksums]
    if {*lettered}.difference(checksums) and any(count_from(groups[at : at + MOST], is_exact=True) for at in others):
        return True
    if _beside(groups, checksums) < LEAST_BESIDE:
        return False
    if FILLED.search("|".join(lettered)):
        return True
    return any(_is_begin(groups[at : at + MOST], checksums) for at in range(len(groups)))


def is_word(group: str) -> bool:
    """Whether letters without a figure are so few that they may be a word, such as Decade."""
    return len(group) < LEAST_WORD and not FIGURE.search(group)


def _is_said(group: str) -> bool:
    """Whether a group is such a word, and neither a byte nor fill."""
    return is_word(group) and len(group) > 2 and {*group.lower()} != {"f"}


def _beside(groups: Sequence[str], checksums: Sequence[str]) -> int:
    """How many digits the groups beside checksums have that are no words and no numbers."""
    lettered = [group for group in groups if group not in checksums and LETTER.search(group)]
    return sum(len(group) for group in lettered if len(group) >= LEAST_PIECE and not is_word(group))


def _is_begin(groups: Sequence[str], checksums: Sequence[str]) -> bool:
    """Whether these groups begin a telegram that goes on in a checksum, or are one with a fault in its version."""
    if not LETTER.search(groups[0]):
        return False
    if len(groups[0].lstrip("0fF")) < LEAST_BEGIN or not begins_right(groups):
        return _ends_right(groups, checksums)
    return not {*groups}.isdisjoint(checksums) and _beside(groups, checksums) >= LEAST_BESIDE


def begins_right(groups: Sequence[str]) -> bool:
    """Whether groups have a header at the beginning, and exactly the digits of a telegram, or a packet behind it."""
    if count_from(groups, is_exact=True):
        return True
    digits = "".join(groups).lstrip("0fF")[:MOST]
    bits = _bits(digits or "0")
    if 4 * len(digits) < HEADER + LEAST_PACKET or not is_header(digits):
        return False
    return _number(bits, HEADER) == END or _number(bits, HEADER) > 0 and _has_length(bits, HEADER)


def _number(bits: str, at: int) -> int:
    """The number of the packet at this place."""
    return int(bits[at : at + 8], 2)


def _has_length(bits: str, at: int) -> bool:
    """Whether a packet has a direction and a length that a packet can have."""
    way, length = (int(bits[at + begin : at + end] or "0", 2) for begin, end in ((8, 10), (10, 23)))
    return way <= BOTH_WAYS and LEAST_PACKET <= length <= LONGEST_PACKET


def _ends_right(groups: Sequence[str], checksums: Sequence[str]) -> bool:
    """Whether a checksum and what is beside it are a short telegram with zeros behind its end, and nearly a header."""
    for count, length in enumerate(accumulate(map(len, groups)), 1):
        if length > MOST:
            break
        own = groups[:count]
        digits = _without_fill("".join(own)) if length >= LENGTHS[0] else ""
        if len(digits) in LENGTHS[:2] and not int(digits, 16) % 4 ** (2 * len(digits) - SHORT // 2):
            is_beside = not {*own}.isdisjoint(checksums) and _beside(own, checksums) >= LEAST_BESIDE
            return is_beside and _is_nearly_header(digits)
    return False


def _without_fill(digits: str) -> str:
    """The digits without fill at their beginning, which is longer than zeros that a checksum has there."""
    rest = digits.lstrip("0fF")
    return rest if len(digits) - len(rest) >= LEAST_FILL else digits


def _is_nearly_header(digits: str) -> bool:
    """Whether digits have a version as a header has it, or would be a header with another digit in the version."""
    if digits[:2].lower() in VERSIONS:
        return True
    return (digits[0] in "9aA" or digits[1] in "01") and is_header(VERSIONS[0] + digits[2:6])


def are_pieces(groups: Sequence[str]) -> bool:
    """Whether some of these groups of digits, one after the other, are a telegram."""
    return any(count_from(groups[at : at + MOST]) > 1 for at in _starts(groups))


def _starts(groups: Sequence[str]) -> Iterator[int]:
    """Where a telegram can begin, perhaps with fill."""
    return (at for at, group in enumerate(groups) if group[0] in "0fFaA9")


def count_from(groups: Sequence[str], is_exact: bool = False) -> int:
    """How many groups are a telegram together, from the first one on. 0 if they are none.

    They begin with a header, perhaps after fill. Their packets have an end, and only fill is behind the last digit of a
    telegram, or behind that end if the fill of the telegram is not written. If `is_exact` they have exactly the length
    of one and no words, and their packets may have faults.
    """
    first = "".join(groups[:6]).lstrip("0fF")
    if len(first) < 6 or not is_header(first):
        return 0
    without_fill = 0
    for count, length in enumerate(accumulate(map(len, groups)), 1):
        if length > MOST:
            break
        digits = "".join(groups[:count]).lstrip("0fF") if length >= LEAST_WITHOUT_FILL else ""
        if len(digits) in LENGTHS and not any(map(_is_said, groups[:count])) if is_exact else _is_whole(digits):
            return count
        if not is_exact and not without_fill and len(digits) >= LEAST_WITHOUT_FILL and _is_without_fill(digits):
            without_fill = count
    return without_fill


def _is_whole(digits: str) -> bool:
    """Whether digits are a telegram, perhaps with fill behind it."""
    rests = [digits[length:].lower() for length in LENGTHS if len(digits) >= length]
    return any(len({*rest}) < 2 for rest in rests) and _end_of(digits) > 0


def _is_without_fill(digits: str) -> bool:
    """Whether digits are a telegram up to its end, with nothing or only fill behind it. The end may be cut off too."""
    bits, end, *places = _bits(digits), _end_of(f"{digits}ff"), *_places(f"{digits}ff")[:-1]
    packets = [at for at in places if _number(bits, at)]  # (a long row of zeros looks like packets 0)
    return end > 0 and bool(packets) and all(_has_length(bits, at) for at in packets) and len({*bits[end:]}) < 2


def _end_of(digits: str) -> int:
    """How many bits the header and the packets of a telegram have with the mark of their end. 0 if it has no end."""
    bits, at = _bits(digits), _places(digits)[-1]
    return at + 8 if bits[at : at + 8] == f"{END:b}" else 0


def _places(digits: str) -> List[int]:
    """Where the packets of a telegram begin, in bits. The mark of the end is at the last one, or no packet is."""
    bits, places = _bits(digits), [HEADER]
    while places[-1] + 8 <= len(bits):
        at = places[-1]
        packet = _number(bits, at)
        length = int(bits[at + 10 : at + 23] or "0", 2) if packet else VIRTUAL
        if packet == END or length < (LEAST_PACKET if packet else VIRTUAL):
            break
        places.append(at + length)
    return places


def _bits(digits: str) -> str:
    return f"{int(digits, 16):0{4 * len(digits)}b}"


def without_counters(rows: Sequence[List[str]]) -> Iterator[Sequence[List[str]]]:
    """The groups of rows in which some may be counters or words: all, the longest ones, all but the first or last."""
    yield rows
    if any(len(row) > 1 for row in rows):
        yield [[max(row, key=len)] if row else [] for row in rows]
        yield [row[1:] or row for row in rows]
        yield [row[:-1] or row for row in rows]


def in_rows(rows: Sequence[List[str]]) -> Iterator[range]:
    """The rows, counted from 0, whose groups of digits are a telegram together, one row below the other."""
    texts = [*map("".join, rows)]
    ahead, begins = "".join(text or BREAK for text in texts), [0, *accumulate(len(text or BREAK) for text in texts)]
    at = 0
    while at < len(rows):
        is_tried = texts[at] and _can_begin(ahead[begins[at] : begins[at] + MOST])
        count = _rows_from(rows, at) if is_tried else 0
        if count > 1:
            yield range(at, at + count)
        at += max(1, count)


def _can_begin(ahead: str) -> bool:
    """Whether the digits from a row on have a header and packets that end there. Few rows do: no others are tried."""
    digits = ahead.lstrip("0fF")
    return digits[:2].lower() in VERSIONS and _can_be_telegram(digits.partition(BREAK)[0])


def _can_be_telegram(digits: str) -> bool:
    if len(digits) < 6 or not is_header(digits):
        return False
    return _end_of(digits) > 0 or any(4 * LEAST_WITHOUT_FILL - 8 <= at <= 4 * len(digits) for at in _places(digits))


def _rows_from(rows: Sequence[List[str]], begin: int) -> int:
    """How many rows are a telegram together, from this one on. 0 if they are none."""
    groups: List[str] = []
    row_of: Dict[int, int] = {}
    length = 0
    for number in range(begin, min(begin + MOST, len(rows))):
        if not rows[number] or length > MOST:
            break
        groups += rows[number]
        length += sum(map(len, rows[number]))
        row_of[len(groups)] = number - begin + 1
    count = count_from(groups)
    return next((rows for last, rows in row_of.items() if last >= count), 0) if count else 0

"""Columns of CRC-64 checksums beside telegrams. An MD5 or a longer one is known by its length in any text.

Sixteen digits may also be a part of a telegram. So a column counts as checksums only if no row has enough digits for a
telegram beside it, and if nothing in it looks like a beginning, a fill or rows of one.
"""
from __future__ import annotations

from typing import Sequence

from balisekit.expressions import expression
from balisekit.tables.pieces import LENGTHS, are_pieces, has_fill, is_header
from balisekit.tables.unread_digits import LETTER, all_groups, digits_in_rows

CRC64 = expression("(?:0[xX])?([0-9A-Fa-f]{16})")
MOST_HEADERS = 20
"""One in so many checksums may begin as a telegram does. By chance it is one in 300."""


def are_checksums(rows: Sequence[Sequence[str]], at: int, telegram: int) -> bool:
    """Whether the cells of a column are CRC-64 checksums. `telegram` is the column that is read."""
    cells = [row[at].strip() if at < len(row) else "" for row in rows]
    found = [CRC64.fullmatch(cell) for cell in cells if cell]
    values = [each[1] for each in found if each]
    if (
        len(values) < len(found)
        or any(map(has_fill, values))
        or MOST_HEADERS * sum(map(is_header, values)) > len(values)
    ):
        return False
    return not digits_in_rows(cells) and not any(_has_room(row, telegram) for row in rows)


def _has_room(row: Sequence[str], telegram: int) -> bool:
    """Whether a row has digits enough for a telegram outside of the column that is read, or pieces of one."""
    groups = all_groups(" ".join(cell for at, cell in enumerate(row) if at != telegram))
    return sum(len(group) for group in groups if LETTER.search(group)) >= LENGTHS[0] or are_pieces(groups)

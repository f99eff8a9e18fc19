"""Stretches that touch each other, so that many short ones count as a long one."""
from __future__ import annotations

from typing import Callable, Iterable, Iterator, List, Sequence, Tuple, TypeVar

Piece = TypeVar("Piece")


def touching(pieces: Iterable[Piece], ends: Callable[[Piece], Tuple[int, int]]) -> Iterator[List[Piece]]:
    """Pieces in the order of their places, those together of which each begins where the one before ends."""
    some: List[Piece] = []
    for each in pieces:
        if some and ends(some[-1])[1] != ends(each)[0]:
            yield some
            some = []
        some.append(each)
    if some:
        yield some


def longer(
    pieces: Iterable[Piece], ends: Callable[[Piece], Tuple[int, int]], allowed: Callable[[Piece], int]
) -> Iterator[Sequence[Piece]]:
    """Those that touch each other, if they are longer together than what is allowed at the end of one of them."""
    for some in touching(pieces, ends):
        first = ends(some[0])[0]
        if any(ends(each)[1] - first > allowed(each) for each in some):
            yield some

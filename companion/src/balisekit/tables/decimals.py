"""The context in which balisekit calculates with decimal fractions such as kilometres.

Scripts and rules of users can set another precision. It would decide which distances differ.
"""
from __future__ import annotations

from contextlib import contextmanager
from decimal import ROUND_HALF_EVEN, Context, Decimal, DivisionByZero, InvalidOperation, Overflow, localcontext
from functools import lru_cache
from typing import Iterator

OWN = Context(
    prec=28,
    rounding=ROUND_HALF_EVEN,
    Emin=-999_999,
    Emax=999_999,
    capitals=1,
    clamp=0,
    flags=[],
    traps=[InvalidOperation, DivisionByZero, Overflow],
)
"""As Python has it by default."""


@lru_cache(maxsize=1 << 12)
def whole(number: int) -> Decimal:
    """A whole number. Remarks have many of few numbers, and each object takes memory."""
    return Decimal(number)


@contextmanager
def own_context() -> Iterator[None]:
    """Within this, decimal fractions are calculated in balisekit's context. Afterwards the former one is in force."""
    with localcontext(OWN):
        yield

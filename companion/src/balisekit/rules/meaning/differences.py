"""Two groups, or a message and a group, whose profiles differ on some stretches. For E13."""
from __future__ import annotations

from collections import Counter
from typing import Iterator, NamedTuple, Sequence

from balisekit.rules.decoded import Decoded
from balisekit.rules.meaning.along import leaves
from balisekit.rules.meaning.fronts import BEHIND_POINT
from balisekit.rules.meaning.profiles import Piece, Profiles, cause_of, long_pieces, longest_difference, pieces_of
from balisekit.rules.rule import Options


class Difference(NamedTuple):
    """Two groups that differ on some stretches."""

    rear: Profiles
    ahead: Profiles
    pieces: Sequence[Piece]
    """The longest one first. Their places count in the direction of passage."""

    @property
    def rear_looks_wrong(self) -> bool:
        """Whether it is the one in rear, of two that differ from equally many: a message, or one with a cause."""
        rear, ahead, piece = self.rear, self.ahead, self.pieces[0]
        if ahead.is_of_message or rear.is_of_message:
            return rear.is_of_message
        return bool(cause_of(rear, ahead, piece, True) or not cause_of(ahead, rear, piece, False))


def differences_of(
    decoded: Decoded, options: Options, rear: Profiles, ahead: Profiles, low: int, left: "Counter[str]"
) -> Iterator[Difference]:
    """The stretches on which two groups differ. It counts what is left out."""
    high = min(rear.reach, ahead.reach)
    allowed, longest = 0, longest_difference(rear.longest, ahead.longest, low, high)
    if longest and max(rear.first, ahead.first) <= max(low, ahead.begin):
        # (where both hold all the way, no piece is longer than what these two profiles differ on)
        allowed = decoded.tolerance(options.tolerance_of_places, rear.unit, ahead.unit)
    if longest <= allowed and rear.names(ahead, decoded):
        return
    some = list(pieces_of(rear.naming(ahead, decoded), ahead.aspects, low, high))
    stays = [each for each in some if not leaves(options, decoded, each.rear.passage, each.low * rear.way)]
    left[BEHIND_POINT] += len(some) - len(stays)
    pieces = long_pieces(decoded, options, stays)
    if pieces:
        yield Difference(rear, ahead, sorted(pieces, key=lambda each: each.low - each.high))

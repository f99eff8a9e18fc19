"""The arithmetic of kilometres along a track: jumps, rounding, and what can be compared at all.

A place is a whole number of decimetres along the track, counted as the kilometres of its beginning do: where the
kilometres jump, the places do not. Kilometres that are finer than a decimetre are rounded. Two tracks have an axis of
their own each, so places of one are not compared with those of another one.

This is the only code that may serve both sides of a comparison with the design. It knows no telegrams, and imports
nothing that reads them.
"""
from __future__ import annotations

from decimal import ROUND_CEILING, Decimal
from functools import lru_cache
from typing import Dict, Iterable, List, NamedTuple, Optional, Sequence, Tuple

from balisekit.errors import TableError
from balisekit.tables.names import clean

DECIMETRES = Decimal(10_000)
"""In a kilometre."""
METRES = 3
"""How many decimals a kilometre has that is written to the metre."""
METRE = Decimal(1).scaleb(-METRES)
ANOTHER_TRACK, NO_TRACK, NO_KILOMETRE = "another track", "no track", "no kilometre"
IN_JUMP = "a kilometre that a jump leaves out or repeats"
"""Why rules do not compare a place."""


class Jump(NamedTuple):
    """A jump of the kilometres: in the direction in which they rise, `before` is followed by `after`."""

    before: Decimal
    after: Decimal
    track: str = ""

    def __str__(self) -> str:
        of_track = f" of track {clean(self.track)}" if self.track else " without a track"
        return f"the jump from km {self.before} to km {self.after}{of_track}"


def look_at(jumps: Sequence[Jump]) -> None:
    """Raises TableError for two jumps of a track that leave out or repeat the same kilometres: they contradict."""
    known: Dict[str, List[Jump]] = {}
    for jump in sorted(jumps, key=lambda each: min(each.before, each.after)):
        known.setdefault(clean(jump.track), []).append(jump)
    for own in known.values():
        for one, other in zip(own, own[1:]):
            if min(other.before, other.after) < max(one.before, one.after) or one.before == other.before:
                raise TableError(f"{one} and {other} contradict each other")


def decimetres(km: Decimal) -> int:
    """A kilometre in whole decimetres."""
    return round(km * DECIMETRES)


class Chainage(NamedTuple):
    """The kilometres of one track, with their jumps in the order of the kilometres."""

    jumps: Tuple[Tuple[int, int], ...] = ()
    """`before` and `after` in decimetres."""

    @classmethod
    def of(cls, jumps: Sequence[Jump], track: str) -> Chainage:
        """The kilometres of a track with those of the jumps that are on it, each once if the plan states it too."""
        own = {(decimetres(jump.before), decimetres(jump.after)) for jump in jumps if clean(jump.track) == clean(track)}
        return cls(tuple(sorted(own)))

    def place(self, km: Optional[Decimal]) -> Optional[int]:
        """The place of a kilometre. It is None for one that is in a gap of the kilometres, or that is there twice."""
        if km is None:
            return None
        at, shift = decimetres(km), 0
        for before, after in self.jumps:
            if before < at < after or after <= at <= before:
                return None
            shift += before - after if at >= max(before, after) else 0
        return at + shift

    def places(self, km: Decimal) -> Sequence[int]:
        """All places of a kilometre: one that the kilometres repeat has several, and one in a gap has none."""
        at, shift, found = decimetres(km), 0, []
        begin: Optional[int] = None
        for before, after in self.jumps:
            if (begin is None or begin <= at) and at <= before:
                found.append(at + shift)
            shift, begin = shift + before - after, after
        if begin is None or begin <= at:
            found.append(at + shift)
        return sorted(set(found))

    def words(self, place: int) -> str:
        """The kilometre of a place as it is written."""
        return kilometre_of(self._at(place))

    def kilometre(self, place: int) -> Decimal:
        """The kilometre of a place, with as many decimals as it is written with."""
        at = self._at(place)
        return Decimal(at).scaleb(-4) if at % 10 else Decimal(at // 10).scaleb(-3)

    def _at(self, place: int) -> int:
        """The kilometre of a place in decimetres."""
        shift = 0
        for before, after in self.jumps:
            if place <= before + shift:
                break
            shift += before - after
        return place - shift


@lru_cache(maxsize=1 << 14)
def kilometre_of(place: int) -> str:
    """A place of whole decimetres as a kilometre is written, without decimal numbers, which are slow."""
    whole, part = divmod(abs(place), 10_000)
    digits = f"{part:04}"
    return f"{'-' if place < 0 else ''}{whole}.{digits[:3]}{digits[3:].rstrip('0')}"


def incomparable(one: Optional[Decimal], its_track: str, other: Optional[Decimal], other_track: str) -> str:
    """Why two kilometres cannot be compared, or nothing."""
    if one is None or other is None:
        return NO_KILOMETRE
    return apart(its_track, other_track)


def apart(its_track: str, other_track: str) -> str:
    """Why two places are not on one track, or nothing. A group may lack a track that others have."""
    if its_track == other_track:
        return ""
    return ANOTHER_TRACK if its_track and other_track else NO_TRACK


def rounding(unit: int, lengths: int) -> int:
    """What rounding may add to a sum of lengths: one unit, and half a unit for each further length.

    It is in whole decimetres, rounded up, as the unit is.
    """
    return unit + (unit * (lengths - 1) + 1) // 2


def tolerance_of_lengths(tolerance: Decimal, *parts: int) -> int:
    """By how many decimetres lengths may differ: the user's tolerance in metres, and these parts."""
    return int((tolerance * 10).to_integral_value(ROUND_CEILING)) + sum(parts)


def resolution_of(kilometres: Iterable[Decimal]) -> int:
    """One unit of the last decimal that any of these kilometres has, and at most 1 m.

    A spreadsheet stores 11.100 as 11.1, so fewer decimals than three do not show that the kilometres are rounded.
    """
    others = (km for km in kilometres if not km.same_quantum(METRE))  # (which takes less time than `as_tuple`)
    return 1 if any(int(km.as_tuple().exponent) < -METRES for km in others) else 10

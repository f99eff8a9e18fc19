"""Parts of a track that are covered, such as by what telegrams say there."""
from __future__ import annotations

from bisect import bisect_left, bisect_right
from typing import Iterable, Iterator, List, Optional, Tuple

Part = Tuple[int, int]
"""From a place to a greater one."""


class Covered:
    """Parts of a track, joined where they touch."""

    def __init__(self, parts: Iterable[Part] = ()) -> None:
        self._lows: List[int] = []
        self._highs: List[int] = []
        for low, high in sorted(parts):
            if self._highs and low <= self._highs[-1]:
                self._highs[-1] = max(self._highs[-1], high)
            else:
                self._lows.append(low)
                self._highs.append(high)

    def has_any_of(self, low: int, high: Optional[int]) -> bool:
        """Whether any of a stretch is covered. Without a greatest place the stretch has no end."""
        index = bisect_right(self._highs, low)
        return index < len(self._lows) and (high is None or self._lows[index] < high)

    def gaps(self, low: int, high: int) -> Iterator[Part]:
        """The parts of a stretch that are not covered."""
        index = bisect_right(self._highs, low)
        for begin, end in zip(self._lows[index : bisect_left(self._lows, high)], self._highs[index:]):
            if low < begin:
                yield low, begin
            low = max(low, end)
        if low < high:
            yield low, high

"""Which of two aspects ends first, by their names over all groups of a table. For E9."""
from __future__ import annotations

from collections import Counter
from itertools import combinations
from typing import Dict, Iterator, List, Mapping, NamedTuple, Sequence, Set, Tuple

from balisekit.rules.facts import counted, sender
from balisekit.rules.line import Line
from balisekit.rules.meaning.sent import tolerance
from balisekit.rules.meaning.siblings import AUTHORITY
from balisekit.rules.passages import Passage
from balisekit.rules.rule import Options
from balisekit.rules.telegrams import Packet, allowance

LEAST = 3
"""The fewest cases that show an order."""
BESIDE = 2000
"""In decimetres: how far signals of neighbouring tracks are apart along them, such as staggered exit signals."""
STAGGERED = "two aspects end in another order than at most groups, perhaps at signals beside each other"
NO_ORDER = "two aspects end in another order than at most groups, which too few groups show"
"""Why the ends of aspects of a group are not compared."""
Left = Dict[str, Set[int]]
"""The groups that are not compared in full, by the reason."""


class Case(NamedTuple):
    """An aspect of a group in one direction, with its first packet 12."""

    passage: Passage
    packet: Packet

    @property
    def end(self) -> int:
        """How far the authority goes, in decimetres."""
        return self.packet.end


class Pair(NamedTuple):
    """Two aspects of a group, by which of them mostly ends first."""

    first: Case
    second: Case
    longer: int
    """By how much the second one is longer, in decimetres. It is 0 within the tolerance."""

    @property
    def names(self) -> Tuple[str, str]:
        """What the aspects are called."""
        return self.first.passage.aspect, self.second.passage.aspect

    @property
    def group(self) -> int:
        """The group that has both."""
        return id(self.first.passage.group)

    @property
    def is_staggered(self) -> bool:
        """Whether they might lead to signals beside each other, of two tracks: the ends are near for such lengths."""
        apart = abs(self.longer)
        return 0 < apart <= BESIDE and 2 * apart < min(self.first.end, self.second.end)

    @property
    def is_at_limit(self) -> bool:
        """Whether both end at one place, which the second one lets trains pass by a V_LOA above 0: a level border."""
        return self.longer == 0 and bool(self.second.packet.form["end_speed"])


class Order(NamedTuple):
    """In how many cases one aspect ends before another one, and of how many in which they end at two places."""

    most: int
    of_how_many: int
    equal: int
    """In how many other cases both end at one place."""
    fact: str
    """Which of the two ends first in each case."""


Counts = Dict[Tuple[str, str], Order]
"""By the names of two aspects."""


def cases_of(line: Line) -> List[List[Case]]:
    """The aspects of each group with several, together those of one direction."""
    cases: List[List[Case]] = []
    for data in line.decoded.controlled:
        by_direction: Dict[str, List[Case]] = {}
        for passage in data.passages:
            for packet in passage.of(AUTHORITY)[:1]:
                by_direction.setdefault(passage.direction, []).append(Case(passage, packet))
        cases += by_direction.values()
    return cases


def is_usual(count: int, of_how_many: int) -> bool:
    """Whether this number of cases shows what is meant in all cases."""
    return count >= LEAST and count * 5 >= of_how_many * 4


def pairs_of(options: Options, cases: Sequence[Sequence[Case]]) -> Mapping[Tuple[str, str], Sequence[Pair]]:
    """Each two aspects of a group with a V_MAIN above 0, by their names in the order of the alphabet.

    Names with too few cases to show an order are left out.
    """
    pairs: Dict[Tuple[str, str], List[Pair]] = {}
    least = tolerance(options)
    go = [[case for case in own if case.packet.form["v_main"]] for own in cases]
    counts = Counter(case.passage.aspect for own in go for case in own)
    for own in go:
        usual = [case for case in own if counts[case.passage.aspect] >= LEAST]
        moving = sorted(usual, key=lambda case: case.passage.aspect)
        parts = [(case.packet.end, allowance(case.packet, case.packet.lengths)) for case in moving]
        for (one, (end, allowed)), (other, (its_end, its_allowed)) in combinations(zip(moving, parts), 2):
            longer = its_end - end
            longer = 0 if abs(longer) <= least + allowed + its_allowed else longer
            pairs.setdefault((one.passage.aspect, other.passage.aspect), []).append(Pair(one, other, longer))
    return pairs


def _all_but_one(most: int, apart: Sequence[Pair]) -> bool:
    """Whether few cases show an order: all but one, if no two ends could be at signals beside each other."""
    return most >= LEAST and len(apart) == most + 1 and all(abs(pair.longer) > BESIDE for pair in apart)


def against_the_order(pairs: Mapping[Tuple[str, str], Sequence[Pair]], counts: Counts, left: Left) -> Iterator[Pair]:
    """The pairs that are not in the order of their names, the aspect first that mostly ends first.

    It counts the cases, and notes what is left. Equal ends show no order: they are remarked only if they are rare too.
    """
    for some in pairs.values():
        apart = [pair for pair in some if pair.longer]
        before, after = (sum(pair.longer * sign > 0 for pair in apart) for sign in (1, -1))
        most = max(before, after)
        ordered = some if before > after else [Pair(pair.second, pair.first, -pair.longer) for pair in some]
        contrary = [pair for pair in ordered if pair.longer < 0]
        if not (is_usual(most, len(apart)) or _all_but_one(most, apart)):
            left[NO_ORDER].update(pair.group for pair in (apart if before == after else contrary))
            continue
        left[STAGGERED].update(pair.group for pair in contrary if pair.is_staggered)
        at_signals = sum(not pair.is_at_limit for pair in ordered)
        fact = counted(f"{sender(pair.first.passage)} {pair.longer > 0}" for pair in ordered)
        counts[ordered[0].names] = Order(most, len(apart), len(some) - len(apart), fact)
        least = 0 if is_usual(most, at_signals) else -1
        yield from (p for p in ordered if p.longer <= least and not (p.is_at_limit or p.is_staggered))

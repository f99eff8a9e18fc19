"""E9: aspects in the wrong order.

What it says. The authorities of two proceed aspects of a signal end at the same distance, or in another order than in
most cases of the table. For example, yellow leads as far as green or farther at this signal, although yellow ends
before green at most signals. The rule rests on SUBSET-026, 3.8.
- The rule compares the ends of the packets 12 of each two proceed aspects of a group in one direction. A proceed aspect
  has a V_MAIN above 0. A case is a group that has both aspects in one direction.
- Most cases means at least three cases, and at least four of every five. A case in which both aspects end at the same
  distance shows no order and does not count.
- Three cases against one are enough if the two ends are more than 200 m apart in all four cases.
- Two ends against the order are not reported if they might be at signals beside each other. Then they are at most 200 m
  apart, and less than half as far as the shorter one is long. Their group is counted as not compared.
- Two aspects that end at the same distance are reported only if at least four of every five cases show the usual order.
  For this, the cases in which both aspects end at the same distance count too.
- Two aspects with equal ends are not reported, and their case does not count, if the aspect that mostly leads farther
  has a V_LOA above 0. A level border can be such a case.
- Two aspects that end at the same distance are not reported if all their packets for this direction are the same. Rule
  E7 reports such aspects instead.
- Two ends are at the same distance if they differ by at most `--tolerance` (default 1 m) and the rounding of lengths.
- The rule also reports an aspect with V_MAIN 0 if aspects of this name have a V_MAIN above 0 in most cases. In the same
  way it reports a V_MAIN above 0 if the name has V_MAIN 0 in most cases. Here a case is a group that has this aspect in
  one direction.
- Twice as many cases are enough for V_MAIN, at least three, if the group itself contradicts the aspect. It does so if
  another of its aspects has a V_MAIN above 0 instead of 0, or 0 instead of above 0. It also does so if all its aspects
  have a packet 12 with a V_MAIN above 0, so that none stops trains.
- If too few cases show the order of two aspects, or whether V_MAIN is 0, the groups against most others are counted as
  not compared.
- Aspects with a refused telegram do not count.

Why it matters. At worst the train gets wrong information. At yellow the train gets the authority of green, and might
run beyond a signal at danger. A red aspect with V_MAIN above 0 does not stop the train. A remark about two ends at the
same distance has the lowest urgency.

Example. Before (`examples/meaning/mistakes/E9.csv`): at Signal 3 "yellow" ends 3,000 m from the group and "green" 1,500
m, and in 5 of 6 cases "yellow" ends before "green". After: "yellow" ends 1,500 m from the group, and "green" 3,000 m.

When it is a false alarm. The rule assumes that an aspect name means the same at each signal. That is not so if a signal
uses a name in another way, or if the names are numbers of routes. In a group for both directions, an aspect might also
stop only the trains of one direction. The rule assumes that the more restrictive aspect ends first. Both aspects might
end at the same buffer stop. Or one aspect is for another track whose next signal is farther away, such as at a junction
or at staggered exit signals.

Usual cause. The telegrams of two aspects were exchanged, or their names were exchanged in the table.

How to correct it. Exchange the telegrams of the two aspects, or correct their names.

How to accept it. Name the routes of the two aspects, and the signals at which they end.

How sure. 86 %, by practice and memory of the standard.
"""
from __future__ import annotations

from collections import Counter
from typing import Dict, Iterator, List, Optional, Sequence, Set, Tuple

from balisekit.etcs.variables import metres
from balisekit.rules.line import Line
from balisekit.rules.meaning.aspect_pairs import (
    LEAST,
    NO_ORDER,
    STAGGERED,
    Case,
    Counts,
    Left,
    Pair,
    against_the_order,
    cases_of,
    pairs_of,
)
from balisekit.rules.meaning.sent import by_culprit, distance
from balisekit.rules.meaning.stop_names import NO_MAJORITY, stops
from balisekit.rules.rule import Options, Remark, Result, Rule, Urgency
from balisekit.tables.names import listed, quoted

NAMED = 5
RARE = "no aspect with a name that three cases have"


def find(line: Line, options: Options) -> Result:
    """Compares the aspects of each name over the table."""
    cases = cases_of(line)
    groups = {id(own[0].passage.group) for own in cases}
    counts = Counter(case.passage.aspect for own in cases for case in own)
    known = {id(own[0].passage.group) for own in cases if any(counts[case.passage.aspect] >= LEAST for case in own)}
    left: Left = {why: set() for why in (NO_MAJORITY, NO_ORDER, STAGGERED)}
    found = [*_ends(options, cases, left), *stops(cases, left)]
    lacks = {RARE: len(groups - known)}
    seen: Set[int] = set()
    for why, own in left.items():
        lacks[why] = len(own - seen)
        seen |= own
    return Result(found, len(known - seen), {why: count for why, count in lacks.items() if count}, is_optional=True)


def _ends(options: Options, cases: Sequence[Sequence[Case]], left: Left) -> Iterator[Remark]:
    """Authorities against the order that most cases show."""
    counts: Counts = {}
    wrong: Dict[Tuple[int, str], List[Pair]] = {}
    for pair in against_the_order(pairs_of(options, cases), counts, left):
        wrong.setdefault((pair.group, pair.first.passage.direction), []).append(pair)
    for some in wrong.values():
        yield from _of_group(some, counts)


def _of_group(some: Sequence[Pair], counts: Counts) -> Iterator[Remark]:
    """One remark for each aspect that is not where it should be, then those of equal ends."""
    contrary = {frozenset(pair.names): pair for pair in some if pair.longer < 0}
    for culprit, others in by_culprit([pair.names for pair in contrary.values()]):
        pair, *rest = (contrary[frozenset((culprit, other))] for other in others)
        more = f"; {quoted(culprit)} is not in order with {listed(list(map(quoted, others[1:])), NAMED)} either"
        made = _remark(pair, f"{_ends_words(pair)}, {_usually(pair, counts)}{more if rest else ''}")
        yield _resting_on(made, [pair, *rest], counts)
    for pair in some:
        if pair.longer == 0 and not _are_copies(pair):
            made = _remark(pair, f"{_ends_words(pair)}, which is equal, {_usually(pair, counts)}", Urgency.RULE_ONLY)
            yield _resting_on(made, [pair], counts)


def _resting_on(made: Remark, some: Sequence[Pair], counts: Counts) -> Remark:
    """The remark with all aspects that it compares, and the cases that show their order."""
    cases = [case for pair in some for case in (pair.first, pair.second)]
    compared = list(dict.fromkeys(case.passage.at(case.packet) for case in cases))
    return made._replace(compared=compared, facts=[counts[pair.names].fact for pair in some])


def _are_copies(pair: Pair) -> bool:
    """Whether both aspects say the same: then another rule names them."""
    one, other = ([packet.form for packet in case.passage.said] for case in (pair.first, pair.second))
    return one == other


def _ends_words(pair: Pair) -> str:
    ends = [
        f"{quoted(case.passage.aspect)} ends {metres(case.end)} from the group" for case in (pair.first, pair.second)
    ]
    return f"the authority of {ends[0]} and that of {ends[1]}"


def _usually(pair: Pair, counts: Counts) -> str:
    count, of_how_many, equal, _ = counts[pair.names]
    first, second = map(quoted, pair.names)
    words = f"and in {count} of {of_how_many} cases of the table that of {first} ends before that of {second}"
    return words + (f" (in {equal} more both end at one place)" if equal else "")


def _remark(pair: Pair, words: str, urgency: Optional[Urgency] = None) -> Remark:
    cases = sorted((pair.first, pair.second), key=lambda case: case.packet.row.number if case.packet.row else 0)
    where = pair.first.passage.at()
    values = {"first_end_m": distance(pair.first.end), "second_end_m": distance(pair.second.end)}
    rows = [case.packet.row.number for case in cases if case.packet.row]
    aspects = [case.passage.aspect for case in cases]
    marks = [(case.packet.row, where.direction, case.end) for case in cases]
    return Remark("E9", where, words, None, values, (), urgency, rows, aspects, marks)


RULE = Rule("E9", "groups with several aspects", __doc__ or "", find, Urgency.WRONG_INFORMATION)

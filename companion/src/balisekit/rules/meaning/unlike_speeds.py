"""V_MAIN beside the greatest V_STATIC, and beside V_MAIN of other signals, at aspects of one name. For E24."""
from __future__ import annotations

from collections import Counter
from typing import Dict, Iterator, List, Sequence, Tuple

from balisekit.rules.meaning.namesakes import (
    AUTHORITY,
    LEAST,
    MODES,
    Case,
    Cases,
    Differing,
    Odd,
    at_signals,
    is_slow_route,
    signals_of,
)
from balisekit.rules.meaning.sent import speed
from balisekit.rules.meaning.stop_and_go import FOR_EACH


def unlike_speeds(cases: Cases) -> Differing:
    """The V_MAIN that differ from what is usual at their aspect.

    An aspect with a mode profile is not compared with those that have none.
    """
    moving = [[case for case in own if case.speed] for own in cases.values()]
    moving = [[case for case in own if not _is_alone_with_mode(case, own)] for own in moving]
    pairs = [(own, list(_unlike(own))) for own in moving if signals_of(own) >= LEAST]
    unlike = [each for _, some in pairs for each in some]
    few = [each for own, some in pairs for each in some if _is_of_few(each, some, own)]
    odd = list(_odd(moving, few, unlike))
    known = {id(each.case) for each in odd}
    return Differing(odd, [each.case for each in unlike if id(each.case) not in known])


def _is_of_few(odd: Odd, some: Sequence[Odd], own: Sequence[Case]) -> bool:
    """Whether several times as many signals have what is usual. Several might have a low V_MAIN of their own."""
    count = signals_of([each.case for each in some])
    return FOR_EACH * count <= signals_of(own) - count and (count == 1 or odd.sent > odd.usual)


def _is_alone_with_mode(case: Case, own: Sequence[Case]) -> bool:
    """Whether an aspect has a packet 80, and less than half of the aspects of this name have one."""
    return case.first(MODES) is not None and 2 * sum(each.first(MODES) is not None for each in own) < len(own)


def _unlike(cases: Sequence[Case]) -> Iterator[Odd]:
    """The V_MAIN that are not the greatest V_STATIC, or not the most frequent one if fewer signals differ from that."""
    of_profile = [case for case in cases if case.speed != case.of_profile]
    counts = Counter(case.speed for case in cases)
    most = max(counts, key=counts.__getitem__)
    apart = [case for case in cases if case.speed != most]
    if signals_of(of_profile) <= signals_of(apart):
        yield from _unlike_profile(cases, of_profile)
    elif apart and of_profile:
        yield from _unlike_others(cases, apart, most)


def _unlike_profile(cases: Sequence[Case], few: Sequence[Case]) -> Iterator[Odd]:
    """The V_MAIN that are not the greatest V_STATIC. One that all others have may be that of the line."""
    usual = {case.speed for case in cases if case.speed == case.of_profile}
    others = _others(cases, few)
    for case in few:
        packet = case.first(AUTHORITY)
        if packet and case.of_profile and usual != {case.speed}:
            words = f"V_MAIN is {speed(case.speed)} and the greatest V_STATIC {speed(case.of_profile)}: {others}"
            yield Odd(case, packet, "v_main", f"{words} they are equal", case.speed, case.of_profile)


def _unlike_others(cases: Sequence[Case], few: Sequence[Case], most: int) -> Iterator[Odd]:
    """The V_MAIN that are not the most frequent one, nor a lower one that is the greatest V_STATIC."""
    others = _others(cases, few)
    for case in few:
        packet = case.first(AUTHORITY)
        if packet and (case.speed > most or case.speed != case.of_profile):
            words = f"V_MAIN is {speed(case.speed)}, and {speed(most)} {others}"
            yield Odd(case, packet, "v_main", words, case.speed, most)


def _others(cases: Sequence[Case], few: Sequence[Case]) -> str:
    """At how many other signals nothing differs."""
    return at_signals(signals_of(cases) - signals_of(few), signals_of(cases) - 1)


def _odd(moving: Sequence[Sequence[Case]], few: Sequence[Odd], unlike: Sequence[Odd]) -> Iterator[Odd]:
    """Those of few signals.

    Those that restrict a whole signal are left out. So are those that only differ from their speed profile, and that
    another aspect of the signal has too: then it is the profile that differs.
    """
    speeds: Dict[Tuple[int, str], List[int]] = {}
    for own in moving:
        for case in own:
            speeds.setdefault(case.signal, []).append(case.speed)
    signals = Counter(each.case.signal for each in unlike if not _is_slow(each))
    for each in few:
        signal = each.case.signal
        is_own = each.usual != each.case.of_profile or speeds[signal].count(each.sent) == 1
        is_lone = each.sent > each.usual or signals[signal] == 1 < len(speeds[signal])
        if is_own and is_lone and not _is_slow(each):
            yield each


def _is_slow(odd: Odd) -> bool:
    """Whether it may be the V_MAIN of a slow route."""
    return is_slow_route(odd.case, odd.key, odd.sent, odd.usual)

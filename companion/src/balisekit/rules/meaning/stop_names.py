"""V_MAIN 0 or above 0 against what most aspects of one name have. For E9."""
from __future__ import annotations

from typing import Collection, Dict, Iterator, List, Sequence, Tuple

from balisekit.rules.facts import counted, sender
from balisekit.rules.meaning.aspect_pairs import LEAST, Case, Left, is_usual
from balisekit.rules.meaning.sent import kmh, speed
from balisekit.rules.rule import Remark
from balisekit.tables.names import listed, quoted

NO_MAJORITY = "V_MAIN of an aspect is 0, or above 0, unlike at most groups, which are too few"
"""Why the V_MAIN of an aspect of a group is not compared."""
TWICE, NAMED = 2, 5
"""How many times as many cases are enough if their group contradicts an aspect too, and how many aspects are named."""
ByName = Dict[str, Tuple[List[Case], List[Case]]]
"""The cases of each name with V_MAIN 0, and those with a V_MAIN above 0."""


def stops(cases: Sequence[Sequence[Case]], left: Left) -> Iterator[Remark]:
    """The aspects with V_MAIN 0, or above 0, against most others of their name. It notes what is left."""
    by_name: ByName = {}
    for own in cases:
        for case in own:
            by_name.setdefault(case.passage.aspect, ([], []))[_moves(case)].append(case)
    rare = [(few, others) for some in by_name.values() for few, others in (some, some[::-1]) if len(few) <= len(others)]
    odd = {case.passage for few, _ in rare for case in few}
    siblings = {id(case.passage): own for own in cases for case in own if case.passage in odd}
    for few, others in rare:
        count, of_how_many = len(others), len(few) + len(others)
        are_usual = is_usual(count, of_how_many)
        for case in few:
            words = "" if are_usual else _contradiction(case, siblings[id(case.passage)], odd)
            if are_usual or words and count >= max(LEAST, TWICE * len(few)):
                yield _stop(case, others, of_how_many, words)
            elif of_how_many >= LEAST:
                left[NO_MAJORITY].add(id(case.passage.group))


def _moves(case: Case) -> bool:
    """Whether its V_MAIN is above 0."""
    return bool(case.packet.form["v_main"])


def _contradiction(case: Case, siblings: Sequence[Case], odd: Collection[object]) -> str:
    """What else in the group shows that V_MAIN is wrong: another aspect has the contrary, or no aspect stops trains."""
    contrary = [each for each in siblings if each.passage in odd and _moves(each) != _moves(case)]
    if contrary:
        names = listed([quoted(each.passage.aspect) for each in contrary], NAMED)
        here, most = ("0", "above 0") if _moves(case) else ("above 0", "0")
        return f"; V_MAIN of {names} is {here} here, and {most} in most cases"
    group = case.passage.group
    is_complete = group is not None and len(siblings) == len(group.group.group.aspects)
    return "; no aspect of this group has V_MAIN 0" if is_complete and all(map(_moves, siblings)) else ""


def _stop(case: Case, others: Sequence[Case], of_how_many: int, more: str) -> Remark:
    main, usual = case.packet.form["v_main"], "0" if _moves(case) else "above 0"
    words = (
        f"V_MAIN of the aspect {quoted(case.passage.aspect)} is {speed(main)}, and in {len(others)} of {of_how_many} "
        f"cases of the table it is {usual}{more}"
    )
    where, fact = case.passage.at(case.packet), counted(sender(each.passage) for each in others)
    values, marks = {"v_main_kmh": kmh(main)}, [(where.row, where.direction, 0)]
    return Remark("E9", where, words, values=values, marks=marks, facts=[fact])

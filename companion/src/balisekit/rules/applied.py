"""What rules have found of a line, and what they could not look at."""
from __future__ import annotations

from dataclasses import dataclass
from functools import cached_property
from typing import Callable, Dict, Iterator, Mapping, Sequence, Tuple

from balisekit.rules.line import Line
from balisekit.rules.location import BaliseGroup
from balisekit.rules.passed_over import Find, PassedOver, nothing
from balisekit.rules.rule import Field, Options, Remark, Result, Rule

BY_FIELD = ("E2", "E10", "E13", "E15")
"""Rules that may remark on one field. A remark names the first of them that blames a field of it."""
FOLLOWS = {"E10": 3, "E12": 3, "E19": 1}
"""The rule of the program whose findings may be the cause of a remark of the same rows."""
Notes = Callable[[Line], Iterator[str]]


def no_notes(line: Line) -> Iterator[str]:
    """The notes on a line of which rules say nothing but what their results have."""
    return iter(())


@dataclass(frozen=True)
class Applied:
    """What rules have found of a line, and what they could not look at."""

    line: Line
    results: Mapping[Rule, Result]
    notes: Tuple[str, ...] = ()
    passed_over: Tuple[PassedOver, ...] = ()
    """The groups and messages that some of the rules have not looked at. The notes name them too."""

    @cached_property
    def remarks(self) -> Sequence[Remark]:
        """All that was found, by the order of the table."""
        found = [remark for result in self.results.values() for remark in result.found]
        return sorted(found, key=lambda each: (*each.location.order, each.rule))

    @property
    def empty(self) -> Sequence[Rule]:
        """The rules that had something to compare, and compared none of it."""
        return [rule for rule, result in self.results.items() if result.is_empty]


def look_for(
    line: Line, options: Options, rules: Sequence[Rule], notes: Notes = no_notes, passed_over: Find = nothing
) -> Applied:
    """Applies these rules to a line."""
    results = dict(results_of(line, options, rules))
    said = (*notes(line), *(note for result in results.values() for note in result.notes))
    return Applied(line, results, said, tuple(passed_over(line)))


def results_of(line: Line, options: Options, rules: Sequence[Rule]) -> Iterator[Tuple[Rule, Result]]:
    """What each of these rules has found, one rule after the other.

    Remarks on a field of a row that an earlier rule blames say so: one correction may be enough for both.
    """
    blamed: Dict[Field, str] = {}
    for rule in rules:
        result = _with_causes(line, rule, rule.find(line, options))
        if rule.name in BY_FIELD:
            result = result._replace(found=[_with_field(each, blamed) for each in result.found])
            for field in (field for each in result.found for field in each.blamed):
                blamed.setdefault(field, rule.name)
        yield rule, result


def _with_field(remark: Remark, blamed: Mapping[Field, str]) -> Remark:
    """The same remark, and which rule blames a field of it."""
    field = next((each for each in (*remark.blamed, *remark.beside) if each in blamed), None)
    if field is None:
        return remark
    words = f"; {blamed[field]} is about the same {field[2].upper()} of row {field[0]}, and may be the cause"
    return remark._replace(sentence=f"{remark.sentence}{words}: look there first")


def _with_causes(line: Line, rule: Rule, result: Result) -> Result:
    """The same result. Remarks that may follow from a finding of the program say so."""
    number = FOLLOWS.get(rule.name, 0)
    suspects = [group for group in line.groups if line.has(number, group)] if number and result.found else []
    if not suspects:
        return result
    return result._replace(found=[_with_cause(line, number, suspects, each) for each in result.found])


def _with_cause(line: Line, number: int, suspects: Sequence[BaliseGroup], remark: Remark) -> Remark:
    """The same remark, and which groups of its rows have that finding."""
    rows = {*remark.rows, *remark.others, *([remark.location.row.number] if remark.location.row else [])}
    groups = [group for group in suspects if not rows.isdisjoint(row.number for row in group.group.rows())]
    return remark._replace(sentence=remark.sentence + line.cause(number, *groups)) if groups else remark

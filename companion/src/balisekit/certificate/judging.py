"""Whether a check finds a change of a line: the entries of the changed line against those of the line."""
from __future__ import annotations

import re
from collections import Counter
from dataclasses import dataclass
from datetime import date
from enum import Enum
from itertools import chain
from typing import Any, FrozenSet, Iterator, Mapping, NamedTuple, Optional, Sequence, Tuple

from balisekit.certificate.changed_table import changed_messages, changed_table
from balisekit.engine.program import Program
from balisekit.errors import TableError, TableErrors
from balisekit.mistakes.mistake import Change
from balisekit.rules import checking
from balisekit.rules.accepted import Entries
from balisekit.rules.entries import Entry
from balisekit.rules.families import Outcome, apply
from balisekit.rules.remarks import remarks
from balisekit.rules.rule import REFUSED, Options
from balisekit.tables.model import Messages, Table

NUMBER = re.compile("[0-9]+")
QUOTED = re.compile('"[^"]*"')
SPAN = re.compile(r"\brows? ([0-9]+)(?: to ([0-9]+))?((?:, [0-9]+)*(?: and [0-9]+\b(?! more))?)")
"""Rows in a sentence: `row 7`, `rows 7 to 9`, `rows 7, 8 and 11`."""


class Answer(Enum):
    """What a check says of a change."""

    FOUND = "found"
    """A new open entry or a refusal names a row to correct."""
    ELSEWHERE = "elsewhere"
    """There is a new open entry or a refusal, and all of them name other rows."""
    HINTED = "hinted"
    """Only a note or a line `look:` is new."""
    NOT_FOUND = "not found"
    """The answer is the same."""
    LEGAL = "legal"
    """The changed line is as right as the line was, and the check says nothing new of it."""
    UNFIT = "does not fit"
    """The program cannot write the changed telegram, so that nobody can make this mistake."""


class Judgement(NamedTuple):
    """What a check says of one change."""

    answer: Answer
    rules: Tuple[str, ...] = ()
    """The rules of the new entries, or `refused`. Those that name a row to correct, if there are any."""
    sentence: str = ""
    """The first of these entries."""


class Named(NamedTuple):
    """An open entry or a refusal, by what an engineer reads of it."""

    rule: str
    sentence: str
    rows: FrozenSet[int]
    """A negative number is the line of a message."""
    place: Tuple[Any, ...] = ()
    """Its group, aspects, direction and message."""


@dataclass(frozen=True)
class Judge:
    """How a line is judged: always in the way in which the line itself was."""

    letters: Sequence[str]
    options: Options
    signed: Optional[Tuple[Entries, date]] = None
    """The accepted entries, and the day of the run."""
    by_position: bool = False
    everything: bool = False

    def outcome(
        self, program: Program, table: Table, messages: Optional[Messages], with_causes: bool = True
    ) -> Outcome:
        """What all rules find of a changed line. The search for causes takes most of the time."""
        made = checking.check(program, table, messages, self.by_position, self.everything)
        return apply(made, self.letters, self.options, self.signed, with_causes=with_causes)


class Baseline:
    """The line as it was judged before a change."""

    def __init__(self, outcome: Outcome, judge: Judge) -> None:
        self.outcome, self.judge = outcome, judge
        self._named = {with_causes: Counter(_named(outcome, with_causes)) for with_causes in (False, True)}
        self._findings = Counter(_findings(outcome))
        self._hints = Counter(_hints(outcome))

    def judgement(self, change: Change, texts: Mapping[int, str]) -> Judgement:
        """What the check says of a change. `texts` has the new digits of telegrams, by row.

        A change that means the same counts all the same if the check says anything new. It also counts if only the
        program does, whose findings F may be expected, accepted or left out: a train may lack data then.
        """
        try:
            checked = self.outcome.checked
            table = changed_table(checked.table, change, texts, self.judge.by_position)
            messages = changed_messages(checked.messages, change, texts)
            judgement = self._judgement(change, table, messages, with_causes=False)
            # (an entry that stands for others names all rows that these name, and those of its correction)
            if judgement.answer is Answer.ELSEWHERE:
                judgement = self._judgement(change, table, messages, with_causes=True)
            return judgement
        except (TableError, TableErrors) as error:
            refused = [Named(REFUSED, str(fault), rows_of_refusal(fault)) for fault in error.faults]
            return _said(change, refused, ())

    def _judgement(self, change: Change, table: Table, messages: Optional[Messages], with_causes: bool) -> Judgement:
        """What the answer about a changed line says of the change, compared with the same of the line itself."""
        outcome = self.judge.outcome(self.outcome.checked.program, table, messages, with_causes)
        new = list((Counter(_named(outcome, with_causes)) - self._named[with_causes]).elements())
        judgement = _said(change, new, self._new_hints(Counter(_hints(outcome))))
        if change.legal and judgement.answer is Answer.NOT_FOUND and not Counter(_findings(outcome)) - self._findings:
            return Judgement(Answer.LEGAL, sentence=change.legal)
        return judgement

    def _new_hints(self, hints: Counter[str]) -> Sequence[str]:
        """The hints that the line did not have. One that differs from a hint of the line only in numbers is not new."""
        counts = Counter(NUMBER.sub("0", each) for each in (self._hints - hints).elements())
        new = [(NUMBER.sub("0", each), each) for each in (hints - self._hints).elements()]
        counts.subtract(words for words, _ in new)
        return [each for words, each in new if counts[words] < 0]


def _said(change: Change, new: Sequence[Named], hints: Sequence[str]) -> Judgement:
    """The judgement by the new entries and the new hints."""
    here = [each for each in new if not each.rows.isdisjoint(change.rows | change.lost)]
    if here or new:
        answer = Answer.FOUND if here else Answer.ELSEWHERE
        rules = tuple(sorted({each.rule for each in here or new}))
        return Judgement(answer, rules, (here or new)[0].sentence)
    return Judgement(Answer.HINTED, (), hints[0]) if hints else Judgement(Answer.NOT_FOUND)


def _named(outcome: Outcome, with_causes: bool) -> Iterator[Named]:
    """The open entries of an answer, and what was refused. What is expected on correct data is not among them.

    Without causes an entry that stands for others is not there, and these are.
    """
    entries = chain.from_iterable((entry,) if with_causes else entry.folded or (entry,) for entry in outcome.entries)
    for entry in entries:
        if not entry.expected and not outcome.acceptances(entry):
            yield Named(entry.rule, entry.sentence, _rows(entry), _place(entry))
    for each in outcome.checked.refused:
        yield Named(REFUSED, each.refusal.text, frozenset({each.row.number}))
    for message in outcome.checked.refused_messages:
        yield Named(REFUSED, message.refusal.text, frozenset({-message.message.number}))


def _findings(outcome: Outcome) -> Iterator[Tuple[Any, ...]]:
    """All findings of the program, whether or not anybody has asked for them."""
    for each in outcome.checked.findings:
        numbers = (each.row and each.row.number, each.message and each.message.number)
        place = (each.group and each.group.name, each.aspect, each.finding.direction, *numbers)
        yield each.finding.rule, str(each.statement), place


def rows_of_refusal(fault: TableError) -> FrozenSet[int]:
    """The rows that the refusal of a table names: its own, and others in its sentence, but not in quoted cells."""
    spans = SPAN.findall(QUOTED.sub("", fault.why))
    others = (row for first, last, more in spans for row in (*range(int(first), int(last or first) + 1), *_all(more)))
    return frozenset({fault.row or 0, *others})


def _all(numbers: str) -> Iterator[int]:
    """The numbers of a list: `, 7 and 9`."""
    return map(int, NUMBER.findall(numbers))


def _rows(entry: Entry) -> FrozenSet[int]:
    """The rows that an entry names, and its message as a negative number."""
    return frozenset({*entry.rows, *entry.other_rows, *([-entry.message.number] if entry.message else [])})


def _place(entry: Entry) -> Tuple[Any, ...]:
    """What tells an entry from others with the same sentence."""
    group = entry.group.name if entry.group else None
    return group, entry.aspects, entry.direction, entry.message.number if entry.message else None


def _hints(outcome: Outcome) -> Iterator[str]:
    """The notes of an answer, its lines `look:`, and why entries are at fault that would else accept something."""
    yield from outcome.checked.table.notes
    for part in outcome.parts:
        yield from part.applied.notes if part.applied else ()
        yield from (f"{rule.name} has compared nothing" for rule in part.empty)
    yield from remarks(outcome.checked.table)
    judged = outcome.judged
    yield from (why for entry, why in judged.faults if not entry.faults(judged.day)) if judged else ()

"""A certificate: how many mistakes of each kind, and in each field, a check would find on a line."""
from __future__ import annotations

from collections import Counter
from dataclasses import dataclass
from typing import Callable, Dict, FrozenSet, Iterable, List, Mapping, NamedTuple, Optional, Sequence, Tuple

from balisekit.certificate.judging import Answer, Baseline, Judge, Judgement
from balisekit.certificate.trials import Trial, judgements, trials
from balisekit.mistakes import catalogue
from balisekit.mistakes.original import Original
from balisekit.rules.families import Outcome

COUNTED = (Answer.FOUND, Answer.ELSEWHERE, Answer.HINTED, Answer.NOT_FOUND)
"""The answers that say how good a check is."""

FIELDS = "fields"
"""The folder of the kinds of mistakes that change a field."""


class Score(NamedTuple):
    """How many changes a check finds."""

    answers: Mapping[Answer, int]
    rules: Sequence[str] = ()
    """The rules that find them, those that find most first."""
    example: Optional[Tuple[Trial, Judgement]] = None
    """One of the changes: one that is not found, if there is any."""

    @property
    def tried(self) -> int:
        """The changes that something should find."""
        return sum(self.answers.get(each, 0) for each in COUNTED)

    @property
    def found(self) -> int:
        """Those of which an entry names a row to correct."""
        return self.answers.get(Answer.FOUND, 0)

    @property
    def share(self) -> Optional[int]:
        """How many of 100 are found, rounded down. None if none was tried."""
        return 100 * self.found // self.tried if self.tried else None


@dataclass(frozen=True)
class Certificate:
    """What a check would find on a line."""

    outcome: Outcome
    """What the check finds of the line as it is."""
    judged: Sequence[Tuple[Trial, Judgement]]
    """Each change of each kind. Several kinds can make the same change, with the same judgement."""
    not_tried: int
    """The changes for which the time was too short."""
    per_kind: int
    seed: int

    @property
    def whole(self) -> Score:
        """All changes together, each of them once."""
        return score(_once(self.judged))

    def by_kind(self) -> Dict[str, Score]:
        """The changes of each kind."""
        return _by(self.judged, lambda trial: trial.mistake.name)

    def by_field(self) -> Dict[str, Score]:
        """The changes of each variable, by packet and name, each of them once."""
        of_fields = _once(each for each in self.judged if each[0].mistake.folder == FIELDS)
        return _by(of_fields, lambda trial: trial.change.field)

    @property
    def not_seen(self) -> List[str]:
        """The variables of which no change was found, although at least one was tried."""
        return [field for field, each in self.by_field().items() if each.tried and not each.found]


def certificate(
    outcome: Outcome,
    judge: Judge,
    per_kind: int,
    seed: int,
    seconds: Optional[float] = None,
    tell: Callable[[int, int], None] = lambda done, count: None,
) -> Certificate:
    """Makes the mistakes of the catalogue in a line that was judged, and judges each of them.

    `tell` is called with the number of changes that are done, and with that of all.
    """
    made = trials(Original(outcome.checked), per_kind, seed)
    places = {trial.edit: place for place, trial in reversed([*enumerate(made)])}
    different = [made[place] for place in sorted(places.values())]
    done = judgements(Baseline(outcome, judge), different, seconds, lambda count: tell(count, len(different)))
    answers = {different[place].edit: judgement for place, judgement in done.items()}
    judged = [(trial, answers[trial.edit]) for trial in made if trial.edit in answers]
    return Certificate(outcome, judged, len(different) - len(done), per_kind, seed)


def kinds_of_fields() -> FrozenSet[str]:
    """The kinds of mistakes that are counted by fields too."""
    return frozenset(mistake.name for mistake in catalogue() if mistake.folder == FIELDS)


def score(judged: Sequence[Tuple[Trial, Judgement]]) -> Score:
    """The score of some changes."""
    rules = Counter(rule for _, each in judged for rule in each.rules if each.answer is Answer.FOUND)
    counted = [each for each in judged if each[1].answer in COUNTED]
    worst = max(counted, key=lambda each: COUNTED.index(each[1].answer), default=None)
    return Score(Counter(each.answer for _, each in judged), [rule for rule, _ in rules.most_common()], worst)


def _once(judged: Iterable[Tuple[Trial, Judgement]]) -> List[Tuple[Trial, Judgement]]:
    """Each change once, as the first of the kinds that make it."""
    found: Dict[object, Tuple[Trial, Judgement]] = {}
    for each in judged:
        found.setdefault(each[0].edit, each)
    return list(found.values())


def _by(judged: Sequence[Tuple[Trial, Judgement]], key: Callable[[Trial], str]) -> Dict[str, Score]:
    """The scores by a key of the trials, the lowest share first."""
    groups: Dict[str, List[Tuple[Trial, Judgement]]] = {}
    for each in judged:
        groups.setdefault(key(each[0]), []).append(each)
    scores = {name: score(some) for name, some in groups.items()}
    return dict(sorted(scores.items(), key=lambda item: (item[1].share is None, item[1].share or 0, item[0])))

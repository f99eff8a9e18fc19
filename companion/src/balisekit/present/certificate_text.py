"""A certificate in words and as a page: what would not be found comes first."""
from __future__ import annotations

from datetime import datetime
from typing import Iterator, List, Mapping, Sequence, Tuple

from balisekit.certificate.certificate import Certificate, Score
from balisekit.certificate.judging import Answer, Judgement
from balisekit.certificate.trials import Trial
from balisekit.io import clock
from balisekit.present import NOT_PROVED
from balisekit.present.check_text import head_line
from balisekit.present.opening import opening_of, paths_from, program_words, settings_words
from balisekit.present.outcome_text import about_inputs, missing
from balisekit.present.pages import pieces
from balisekit.tables.names import clean

ABOUT = f"mistakes are made and counted by balisekit; {NOT_PROVED}"
NO_STATEMENT = "This says nothing about mistakes that are not in the catalogue, or about two mistakes at once."
NAMED = 12
"""How many variables without a change that is found are named in the last line."""
RULES = 4
"""How many rules are named in a row: those that find most. The JSON has all."""
HEADINGS = ("tried", "found", "elsewhere", "hinted", "not found", "found %")


def lines(made: Certificate, written: Sequence[str] = ()) -> Iterator[str]:
    """The certificate in words. `written` says which examples are in files."""
    checked = made.outcome.checked
    yield head_line(checked.table)
    yield from opening_of(checked.program, checked.settings)
    yield from about_inputs(made.outcome)
    yield ABOUT
    for name, example in survivors(made):
        yield f"{example[1].answer.value}: {name}: {clean(example[0].change.words)}"
        yield from [f"    {clean(example[1].sentence)}"] if example[1].sentence else []
    yield from _table("kind of mistake", made.by_kind())
    yield from _table("variable", made.by_field())
    yield from written
    yield from counted_apart(made)
    yield NO_STATEMENT
    yield last_line(made)


def last_line(made: Certificate) -> str:
    """How good the check of this line is, in one line: for the cover of a report too."""
    kinds = sum(1 for score in made.by_kind().values() if score.tried)
    return line_of(made.whole, kinds, made.not_tried, made.not_seen, missing(made.outcome))


def line_of(whole: Score, kinds: int, not_tried: int, not_seen: Sequence[str], lacks: Sequence[str]) -> str:
    """The last line by its figures: of all changes, how many kinds were tried, and which variables are not seen.

    It begins with INCOMPLETE and the reasons if an answer of `check` would: then the status is 2.
    """
    elsewhere, hinted = (whole.answers.get(each, 0) for each in (Answer.ELSEWHERE, Answer.HINTED))
    found = f"{whole.found:,} ({whole.share} %)" if whole.tried else "none"
    text = f"of {whole.tried:,} changes of {kinds} kinds this check would find {found}"
    text += f", {elsewhere:,} elsewhere" if elsewhere else ""
    text += f", and hint at {hinted:,}" if hinted else ""
    text += f"; {not_tried:,} more were not tried, because the time was over" if not_tried else ""
    named = ", ".join(not_seen[:NAMED]) + (f" and {len(not_seen) - NAMED} more" if len(not_seen) > NAMED else "")
    text = f"INCOMPLETE: {', '.join(lacks)}; {text}" if lacks else text
    return f"{text}; not seen: {named}" if not_seen else text


def survivors(made: Certificate) -> List[Tuple[str, Tuple[Trial, Judgement]]]:
    """One change of each kind that is not always found, so that a reader can look at it."""
    examples = ((name, score.example) for name, score in made.by_kind().items())
    return [(name, each) for name, each in examples if each and each[1].answer is not Answer.FOUND]


def _table(title: str, scores: Mapping[str, Score]) -> Iterator[str]:
    """A row for each kind or variable, the lowest share first."""
    rows = tried_ones(scores)
    width = max([len(title), *(len(name) for name, _ in rows)])
    yield f"{title:{width}}  {'  '.join(HEADINGS)}  rules"
    for name, score in rows:
        figures = "  ".join(f"{text:>{len(heading)}}" for heading, text in zip(HEADINGS, cells(score)))
        yield f"{name:{width}}  {figures}  {_rules(score)}".rstrip()


def _rules(score: Score) -> str:
    """The rules that find most, and how many others there are."""
    more = len(score.rules) - RULES
    return " ".join(score.rules[:RULES]) + (f" and {more} more" if more > 0 else "")


def tried_ones(scores: Mapping[str, Score]) -> List[Tuple[str, Score]]:
    """The kinds or variables of which at least one change was tried."""
    return [(name, score) for name, score in scores.items() if score.tried]


def cells(score: Score) -> List[str]:
    """The figures of a row."""
    answers = (Answer.FOUND, Answer.ELSEWHERE, Answer.HINTED, Answer.NOT_FOUND)
    return [str(score.tried), *(str(score.answers.get(each, 0)) for each in answers), str(score.share)]


def counted_apart(made: Certificate) -> Iterator[str]:
    """The changes that are in no table."""
    legal, unfit = (made.whole.answers.get(each, 0) for each in (Answer.LEGAL, Answer.UNFIT))
    if legal:
        yield f"counted apart: {legal:,} changes that leave the line as right as it was"
    if unfit:
        yield f"counted apart: {unfit:,} changes that the program cannot write"


def page(made: Certificate, now: datetime) -> Iterator[str]:
    """The certificate as a page in the style of the report."""
    checked = made.outcome.checked
    shown = paths_from(checked)
    return pieces(
        "certificate.html",
        ["palette.css", "page.css", "certificate.css"],
        made=made,
        date=clock.stamp(now),
        table=clean(shown(checked.table.path)),
        program=program_words(checked.program),
        settings=settings_words(checked.settings, shown),
        about_inputs=about_inputs(made.outcome, shown),
        last_line=last_line(made),
        not_proved=ABOUT[0].upper() + ABOUT[1:],
        no_statement=NO_STATEMENT,
        counted_apart=list(counted_apart(made)),
        survivors=survivors(made),
        tables=(("By kind of mistake", tried_ones(made.by_kind())), ("By variable", tried_ones(made.by_field()))),
        headings=HEADINGS,
        cells=cells,
    )

"""The changes that a certificate tries in a line, and what the check says of each of them."""
from __future__ import annotations

import os
import signal
import time
from contextlib import contextmanager
from itertools import chain, islice, zip_longest
from multiprocessing import Pipe, get_context
from multiprocessing.connection import Connection, wait
from multiprocessing.process import BaseProcess
from random import Random
from typing import Callable, Dict, Iterator, List, Mapping, NamedTuple, Optional, Sequence, Tuple, cast

from balisekit.certificate.judging import Answer, Baseline, Judgement
from balisekit.certificate.same_meaning import same_meaning
from balisekit.engine.program import Program, Text
from balisekit.errors import NoAnswer, held
from balisekit.io.workers import end_with_parent
from balisekit.mistakes import catalogue
from balisekit.mistakes.mistake import Change, Mistake
from balisekit.mistakes.original import Original

PART = 8
"""The changes that a process judges before it reports."""
MOST_PROCESSES = 4


class Trial(NamedTuple):
    """A mistake as it is made in a line."""

    mistake: Mistake
    change: Change
    texts: Mapping[int, str]
    """The digits of the changed telegrams and messages: by row, or by line as a negative number."""
    fits: bool = True
    """Whether the program can write all of them."""

    @property
    def edit(self) -> Tuple[object, ...]:
        """What identifies the change in the line: several kinds of mistakes can make the same one."""
        change = self.change
        cells = tuple((row, tuple(sorted(own.items()))) for row, own in sorted(change.cells.items()))
        digits = tuple(sorted(self.texts.items())) if self.fits else change.words
        return change.rows, change.lost, cells, digits


def trials(original: Original, per_kind: int, seed: int, kinds: Optional[Sequence[Mistake]] = None) -> List[Trial]:
    """The changes of all kinds, or of these, in turn: at most `per_kind` of a kind, or of a kind in each field.

    The same line and the same seed give the same changes.
    """
    made = [
        [
            (mistake, change._replace(legal=change.legal or same_meaning(original, change)))
            for change in mistake.make(original, Random(f"{seed} {mistake.name}"), per_kind)
        ]
        for mistake in (catalogue() if kinds is None else kinds)
    ]
    in_turn = [each for each in chain.from_iterable(zip_longest(*made)) if each is not None]
    found = list(_encoded(original.checked.program, in_turn))
    legal = {each.edit: each.change.legal for each in found if each.change.legal}
    return [each._replace(change=each.change._replace(legal=legal.get(each.edit, ""))) for each in found]


def _encoded(program: Program, made: Sequence[Tuple[Mistake, Change]]) -> Iterator[Trial]:
    """The same with the telegrams and messages as the program writes them."""
    texts, radio = (
        program.encode(
            [form for _, change in made for place, form in change.forms.items() if (place < 0) == is_radio], is_radio
        )
        for is_radio in (False, True)
    )
    for mistake, change in made:
        answers = {place: next(radio if place < 0 else texts) for place in change.forms}
        fits = all(isinstance(answer, Text) for answer in answers.values())
        written = {place: answer.line for place, answer in answers.items() if isinstance(answer, Text)}
        yield Trial(mistake, change, {**written, **change.texts}, fits)


def judgements(
    baseline: Baseline, tried: Sequence[Trial], seconds: Optional[float], tell: Callable[[int], None]
) -> Dict[int, Judgement]:
    """What the check says of each trial, by its place in the list. Those that the time is too short for are absent.

    `tell` is called with the number of trials that are done. Each process judges at least one part.
    """
    end = None if seconds is None else time.monotonic() + seconds
    parts = iter([range(first, min(first + PART, len(tried))) for first in range(0, len(tried), PART)])
    done: Dict[int, Judgement] = {}
    with _processes(baseline, tried) as idle:
        busy = _handed(idle, parts)
        while busy:
            for each in wait(busy):
                assert isinstance(each, Connection)
                done.update(_answer(each))
                busy.remove(each)
                idle.append(each)
            tell(len(done))
            if end is None or time.monotonic() < end:
                busy += _handed(idle, parts)
    return done


def _handed(idle: List[Connection], parts: Iterator[range]) -> List[Connection]:
    """The idle processes that have a part to judge from now on."""
    busy = []
    for part in islice(parts, len(idle)):
        busy.append(idle.pop())
        busy[-1].send(part)
    return busy


def _answer(process: Connection) -> Dict[int, Judgement]:
    """What a process says of its part. What it raised is raised here."""
    try:
        answer = process.recv()
    except (EOFError, ConnectionError) as error:
        raise NoAnswer("a process that judges changes has ended too early: memory may have run out") from error
    if isinstance(answer, BaseException):
        raise answer
    return cast(Dict[int, Judgement], answer)


@contextmanager
def _processes(baseline: Baseline, tried: Sequence[Trial]) -> Iterator[List[Connection]]:
    """Processes that judge parts of the trials: as many as can be started. They end with the block.

    Each is a copy of this one, so only the places of the trials are handed over. No thread takes part: one that cannot
    start would let this process wait without end.
    """
    started: List[BaseProcess] = []
    found: List[Connection] = []
    try:
        for _ in range(min(MOST_PROCESSES, len(os.sched_getaffinity(0)))):
            try:
                with held():
                    found.append(_begun(baseline, tried, started))
            except OSError as error:
                if not found:
                    raise NoAnswer(f"no process can be started: {error.strerror}") from error
                break
        yield found
    finally:
        for process in started:
            process.kill()
            process.join()


def _begun(baseline: Baseline, tried: Sequence[Trial], started: List[BaseProcess]) -> Connection:
    """The connection to one more process, which is added to those that were started."""
    ours, theirs = Pipe()
    try:
        process = get_context("fork").Process(target=_serve, args=(theirs, baseline, tried))
        process.start()
        started.append(process)
    finally:
        theirs.close()
    return ours


def _serve(connection: Connection, baseline: Baseline, tried: Sequence[Trial]) -> None:
    """Judges each part that comes. Signals end the process that started this one, and that ends this one."""
    end_with_parent()
    for number in (signal.SIGINT, signal.SIGTERM, signal.SIGHUP):
        signal.signal(number, signal.SIG_IGN)
    while True:
        part = connection.recv()
        try:
            connection.send({place: judged(baseline, tried[place]) for place in part})
        except Exception as error:  # (what the process that started this one then raises)
            connection.send(error)


def judged(baseline: Baseline, trial: Trial) -> Judgement:
    """What the check says of one trial."""
    return baseline.judgement(trial.change, trial.texts) if trial.fits else Judgement(Answer.UNFIT)

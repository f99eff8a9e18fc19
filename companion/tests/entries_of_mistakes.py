"""How many entries a mistake gets, and whether the first one is at a row to correct.

`python3 companion/tests/entries_of_mistakes.py` makes one mistake of each kind of the catalogue on each line of the
examples, and prints the figures. With the word `all` it also lists each change.
"""
from __future__ import annotations

import os
import sys
from collections import Counter
from concurrent.futures import ProcessPoolExecutor
from multiprocessing import get_context
from pathlib import Path
from random import Random
from typing import FrozenSet, Iterator, List, NamedTuple, Sequence, Tuple

HERE = Path(__file__).resolve().parent
sys.path.insert(0, str(HERE.parent / "src"))

from balisekit.certificate.changed_table import changed_messages, changed_table  # noqa: E402  (the path comes first)
from balisekit.certificate.judging import Judge, rows_of_refusal  # noqa: E402
from balisekit.certificate.trials import Trial, trials  # noqa: E402
from balisekit.engine.program import Program  # noqa: E402
from balisekit.errors import TableError, TableErrors  # noqa: E402
from balisekit.mistakes.original import Original  # noqa: E402
from balisekit.rules.families import FAMILIES, Outcome  # noqa: E402
from balisekit.rules.rule import Options  # noqa: E402
from balisekit.tables import reader  # noqa: E402

EXAMPLES = HERE.parents[1] / "examples"
LINES = ("table/line.csv", "meaning/line.csv", "meaning/level-border.csv", "meaning/both-directions.csv")
SEED = 1
JUDGE = Judge(tuple(FAMILIES), Options())
Key = Tuple[object, ...]


class Shown(NamedTuple):
    """An open entry or a refusal of an answer: what tells it from others, and its rows."""

    key: Key
    rows: FrozenSet[int]


class Found(NamedTuple):
    """What a check shows of one mistake."""

    line: str
    kind: str
    words: str
    entries: Sequence[Shown]
    """The new ones, in the order of the answer."""
    rows: FrozenSet[int]
    """Those to correct."""

    @property
    def is_at_row(self) -> bool:
        """Whether the first entry is at a row to correct."""
        return not self.entries[0].rows.isdisjoint(self.rows)

    @property
    def names_row(self) -> bool:
        """Whether any entry is."""
        return any(not each.rows.isdisjoint(self.rows) for each in self.entries)


def shown(outcome: Outcome) -> Iterator[Shown]:
    """What an engineer has to look at, in the order of the answer."""
    for refused in outcome.checked.refused:
        yield Shown(("refused", refused.refusal.text), frozenset({refused.row.number}))
    for message in outcome.checked.refused_messages:
        yield Shown(("refused", message.refusal.text), frozenset({-message.message.number}))
    for entry in outcome.entries:
        if not entry.expected:
            line = -entry.message.number if entry.message else 0
            group = entry.group.name if entry.group else None
            key = (entry.rule, entry.sentence, entry.rows, group, entry.aspects, entry.direction)
            yield Shown(key, frozenset({*entry.rows, *([line] if line else [])}))


def found(name: str, before: Outcome, trial: Trial) -> Found:
    """What a check shows of one mistake."""
    checked, change = before.checked, trial.change
    try:
        table = changed_table(checked.table, change, trial.texts)
        messages = changed_messages(checked.messages, change, trial.texts)
        after: List[Shown] = list(shown(JUDGE.outcome(checked.program, table, messages)))
    except (TableError, TableErrors) as error:
        after = [Shown((str(fault),), rows_of_refusal(fault)) for fault in error.faults]
    known = Counter(each.key for each in shown(before))
    new: List[Shown] = []
    for each in after:
        known[each.key] -= 1
        new += [each] if known[each.key] < 0 else []
    return Found(name, trial.mistake.name, change.words, new, change.rows | change.lost)


def one_of_each_kind(outcome: Outcome) -> List[Trial]:
    """One mistake of each kind that the line allows, drawn at random."""
    of_kind: "dict[str, list[Trial]]" = {}
    for trial in trials(Original(outcome.checked), 1, SEED):
        if trial.fits and not trial.change.legal:
            of_kind.setdefault(trial.mistake.name, []).append(trial)
    return [Random(f"{SEED} {kind}").choice(some) for kind, some in of_kind.items()]


_WORK: List[Tuple[str, Outcome, Sequence[Trial]]] = []
"""What the processes of the pool look at. Each is a copy of this one, so nothing is handed over."""


def of_line(name: str) -> List[Found]:
    """What a check shows of the mistakes of a line."""
    program = Program.find()
    before = JUDGE.outcome(program, reader.read(str(EXAMPLES / name)), None)
    made = one_of_each_kind(before)
    _WORK[:] = [(name, before, made)]
    count = min(4, len(os.sched_getaffinity(0)))
    with ProcessPoolExecutor(count, mp_context=get_context("fork")) as pool:
        return list(pool.map(_found_at, range(len(made)), chunksize=4))


def _found_at(place: int) -> Found:
    """What a check shows of one of the mistakes."""
    name, before, made = _WORK[0]
    return found(name, before, made[place])


def figures(some: Sequence[Found]) -> str:
    """How many entries the mistakes that are found have, and how many of these begin at a row to correct."""
    seen = [each for each in some if each.entries]
    counts = sorted(len(each.entries) for each in seen)
    first, named = (sum(getattr(each, name) for each in seen) for name in ("is_at_row", "names_row"))
    return (
        f"{len(some)} mistakes, {len(seen)} with a new entry: mean {sum(counts) / len(seen):.2f} entries, "
        f"one in {counts.count(1)}, four or fewer in {sum(each <= 4 for each in counts)}, worst {counts[-1]}; "
        f"first entry at a row to correct in {first} ({100 * first / len(seen):.0f} %), any entry in {named}"
    )


if __name__ == "__main__":
    everything: List[Found] = []
    for each in LINES:
        everything += of_line(each)
        print(f"{each}: {figures([one for one in everything if one.line == each])}", flush=True)
    print(f"all: {figures(everything)}")
    for one in everything if "all" in sys.argv else ():
        rules = " ".join(str(entry.key[0]) for entry in one.entries)
        print(f"{len(one.entries)} {one.is_at_row if one.entries else '-'} {one.line} {one.kind}: {one.words}: {rules}")

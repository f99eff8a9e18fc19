"""The stored scores of certificates: which mistakes of each kind a check finds on lines of examples and made ones.

`python3 companion/tests/certificate_scores.py` writes certificate_scores.csv, the part of docs/certificate.md that is
made of it, and what the pages show of `balisekit certify`. Do so after a change of the rules or of the kinds. It names
each kind that is found less often than before.
"""
from __future__ import annotations

import csv
import re
import subprocess
import sys
import tempfile
from collections import Counter
from itertools import groupby
from pathlib import Path
from typing import Callable, Dict, Iterator, List, Mapping, NamedTuple, Sequence, Tuple

HERE = Path(__file__).resolve().parent
sys.path.insert(0, str(HERE.parent / "src"))

from certificate_lines import level_2_border, station  # noqa: E402  (the path comes first)
from meaning_line import Row, table  # noqa: E402
from meaning_random import random_line  # noqa: E402

from balisekit.certificate.judging import Answer, Baseline, Judge, Judgement  # noqa: E402
from balisekit.certificate.trials import Trial, judgements, trials  # noqa: E402
from balisekit.engine.program import Program  # noqa: E402
from balisekit.mistakes import catalogue  # noqa: E402
from balisekit.mistakes.original import Original  # noqa: E402
from balisekit.rules import checking  # noqa: E402
from balisekit.rules.families import FAMILIES, apply  # noqa: E402
from balisekit.rules.rule import Options  # noqa: E402
from balisekit.tables import reader  # noqa: E402

STORED = HERE / "certificate_scores.csv"
TOP = HERE.parents[1]
PAGE, COMMANDS = TOP / "docs" / "certificate.md", TOP / "docs" / "commands.md"
SHOWN = re.compile(r"^(```console\n\$ (\./balisekit certify .*)\n)[^`]*(?=^```$)", re.MULTILINE)
"""A command of a page with its output."""
EXAMPLES = TOP / "examples"
LINES = ("table/line.csv", "meaning/line.csv", "meaning/level-border.csv", "meaning/both-directions.csv")
MADE: Mapping[str, Callable[[], Sequence[Row]]] = {
    "station": station,
    "level 2 border": level_2_border,
    "random line": lambda: random_line(11, 20).rows,
}
NAMES = (*LINES, *MADE)
PER_KIND, SEED = 2, 1
OF_FIELDS = 3
"""Of the changes of single variables, which are many, one in this many is stored."""
SAMPLE = 12
"""Of the changes that are found, the tests of the gate judge one in this many again."""
HEADING = ("line", "kind", "variable", "answers")
LETTERS = {
    **{Answer.FOUND: "F", Answer.ELSEWHERE: "E", Answer.HINTED: "H"},
    **{Answer.NOT_FOUND: "N", Answer.LEGAL: "L", Answer.UNFIT: "U"},
}
COUNTED = "FEHN"
"""The answers of changes that count."""
ENOUGH = 80
"""The share of a kind from which on the page gives no reason, in per cent."""


class Key(NamedTuple):
    """What answers are stored for: a kind of mistakes in a line, or a variable of the line."""

    line: str
    kind: str
    variable: str = ""


Scores = Dict[Key, str]
"""The answers to the changes, a letter for each."""


def changes(program: Program, folder: Path, name: str) -> Tuple[Baseline, List[Trial]]:
    """A line as it is judged with all defaults, and its changes. A made line is written into the folder."""
    path = EXAMPLES / name
    if name in MADE:
        path = folder / "line.csv"
        path.write_text(table(program, MADE[name]()), "utf-8")
    letters = tuple(FAMILIES)
    outcome = apply(checking.check(program, reader.read(str(path))), letters, Options())
    original = Original(outcome.checked)
    of_fields = [mistake for mistake in catalogue() if mistake.folder == "fields"]
    others = [mistake for mistake in catalogue() if mistake.folder != "fields"]
    made = [*_some(trials(original, 1, SEED, of_fields)), *trials(original, PER_KIND, SEED, others)]
    return Baseline(outcome, Judge(letters, Options())), made


def _some(of_fields: Sequence[Trial]) -> Iterator[Trial]:
    """One in three changes of each kind. Kinds begin at different ones, so that each variable has some."""
    counts: "Counter[str]" = Counter()
    for trial in of_fields:
        kind = trial.mistake.name
        if (counts[kind] + len(kind)) % OF_FIELDS == 0:
            yield trial
        counts[kind] += 1


def scores(name: str, made: Sequence[Tuple[Trial, Judgement]]) -> Scores:
    """The answers to the changes of a line, in their order."""
    found: Scores = {}
    for trial, judgement in made:
        of_variable = [Key(name, "", trial.change.field)] if trial.mistake.folder == "fields" else []
        for key in (Key(name, trial.mistake.name), *of_variable):
            found[key] = found.get(key, "") + LETTERS[judgement.answer]
    return dict(sorted(found.items()))


def stored() -> Scores:
    """The scores that were stored."""
    with STORED.open(encoding="utf-8", newline="") as file:
        return {Key(*(row[name] for name in HEADING[:3])): row["answers"] for row in csv.DictReader(file)}


def share(answers: str) -> int:
    """How many of 100 changes are found, rounded down, of those that count."""
    return 100 * answers.count("F") // max(sum(map(answers.count, COUNTED)), 1)


def of_all_lines(some: Scores, variables: bool = False) -> Dict[str, str]:
    """The answers for each kind, or for each variable, of all lines together, if any of them counts."""
    found: Dict[str, str] = {}
    for key, answers in some.items():
        if bool(key.variable) is variables:
            found[key.variable or key.kind] = found.get(key.variable or key.kind, "") + answers
    return {name: answers for name, answers in found.items() if not set(COUNTED).isdisjoint(answers)}


FIELDS = tuple(mistake.name for mistake in catalogue() if mistake.folder == "fields")
REASONS: Sequence[Tuple[Sequence[str], str]] = (
    (
        FIELDS,
        "No rule knows the right number of many variables, such as those named below. A number is found only if it "
        "contradicts another telegram, the kilometres or a limit.",
    ),
    (
        ("danger point lost", "no reaction", "overlap begins at the group", "overlap lost", "overlap timer lost")
        + ("release speeds exchanged", "section timers lost", "sections in one"),
        "Only a design says what is right.",
    ),
    (
        ("aspect without packets", "telegram without packets"),
        "No rule knows which packets an aspect must have if no other aspect contradicts it.",
    ),
    (
        ("packet lost", "last item lost", "packet twice"),
        "A linking packet that is lost, or a packet that is there twice, contradicts nothing. E6 reports more with "
        "`--rules E6`.",
    ),
    (
        ("packet of another aspect", "packet of the next group"),
        "At another signal or aspect the same packet often fits, too.",
    ),
    (
        ("distances from the group", "distances from the last balise"),
        "3 m is often within what kilometres allow. A profile that is too long contradicts its neighbours only where "
        "they overlap.",
    ),
    (
        ("counter that fits no message", "counters never set"),
        "F6 and F16 report them. `check` takes them for the default telegram and the one controlled balise of correct "
        "data, so they are `expected`.",
    ),
    (("version of the whole group",), "E23 reports it if `--rules E23` asks for it."),
    (
        ("aspect lost", "name of an aspect typed wrongly", "kilometre missing", "last balise lost with its total")
        + ("track missing",),
        "A line `look:` or a note names them. Correct tables have them, too.",
    ),
    (("track of another group",), "Links to another track are not compared with kilometres."),
    (("row lost",), "As for a lost aspect, if what remains is consistent."),
    (
        ("identity with a wrong digit", "country with a wrong digit", "kilometre ten times"),
        "L1 and L2 name the rows that link to the group.",
    ),
    (("names of two balises exchanged", "names of two groups exchanged"), "No telegram contains a name."),
    (("digit of a telegram wrong",), "It depends on the variable that the digit belongs to."),
)
"""Why not more of some kinds is found, in the order of the page."""
BEGIN, END = "## What is not found today\n", "\n## How the figures are made\n"


def page() -> str:
    """docs/certificate.md with the part that is made of the stored scores."""
    text = PAGE.read_text("utf-8")
    return text[: text.index(BEGIN)] + "\n".join(_section(stored())) + "\n" + text[text.index(END) :]


def _section(some: Scores) -> Iterator[str]:
    """The lines of the page on what is not found."""
    kinds, variables = of_all_lines(some), of_all_lines(some, variables=True)
    low = {kind: share(answers) for kind, answers in kinds.items() if share(answers) < ENOUGH}
    _look_at_reasons(low)
    whole = "".join(kinds.values())
    tried, found = sum(map(whole.count, COUNTED)), whole.count("F")
    yield BEGIN
    yield (
        "We made changes of the seven lines below, without a track plan: two of each kind, and one in a third of the "
        f"variables if the kind changes one variable. Of these {tried:,} changes, `check` finds {found:,}, which is "
        f"{share(whole)} %. The lines allow {len(kinds)} of the {len(catalogue())} kinds, and {len(low)} of these are "
        f"below {ENOUGH} %:\n"
    )
    yield "| Kinds | Found | Why not more |\n|---|---|---|"
    for names, why in REASONS:
        shares = {name: low[name] for name in names if name in low}
        if shares:
            yield f"| {', '.join(f'`{name}`' for name in shares)} | {_span(list(shares.values()))} | {why} |"
    yield "\nNo change of these variables is found on any of the lines:\n\n| Packet | Variables |\n|---|---|"
    never = sorted(name.rpartition(" ") for name, answers in variables.items() if "F" not in answers)
    for place, own in groupby(never, key=lambda parts: parts[0]):
        yield f"| {place} | {', '.join(name for _, _, name in own)} |"
    yield ""
    yield from _by_line(some)


def _span(shares: Sequence[int]) -> str:
    """The least and the greatest share."""
    least, most = min(shares), max(shares)
    return f"{most} %" if least == most else f"{least} to {most} %"


def _by_line(some: Scores) -> Iterator[str]:
    """A row for each line."""
    yield "| Line | Changes | Found | Elsewhere | Hinted |\n|---|---|---|---|---|"
    for name in NAMES:
        answers = "".join(own for key, own in some.items() if key.line == name and key.kind)
        tried, counts = sum(map(answers.count, COUNTED)), Counter(answers)
        path = f"`examples/{name}`" if name in LINES else f"{name} (made)"
        yield f"| {path} | {tried} | {counts['F']} ({share(answers)} %) | {counts['E']} | {counts['H']} |"


def _look_at_reasons(low: Mapping[str, int]) -> None:
    """Each kind below 80 % needs a reason above."""
    lacking = sorted(low.keys() - {name for names, _ in REASONS for name in names})
    if lacking:
        raise SystemExit(f"REASONS of {Path(__file__).name} says nothing of {', '.join(lacking)}")


def with_outputs(text: str) -> str:
    """A page with what its commands `certify` write now."""
    return SHOWN.sub(lambda shown: shown[1] + _output(shown[2]), text)


def _output(command: str) -> str:
    """What a command writes to standard output."""
    return subprocess.run(["bash", "-c", command], cwd=TOP, capture_output=True, text=True, check=True).stdout


def lower(before: Scores, now: Scores) -> List[str]:
    """The kinds that are found less often than before: by number, or by share if the changes are others."""
    pairs = [(key, before.get(key, ""), answers) for key, answers in now.items() if key.kind]
    less = [
        (key, old, new)
        for key, old, new in pairs
        if (new.count("F") < old.count("F") if len(new) == len(old) else share(new) < share(old))
    ]
    return [f"{key.line}: {key.kind}: {share(old)} % found before, {share(new)} % now" for key, old, new in less]


def main() -> int:
    """Stores the scores of all lines, and writes the page. The answer is 1 if less is found of a kind than before."""
    before, program = stored(), Program.find()
    now: Scores = {}
    for name in NAMES:
        with tempfile.TemporaryDirectory() as folder:
            baseline, made = changes(program, Path(folder), name)
            done = judgements(baseline, made, None, lambda count: None)
        now.update(scores(name, [(trial, done[place]) for place, trial in enumerate(made)]))
    with STORED.open("w", encoding="utf-8", newline="") as output:
        sheet = csv.writer(output, lineterminator="\n")
        sheet.writerows([HEADING, *((*key, answers) for key, answers in now.items())])
    PAGE.write_text(with_outputs(page()), "utf-8")
    COMMANDS.write_text(with_outputs(COMMANDS.read_text("utf-8")), "utf-8")
    less = lower(before, now)
    print("\n".join(less or ["no kind is found less often than before"]))
    return int(bool(less))


if __name__ == "__main__":
    sys.exit(main())

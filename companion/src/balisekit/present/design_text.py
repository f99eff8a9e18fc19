"""How much of a table its design confirms: in one line, and for other tools."""
from __future__ import annotations

from math import floor
from typing import Any, Dict, Iterator, List, NamedTuple, Optional, Sequence, Tuple

from balisekit.present.opening import Shown
from balisekit.rules.families import Outcome
from balisekit.rules.track_plan.coverage import FREE, Cell, Coverage, RowWord
from balisekit.tables.names import clean
from balisekit.tables.plan import rows_named

WORST_FIRST = ("contradicted", "not compared", "free", "confirmed")
ALWAYS = ("met", "uncovered")
"""The words of rows that the line always counts."""


def design_lines(outcome: Outcome) -> Iterator[str]:
    """One line, if there is a design."""
    if outcome.coverage:
        yield f"design: {words_of(outcome.coverage)}"


def words_of(coverage: Coverage) -> str:
    """How many variables have each word, and how many rows."""
    words = coverage.words
    variables = (
        f"{words.confirmed:,} of {words.total:,} variables confirmed, {words.contradicted:,} contradicted, "
        f"{words.free:,} free, {words.not_compared:,} not compared"
    )
    counts = {word: len(coverage.rows_with(word)) for word in ("met", "contradicted", "uncovered", "not compared")}
    met = f"{counts.pop('met'):,} of {len(coverage.rows):,} rows met"
    rows = [f"{count:,} {word}" for word, count in counts.items() if count or word in ALWAYS]
    return f"{variables}; {', '.join([met, *rows])}"


def too_little(outcome: Outcome) -> List[str]:
    """Why an answer is INCOMPLETE, if the design confirms less than somebody states."""
    if outcome.is_confirmed:
        return []
    if outcome.coverage is None:
        return [f"no design confirms anything, and {outcome.least:g} % is the least"]
    share = floor(outcome.coverage.share * 10) / 10
    return [f"the design confirms {share:.1f} % of the variables, and {outcome.least:g} % is the least"]


class MatrixCell(NamedTuple):
    """A cell of the matrix: its word, what is behind it, and why variables are free or not compared."""

    word: str
    counts: str
    reasons: Sequence[str]


class Matrix(NamedTuple):
    """How much the design confirms, for a page: groups by rows, kinds by columns."""

    line: str
    files: Sequence[str]
    """Each with its checksum."""
    kinds: Sequence[str]
    groups: Sequence[Tuple[str, Sequence[Optional[MatrixCell]]]]
    """A group has no cell for a kind that states none of its variables."""
    rows: Sequence[Tuple[str, str]]
    """The rows of the design that are not met, and why."""


def matrix(outcome: Outcome, shown: Shown) -> Optional[Matrix]:
    """The matrix of an answer, if there is a design."""
    coverage = outcome.coverage
    if coverage is None:
        return None
    kinds = [kind for kind in dict.fromkeys(kind for _, kind in coverage.cells) if kind != FREE]
    columns = [*kinds, *([FREE] if any(kind == FREE for _, kind in coverage.cells) else [])]
    names = dict.fromkeys(group for group, _ in coverage.cells)
    cells = {place: _cell_of(cell) for place, cell in coverage.cells.items()}
    groups = [(clean(name), [cells.get((name, kind)) for kind in columns]) for name in names]
    files = [f"{clean(shown(file.path))} (SHA-256 {file.sha256})" for file in coverage.design.files]
    left = [
        (_row_name(each), f"{each.word}{f': {each.why}' if each.why else ''}")
        for each in coverage.rows
        if each.word != "met"
    ]
    return Matrix(words_of(coverage), files, columns, groups, left)


def _row_name(each: RowWord) -> str:
    """A row of the design: where it is, its kind and its name."""
    return f"{rows_named([each.row])}: {each.row.kind}{f' {each.row.name}' if each.row.name else ''}"


def _cell_of(cell: Cell) -> MatrixCell:
    """A cell by its worst word."""
    counts = {name.replace("_", " "): count for name, count in cell.words._asdict().items() if count}
    word = next((name for name in WORST_FIRST if name in counts), "derived")
    words = ", ".join(f"{name} {count:,}" for name, count in counts.items())
    return MatrixCell(word, words, [f"{count:,}: {why}" for why, count in cell.reasons.items()])


def design_json(outcome: Outcome, shown: Shown) -> Dict[str, Any]:
    """The design for other tools: its files, the counts, the rows and the matrix. Without a design there is no key."""
    coverage = outcome.coverage
    if coverage is None:
        return {}
    files = [
        {
            "path": shown(file.path),
            "sha256": file.sha256,
            "rows": file.rows,
            "sheets": list(file.sheets),
            "sheets_not_read": list(file.others),
        }
        for file in coverage.design.files
    ]
    variables = {**coverage.words._asdict(), "total": coverage.words.total}
    made = {"files": files, "variables": variables, "rows": list(map(_row, coverage.rows))}
    return {"design": {**made, "least": outcome.least, "groups": list(_cells(coverage))}}


def _row(each: RowWord) -> Dict[str, Any]:
    """A row of the design, with the rows of the telegrams that meet or contradict it."""
    about = {"row": each.row.shown, "of": each.row.source, "kind": each.row.kind, "name": each.row.name or None}
    return {**about, "word": each.word, "telegrams": list(each.telegrams), "why": each.why or None}


def _cells(coverage: Coverage) -> Iterator[Dict[str, Any]]:
    """A cell of the matrix of groups and kinds."""
    for (group, kind), cell in coverage.cells.items():
        yield {"group": group, "kind": kind, **cell.words._asdict(), "reasons": dict(cell.reasons)}

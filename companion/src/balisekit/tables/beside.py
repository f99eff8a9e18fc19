"""Telegrams of a table outside of the column and the rows that are read. None of them is lost without a word."""
from __future__ import annotations

from itertools import islice, zip_longest
from shlex import quote
from typing import Dict, Iterable, Iterator, List, Mapping, NamedTuple, Sequence, Set, Tuple

from balisekit.errors import TableError, TableErrors
from balisekit.expressions import expression
from balisekit.tables.account import Account, NotJudged, elsewhere, of_digits, of_formulas
from balisekit.tables.cells import GREATEST_NAME, LINE_END, NEEDED, Sheet, digits, kind_and_text
from balisekit.tables.checksum_columns import are_checksums
from balisekit.tables.headings import KILOMETRE, compared, shown
from balisekit.tables.unread_digits import (
    LEAST_RUN,
    all_groups,
    could_hold_telegram,
    digits_in_rows,
    groups_of,
    has_few_digits,
    has_run_or_large_number,
    is_telegram,
    possible_digits,
    size,
    sizes_of,
)

ABOVE = "it has digits as a telegram has, and is not below the headings: put one row with headings above all telegrams"
COVERED = "merged headings cover its row, and it has {what}: unmerge the headings"
OF_COLUMNS = {"telegram": "digits as a telegram has", "km": "a kilometre"}
"""What a row of the table has in these columns, and the second row of a heading has not."""
SWALLOWED = "is a quote missing, or one too many?"
HAS_SWALLOWED = f"has line ends, and digits as a telegram has: {SWALLOWED}"
LEAST_LARGE, LEAST_SPREAD = 5, 39
"""How many characters the shortest large number has, such as 1E+53, and twenty single digits with blanks between."""
SHORT = expression("[0-9A-Fa-f]{4,}")
"""What may be a telegram below a heading, and no number of a column."""
NOT_READ = "only the column telegram is read"
OTHER_SHEET = "the sheet is not read: give --sheet if only one sheet is to be judged"
UNKNOWN = "their values are not stored, and may be telegrams: open the workbook in a spreadsheet, and save it"
Headings = Sequence[str]


def skip(headings: Headings, places: Dict[str, int], skipped: Sequence[str], row: int) -> List[str]:
    """Removes the columns with these headings from `places`. The answer has a note for each heading that is not there.

    TableError is raised for a column that is needed.
    """
    names, notes = names_of(headings), []
    for heading, name in zip(skipped, compared(skipped)):
        for known in [known for known, at in places.items() if names[at].lower() == name]:
            if known in NEEDED:
                raise TableError(f"--skip-column names the column {known}, which is needed", row)
            del places[known]
        notes += [] if name in map(str.lower, names) else [f"--skip-column {heading}: there is no such column"]
    return notes


def names_of(headings: Headings) -> List[str]:
    """The headings in one line each. A column without one has its number."""
    return [shown(cell)[:GREATEST_NAME] or f"column {number}" for number, cell in enumerate(headings, 1)]


class Unread(NamedTuple):
    """What is in other columns than `telegram`, which are counted from 0."""

    telegrams: Dict[int, List[int]]
    """The rows of the cells that count as telegrams."""
    possible: Dict[Tuple[int, ...], Dict[int, int]]
    """How many digits the rows have, by their numbers, that could hold a telegram: in one column, or in several."""


def unread(sheet: Sheet, place: int, begin: int, places: Mapping[str, int], skipped: Sequence[str]) -> Unread:
    """What could be telegrams in the rows below row `begin`. Row `place` has the headings, counted from 0.

    TableErrors is raised for what could be one above these rows, and in cells with line ends of a CSV file, which are
    rows that a quote has swallowed.
    """
    faults = [TableError(ABOVE, number) for number in _rows_above(sheet, place, begin, places["telegram"])]
    found, rest, names, asked_for = Unread({}, {}), {}, names_of(sheet.rows[place]), compared(skipped)
    for at, cells in enumerate(zip_longest(*islice(sheet.rows, begin, None), fillvalue="")):
        hits = _hits(cells) if at != places["telegram"] else {}
        for number, cell in enumerate(cells if hits else (), begin + 1):
            if cell in hits and LINE_END.search(cell) and sheet.separator:
                faults.append(TableError(f"cell {at + 1} {HAS_SWALLOWED}", number))
            elif cell in hits and hits[cell]:
                found.possible.setdefault((at,), {})[number] = hits[cell]
            elif cell in hits:
                found.telegrams.setdefault(at, []).append(number)
        if at not in places.values() and (at >= len(names) or names[at].lower() not in asked_for):
            rest[at] = ["" if cell in hits else cell for cell in cells] if hits else cells
    if faults:
        raise TableErrors(sorted(faults, key=lambda fault: fault.row or 0))
    for at in [at for at, in found.possible if are_checksums(sheet.rows[begin:], at, places["telegram"])]:
        del found.possible[(at,)]
    shared = _shared(rest, begin)
    for columns, rows in (*shared.items(), *_below(rest, begin)):
        found.possible.setdefault(columns, {}).update(rows)
    return found


def _rows_above(sheet: Sheet, place: int, begin: int, column: int) -> Iterator[int]:
    """The rows up to row `begin` that could hold a telegram. In the row of the headings each cell stands by itself.

    What is below the heading of this column, in rows that merged headings cover, is looked at by `covered_rows`.
    """
    for number, row in enumerate(islice(sheet.rows, begin), 1):
        texts = [cell for at, cell in enumerate(row) if at != column or number <= place + 1]
        if any(map(could_hold_telegram, texts)) or number != place + 1 and could_hold_telegram(" ".join(texts)):
            yield number


def _hits(cells: Sequence[str]) -> Dict[str, int]:
    """The cells of a column that count as telegrams, as 0, or how many digits they have that could be one."""
    longest = max(map(len, cells), default=0)
    if longest < LEAST_LARGE or longest < LEAST_RUN and "E" not in "".join(cells).upper():
        return {}
    texts = {*cells}
    if not has_run_or_large_number("\n".join(texts).encode("utf-8", "replace")):
        texts = {cell for cell in texts if len(cell) >= LEAST_SPREAD or not cell.isascii()}
    counts = {
        cell: 0 if is_telegram(cell) else possible_digits(cell) or None for cell in texts if not has_few_digits(cell)
    }
    return {cell: count for cell, count in counts.items() if count is not None}


def _shared(columns: Mapping[int, Sequence[str]], begin: int) -> Dict[Tuple[int, ...], Dict[int, int]]:
    """How many digits the cells of a row have together that could hold a telegram, by the columns that have them."""
    places = tuple(columns)
    texts = enumerate(map(" ".join, zip(*columns.values())), begin + 1) if len(places) > 1 else ()
    possible = {number: text for number, text in texts if len(text) >= LEAST_SPREAD and possible_digits(text)}
    used: Set[int] = set()
    for number, text in possible.items():
        groups = groups_of(text)
        sizes = sizes_of(groups)
        cells = ((at, all_groups(columns[at][number - begin - 1])) for at in places)
        used.update(at for at, own in cells if any(size(group) in sizes and group in groups for group in own))
    digits_of = {number: possible_digits(text) for number, text in possible.items()}
    return {tuple(sorted(used)) or places: digits_of} if possible else {}


def _below(columns: Mapping[int, Sequence[str]], begin: int) -> Iterator[Tuple[Tuple[int, ...], Dict[int, int]]]:
    """The same for rows that hold a telegram together, one below the other: in one column, or else in all of them."""
    count = 0
    for at, cells in columns.items():
        rows = digits_in_rows(cells)
        count += len(rows)
        if rows:
            yield (at,), {number + begin + 1: size for number, size in rows.items()}
    rows = digits_in_rows([*map(" ".join, zip(*columns.values()))]) if len(columns) > 1 and not count else {}
    if rows:
        yield tuple(columns), {number + begin + 1: size for number, size in rows.items()}


def covered_rows(sheet: Sheet, heading: int, begin: int, places: Mapping[str, int]) -> List[str]:
    """A note on the rows that merged headings cover. TableErrors is raised for those that are rows of the table.

    The headings are in row `heading` and cover all rows up to `begin`, counted from 1.
    """
    notes: List[str] = []
    faults: List[TableError] = []
    for number, row in enumerate(islice(sheet.rows, heading, begin), heading + 1):
        texts = [kind_and_text(cell)[1].strip() for cell in row]
        own = {name: texts[at] for name, at in places.items() if at < len(texts)}
        is_numbered = all(map(str.isdecimal, filter(None, texts)))
        is_row = {
            "telegram": SHORT.fullmatch(digits(own.get("telegram", ""))),
            "km": not is_numbered and KILOMETRE.fullmatch(own.get("km", "")),
        }
        name = next((name for name, found in is_row.items() if found), "")
        faults += [TableError(COVERED.format(what=OF_COLUMNS[name]), number, name)] if name else []
        notes += [f"row {number} is passed over: merged headings cover it"] if any(texts) else []
    if faults:
        raise TableErrors(faults)
    return notes


def account(
    sheet: Sheet, numbers: Sequence[int], passed_over: Tuple[str, ...], of_columns: Iterable[NotJudged]
) -> Account:
    """The account of a sheet of which these rows were read."""
    left_out = (*of_columns, *_of_sheets(sheet))
    return Account(
        len(numbers) + sum(each.telegrams for each in left_out),
        (numbers[0], numbers[-1]),
        not_judged=left_out,
        sheets=(sheet.name,) if sheet.name else (),
        sheets_not_read=sheet.others,
        columns_not_read=passed_over,
    )


def of_columns(
    sheet: Sheet, headings: Headings, begin: int, places: Mapping[str, int], found: Unread, skipped: Sequence[str]
) -> Iterator[NotJudged]:
    """What could be telegrams in other columns than the one that is read, and formulas that could be some.

    The rows below row `begin` are read.
    """
    above = [number for number, _ in sheet.not_calculated if number <= begin]
    if above:
        yield of_formulas(UNKNOWN, above, False, (), sheet.name)
    formulas: Dict[int, List[int]] = {}
    for number, at in sheet.not_calculated[len(above) :]:
        formulas.setdefault(at, []).append(number)
    names, asked_for = names_of(headings), compared(skipped)
    for columns in sorted({*found.possible, *((at,) for at in (*found.telegrams, *formulas))}):
        of = [names[at] if at < len(names) else f"column {at + 1}" for at in columns]
        option, asked = " ".join(f"--skip-column {quote(name)}" for name in of), of[0].lower() in asked_for
        remedy = "" if columns == (places["group"],) else f": give {option} if they are not to be judged"
        left_out, where = f"{option} leaves them out" if asked else "", (asked, of, sheet.name or None)
        if columns[0] in found.telegrams and len(columns) == 1:
            yield elsewhere(left_out or f"{NOT_READ}{remedy}", found.telegrams[columns[0]], *where)
        if columns in found.possible:
            yield of_digits(left_out or f"{NOT_READ}{remedy}", found.possible[columns], *where)
        if columns[0] in formulas and len(columns) == 1:
            yield of_formulas(left_out or f"{UNKNOWN}, or give {option}", formulas[columns[0]], *where)


def _of_sheets(sheet: Sheet) -> Iterator[NotJudged]:
    """What could be telegrams in the other sheets of a workbook."""
    asked = sheet.is_chosen
    left_out = f"--sheet {quote(sheet.name)} leaves them out" if asked else ""
    for name, (numbers, formulas, possible) in sheet.in_others.items():
        if numbers:
            yield elsewhere(left_out or OTHER_SHEET, numbers, asked, (), name)
        if possible:
            yield of_digits(left_out or OTHER_SHEET, possible, asked, (), name)
        if formulas:
            yield of_formulas(left_out or f"{UNKNOWN}, or give --sheet", formulas, asked, (), name)

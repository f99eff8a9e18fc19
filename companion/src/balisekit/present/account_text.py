"""The account of an input in words and as JSON."""
from __future__ import annotations

from typing import Any, Callable, Dict, Iterable, Iterator, Sequence

from balisekit.rules.families import Outcome
from balisekit.tables.account import Account, NotJudged
from balisekit.tables.model import Table
from balisekit.tables.names import NAMED, clean, counted, listed, quoted, rows_words

TELEGRAM, MESSAGE, POSSIBLE = "telegram", "message", "possible telegram"


def account_lines(outcome: Outcome) -> Iterator[str]:
    """A line for each reason why telegrams or messages are not judged, then the account in one line for each file."""
    accounts = {TELEGRAM: outcome.account, MESSAGE: outcome.account_of_messages}
    for thing, account in accounts.items():
        yield from not_judged_lines(account.not_judged, thing) if account else ()
    for thing, account in accounts.items():
        yield from [f"account: {'; '.join(_parts(account, thing))}"] if account else ()


def not_judged_lines(some: Iterable[NotJudged], thing: str = TELEGRAM) -> Iterator[str]:
    """A line for each reason: how many telegrams, where they are, and why they are not judged."""
    for each in some:
        where = [f"sheet {quoted(each.sheet)}"] if each.sheet else []
        names = listed(list(map(quoted, each.columns)), NAMED)
        where += [f"column{'s' * (len(each.columns) > 1)} {names}"] if names else []
        where += [rows_words(each.rows) if thing == TELEGRAM else rows_words(each.rows).replace("row", "line", 1)]
        counts = ((each.formulas, "formula"), (each.possible, POSSIBLE))
        many = next((counted(count, what) for count, what in counts if count), counted(each.telegrams, thing))
        yield f"not judged: {many} in {', '.join(where)}: {clean(each.why)}"


def overlooked_lines(table: Table) -> Iterator[str]:
    """The lines on telegrams of the file that were not read."""
    return not_judged_lines(table.account.not_judged)


def _parts(account: Account, thing: str) -> Iterator[str]:
    left_out = sum(each.telegrams for each in account.not_judged)
    yield f"{counted(account.telegrams, thing)} in the file"
    yield f"{account.judged} judged, {account.refused} refused, {left_out} not judged"
    possible = sum(each.possible for each in account.not_judged)
    yield from [f"{counted(possible, POSSIBLE)} not read"] if possible else ()
    formulas = sum(each.formulas for each in account.not_judged)
    yield from [f"{counted(formulas, 'formula')} without a stored value"] if formulas else ()
    if account.sheets:
        names = f" (not read: {_names(account.sheets_not_read)})" if account.sheets_not_read else ""
        yield f"sheets {len(account.sheets)} of {len(account.sheets) + len(account.sheets_not_read)}{names}"
    first, last = account.rows
    what = "row" if thing == TELEGRAM else "line"
    yield f"{what} {first}" if first == last else f"{what}s {first} to {last}"
    if account.columns_not_read:
        yield f"columns not read: {_names(account.columns_not_read)}"


def _names(names: Sequence[str]) -> str:
    return listed(list(map(clean, names)), NAMED)


def account_json(outcome: Outcome, shown: Callable[[str], str] = str) -> Dict[str, Any]:
    """The account for other tools, with names of the table as `shown` gives them."""
    messages = outcome.account_of_messages
    return {**_json(outcome.account, shown), **({"messages": _json(messages, shown)} if messages else {})}


def _json(account: Account, shown: Callable[[str], str]) -> Dict[str, Any]:
    names = [list(map(shown, some)) for some in (account.sheets, account.sheets_not_read, account.columns_not_read)]
    return {
        "telegrams": account.telegrams,
        "judged": account.judged,
        "refused": account.refused,
        "not_judged": [_not_judged_json(each, shown) for each in account.not_judged],
        "sheets": {"read": names[0], "not_read": names[1]},
        "rows": list(account.rows),
        "columns_not_read": names[2],
    }


def _not_judged_json(each: NotJudged, shown: Callable[[str], str]) -> Dict[str, Any]:
    return {
        "why": shown(each.why),
        "sheet": None if each.sheet is None else shown(each.sheet),
        "rows": list(each.rows),
        "column": shown(each.columns[0]) if len(each.columns) == 1 else None,
        **({"columns": list(map(shown, each.columns))} if len(each.columns) > 1 else {}),
        "telegrams": each.telegrams,
        **({"possible": each.possible} if each.possible else {}),
        **({"formulas": each.formulas} if each.formulas else {}),
        "asked": each.asked,
    }

"""The account of a table beside a plain count of its cells: random tables and workbooks, with telegrams anywhere."""
from __future__ import annotations

import html
import json
import os
import re
import xml.etree.ElementTree as ElementTree
from collections import Counter
from copy import deepcopy
from pathlib import Path
from typing import Any, Callable, Dict, Iterator, List, NamedTuple, Optional, Set

import pytest
from conftest import Run
from plain_count import Place, is_telegram, possible, rows_read, swallowed, telegrams, unknown_formulas
from random_tables import FEATURES, Made, made

from balisekit.rules import checking

pytest.importorskip("openpyxl")
pytestmark = pytest.mark.uncovered
Json = Dict[str, Any]


class Answer(NamedTuple):
    """What `check` has answered. There is no JSON of a table that is refused."""

    status: int
    form: Optional[Json]
    lines: List[str]
    """Its text, on standard error."""
    others: List[str]
    """JUnit and SARIF."""


Check = Callable[[Made], Answer]
OTHERS = ("--junit", "junit.xml", "--sarif", "check.sarif")
LINE = re.compile(
    "account: ([0-9]+) telegrams? in the file; ([0-9]+) judged, ([0-9]+) refused, ([0-9]+) not judged; .*"
)


@pytest.fixture
def check(run: Run, tmp_path: Path, monkeypatch: pytest.MonkeyPatch) -> Check:
    """Runs `check` on a table, in a folder of its own."""
    monkeypatch.chdir(tmp_path)

    def one(table: Made) -> Answer:
        for name in os.listdir():
            os.remove(name)
        for name, content in {table.name: table.content, **table.beside}.items():
            Path(name).write_bytes(content)
        monkeypatch.setattr(checking, "GREATEST_REFUSED", table.limit)
        status, out, err = run("check", table.name, *table.words, "--json", "-", *OTHERS)
        others = [Path(name).read_text("utf-8") for name in OTHERS[1::2] if os.path.exists(name)]
        return Answer(status, json.loads("\n".join(out)) if out else None, err, others)

    return one


class Compared:
    """A table that was made, and the answer of `check`."""

    def __init__(self, table: Made, answer: Answer, form: Json) -> None:
        self.table, self.answer, self.form, self.account = table, answer, form, form["account"]
        self.parts: List[Json] = self.account["not_judged"]
        self.cells, self.known = table.cells(), table.known
        self.found = telegrams(self.cells, self.known)
        self.formulas = unknown_formulas(table.content) if table.sheets else set()
        self.rows = rows_read(self.cells, self.known)
        self.heads = {
            place.column: text.strip()
            for place, text in self.cells.items()
            if (place.sheet, place.row) == (self.known.sheet, self.known.names)
        }

    def differences(self) -> Iterator[str]:
        """What is wrong with the account."""
        yield from self._counts()
        yield from self._judged()
        yield from self._line()
        yield from self._status()
        yield from self._places()
        yield from self._possible()
        yield from self._formulas()
        yield from self._inputs()
        yield from self._messages()

    def _counts(self) -> Iterator[str]:
        account, counted = self.account, len(self.found)
        if account["telegrams"] != counted:
            yield f"{account['telegrams']} telegrams, and the file has {counted}"
        if account["telegrams"] != named_of(account):
            yield f"{account['telegrams']} telegrams, of which {named_of(account)} are named"

    def _judged(self) -> Iterator[str]:
        """The telegrams of the groups that were handed to the program are judged, unless --only lacks F."""
        form, kept = self.form, set(self.form["kept"])
        judged = sum(each["group"] in kept for each in form["telegrams"]) if "F" in form["families"] else 0
        if (self.account["judged"], self.account["refused"]) != (judged, len(form["refused"])):
            yield f"{judged} telegrams are judged, and {len(form['refused'])} refused: {self.account}"

    def _line(self) -> Iterator[str]:
        """Text, JUnit and SARIF have the same counts."""
        said = [found for found in map(LINE.fullmatch, self.answer.lines) if found]
        counts = [self.account[name] for name in ("telegrams", "judged", "refused")]
        counts.append(sum(part["telegrams"] for part in self.parts))
        if not said or said[0].groups() != tuple(map(str, counts)):
            yield f"the text says {said}, and JSON {counts}"
        junit, sarif = self.answer.others
        texts = "".join(ElementTree.fromstring(junit).itertext())
        if not said or said[0][0] not in texts.splitlines():
            yield f"JUnit lacks the line {said}"
        if json.loads(sarif)["runs"][0]["properties"]["account"] != self.account:
            yield "SARIF has another account"

    def _status(self) -> Iterator[str]:
        """The status is 2 if anything is refused, or not judged although no option asked for that."""
        accounts = [self.account, *([self.account["messages"]] if "messages" in self.account else [])]
        is_open = any(
            account["refused"] or not all(part["asked"] for part in account["not_judged"]) for account in accounts
        )
        if self.answer.status != 2 and is_open:
            yield f"status {self.answer.status}: {accounts}"
        if not self.table.sheets and {place for place in swallowed(self.cells) if place.column != self.known.column}:
            yield f"status {self.answer.status} with telegrams in cells with line ends"

    def _places(self) -> Iterator[str]:
        """Each telegram is in a row that is read, or in one part."""
        of_rows = {Place(self.known.sheet, row, self.known.column) for row in self.rows}
        rest, left = self.found - of_rows, of_rows
        for part in (part for part in self.parts if part["telegrams"]):
            places = self._of_part(part, self.found)
            if len(places) != part["telegrams"] or not places <= rest | left:
                yield f"it means the telegrams {sorted(places)}: {part}"
            rest, left = rest - places, left - places
            if part["asked"] != self._is_asked(part):
                yield f"asked is wrong with {self.table.words}: {part}"
        if rest:
            yield f"in no part: {sorted(rest)}"
        if len(left) != self.account["judged"] + self.account["refused"]:
            yield f"{len(left)} telegrams of the rows that are read are in no part: {self.account}"

    def _possible(self) -> Iterator[str]:
        """Each row that could hold a telegram in what is not read is in a part, and no other row is."""
        words, unread = self.table.words, self.account["columns_not_read"]
        skipped = {second for first, second in zip(words, words[1:]) if first == "--skip-column"}
        joined = set().union(*(self._columns(name) for name in unread if name not in skipped))
        parts = [part for part in self.parts if "possible" in part]
        rows = {(part["sheet"], row) for part in parts for row in part["rows"]}
        wanted = possible(self.cells, self.known, joined)
        if rows != wanted:
            yield f"rows that could hold a telegram: {sorted(wanted, key=str)}, and named are {sorted(rows, key=str)}"
        for part in parts:
            if part["telegrams"] or part["possible"] != len(part["rows"]) or part["asked"] != self._is_asked(part):
                yield f"it could hold telegrams, and the part is {part}"

    def _formulas(self) -> Iterator[str]:
        """Each formula whose value is not stored is in one part."""
        rest = self.formulas
        for part in (part for part in self.parts if "formulas" in part):
            places = self._of_part(part, rest)
            if len(places) != part["formulas"] or part["telegrams"] or part["asked"] != self._is_asked(part):
                yield f"it means the formulas {sorted(places)}: {part}"
            rest = rest - places
        if rest:
            yield f"formulas in no part: {sorted(rest)}"

    def _of_part(self, part: Json, found: Set[Place]) -> Set[Place]:
        """What a part means of what was found, by its sheet, rows and column."""
        places = {place for place in found if place.row in part["rows"]}
        if part["sheet"] != self.known.sheet:
            return {place for place in places if place.sheet == part["sheet"]}
        columns = {self.known.column} if part["column"] is None else self._columns(part["column"])
        return {place for place in places if place.sheet == part["sheet"] and place.column in columns}

    def _columns(self, heading: str) -> Set[int]:
        """The columns with this heading. One without a heading is called by its number."""
        width = max(place.column for place in self.cells) + 1
        return {at for at in range(width) if heading == (self.heads.get(at) or f"column {at + 1}")}

    def _is_asked(self, part: Json) -> bool:
        """Whether an option of the command line leaves this out."""
        words = self.table.words
        if part["sheet"] != self.known.sheet:
            return "--sheet" in words
        if part["column"] is not None:
            return ("--skip-column", part["column"]) in zip(words, words[1:])
        return bool(part["asked"] and "--only" in words and "F" not in words[words.index("--only") + 1])

    def _inputs(self) -> Iterator[str]:
        """The sheets and rows that were read."""
        sheets, read = self.account["sheets"], [self.known.sheet] if self.known.sheet else []
        others = set(self.table.sheets).difference(read)
        if sheets["read"] != read or {*sheets["not_read"]} - {"Chart"} != others:
            yield f"the sheets are {self.table.sheets}, and {read} is read: {sheets}"
        if self.account["rows"] != [self.rows[0], self.rows[-1]]:
            yield f"the rows are {self.rows}: {self.account['rows']}"

    def _messages(self) -> Iterator[str]:
        """Each line with something in it is a message."""
        lines = self.table.beside["m.txt"].decode().split("\n") if "m.txt" in self.table.beside else []
        numbers = [number for number, line in enumerate(lines, 1) if line]
        account = self.account.get("messages")
        if bool(account) != bool(numbers):
            yield f"the lines of messages are {numbers}: {account}"
        elif account:
            if account["rows"] != [numbers[0], numbers[-1]] or account["telegrams"] != len(numbers):
                yield f"the lines of messages are {numbers}: {account}"
            if account["telegrams"] != named_of(account):
                yield f"of {account['telegrams']} messages {named_of(account)} are named"


def named_of(account: Json) -> int:
    """How many telegrams an account names."""
    return int(account["judged"] + account["refused"] + sum(part["telegrams"] for part in account["not_judged"]))


def differences(table: Made, answer: Answer) -> List[str]:
    """What is wrong with the answer to a table. A table that is refused needs no account."""
    if answer.form is None:
        return [] if answer.status == 2 else [f"status {answer.status}: {answer.lines}"]
    return [*Compared(table, answer, answer.form).differences()]


def wrong(check: Check, seeds: range) -> Dict[int, List[str]]:
    """What is wrong with the answers to the tables of these numbers. Most of them are read."""
    found: Dict[int, List[str]] = {}
    read: Counter[bool] = Counter()
    for seed in seeds:
        table = made(seed)
        answer = check(table)
        read[answer.form is not None] += 1
        said = differences(table, answer)
        if said:
            found[seed] = [*said, str(sorted(table.features))]
    assert read[True] > len(seeds) / 2
    return found


def test_accounts(check: Check) -> None:
    """Each telegram of a file is judged, refused, or named as not judged."""
    assert not wrong(check, range(200))


@pytest.mark.slow
@pytest.mark.parametrize("first", range(200, 2200, 500))
def test_more_accounts(check: Check, first: int) -> None:
    assert not wrong(check, range(first, first + 500))


def test_reports(check: Check, run: Run) -> None:
    """A report has the line of `check`, and its status."""
    pytest.importorskip("jinja2")
    tried = 0
    for table in filter(lambda table: "--all" not in table.words, map(made, range(40))):
        answer = check(table)
        if answer.form is not None:
            tried += 1
            assert run("report", table.name, *table.words, "--html", "page.html")[0] == answer.status
            page = html.unescape(Path("page.html").read_text("utf-8"))
            assert sum(f"<bdi>{line}</bdi>" in page for line in answer.lines if LINE.fullmatch(line)) > 0
    assert tried > 20


def test_features() -> None:
    """The tables of the gate have each feature."""
    assert {feature for seed in range(200) for feature in made(seed).features} == FEATURES


DIGITS = "a1007f80" * 5 + "1"


@pytest.mark.parametrize(
    "text, counts",
    [
        (DIGITS, True),
        (DIGITS[:-1], False),
        (f"{DIGITS[:-4]}zzzz", True),
        (f"{DIGITS[:-5]}zzzzz", False),
        (f" “0x{DIGITS}H” ", True),
        (" ".join(DIGITS), True),
        ("-".join(DIGITS[at : at + 2] for at in range(0, 40, 2)), True),
        ("a" * 40, False),
        (f"{DIGITS} {DIGITS}z", True),
        (".".join(["0000", "1234"] * 5), False),
        (", ".join(f"B{number}" for number in range(100, 120)), False),
        (f"{DIGITS[:20]}\n{DIGITS[20:]}", True),
        (f"see {DIGITS}{DIGITS}", True),
        (f"superseded by the telegram {DIGITS}", False),
        ("", False),
    ],
)
def test_what_counts_as_a_telegram(text: str, counts: bool) -> None:
    assert is_telegram(text) is counts


def line_of(account: Json) -> str:
    """The line of text for these counts."""
    left = sum(part["telegrams"] for part in account["not_judged"])
    counts = f"{account['judged']} judged, {account['refused']} refused, {left} not judged"
    return f"account: {account['telegrams']} telegrams in the file; {counts}; rows 2 to 3"


def others_of(account: Json) -> List[str]:
    """JUnit and SARIF with this account."""
    return [f"<a>{line_of(account)}</a>", json.dumps({"runs": [{"properties": {"account": account}}]})]


def _drop(account: Json) -> None:
    account["telegrams"] -= account["not_judged"].pop()["telegrams"]


def _judge(account: Json) -> None:
    account["judged"] += account["not_judged"].pop()["telegrams"]


def _ask(account: Json) -> None:
    for part in account["not_judged"]:
        part["asked"] = True


def _move(account: Json) -> None:
    account["not_judged"][0]["sheet"] = "Chart"


@pytest.mark.parametrize("change", [_drop, _judge, _ask, _move])
def test_wrong_accounts_are_noticed(check: Check, change: Callable[[Json], None]) -> None:
    """Those that lack a part, have it as judged, as left out by an option, or in another sheet."""
    tried = 0
    for table in filter(lambda table: not {"--only", "--sheet"} & set(table.words), map(made, range(60))):
        answer = check(table)
        if answer.form is None or not answer.form["account"]["not_judged"]:
            continue
        form = deepcopy(answer.form)
        change(form["account"])
        changed = answer._replace(lines=[line_of(form["account"])], others=others_of(form["account"]))
        assert [*Compared(table, changed, form).differences()], table
        tried += 1
    assert tried > 5

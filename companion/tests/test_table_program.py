"""balisecheck_table beside balisekit: both read the same random CSV tables.

If both read a table, then `balisecheck check` of the document that balisekit makes of it has the verdict and the
findings of balisecheck_table, about the balises of the same rows. If only one of them refuses a table, then for one of
the reasons in STRICTER or OF_BALISEKIT, which the page of the program states. No name ends with a no-break space or a
control character: the two readers take such names differently, as the page says.
"""
from __future__ import annotations

import os
import re
import subprocess
from pathlib import Path
from random import Random
from typing import Iterator, List, NamedTuple, Optional, Sequence, Union

import pytest
from cases_of_program import TOP
from random_csv_tables import Maker, table

from balisekit.engine.grammar import Finding, Refusal
from balisekit.engine.program import Program
from balisekit.errors import KitError, TableErrors
from balisekit.rules.checking import document
from balisekit.tables import reader
from balisekit.tables.model import Group

pytestmark = pytest.mark.uncovered
BUILT, STORED = TOP / "out" / "balisecheck_table", TOP / "dist" / "x86_64-linux" / "balisecheck_table"
PROGRAM = os.environ.get("BALISECHECK_TABLE", str(BUILT if BUILT.exists() else STORED))
STRICTER = re.compile(
    "(?:row [0-9]+: )?(?:not UTF-8|no heading row|two delimiters give a heading row"
    "|a telegram above the headings|heading [a-z]+ twice"
    "|no (?:group|telegram|aspect|balise)|text to the right of the headings|a blank at an end of the (?:group|aspect)"
    "|the telegram is not hexadecimal|the balise is not a number of up to four digits"
    "|a quote in a field without quotes|text after the quote that ends a field|a quote that is not closed"
    "|balise twice|not at one place in all aspects)"
)
"""Why balisecheck_table refuses tables that balisekit reads."""
OF_BALISEKIT = re.compile(
    ": the cell contains a line end|: .* is between rows .*: is it mistyped|: empty, but the group has named aspects"
    "|is passed over: did you mean"
)
"""Why balisekit refuses tables that balisecheck_table reads: it doubts a name or a heading."""


class Answer(NamedTuple):
    """What balisecheck_table has written, without line ends, and its status."""

    status: int
    lines: Sequence[str]


def answer_of(content: bytes) -> Answer:
    """The answer of balisecheck_table to a table."""
    done = subprocess.run([PROGRAM], input=content, stdout=subprocess.PIPE, check=False)
    return Answer(done.returncode, done.stdout.decode("utf-8").splitlines())


def rows_of(finding: Finding, groups: Sequence[Group]) -> List[int]:
    """The rows of a finding: those of its balise, or the first one of its aspect or group."""
    aspects = groups[finding.group or 0].aspects
    aspects = aspects if finding.aspect is None else aspects[finding.aspect : finding.aspect + 1]
    if finding.balise is None:
        return [min(row.number for aspect in aspects for row in aspect.rows)]
    return list(dict.fromkeys(aspect.rows[finding.balise].number for aspect in aspects))


def line_of(finding: Finding, groups: Sequence[Group]) -> str:
    """The line for a finding with its rows."""
    rows = rows_of(finding, groups)
    place = f" row{'s' if len(rows) > 1 else ''} {', '.join(map(str, rows))}"
    place += "" if finding.aspect is None else f" aspect {finding.aspect}"
    place += "" if finding.packet is None else f" packet {finding.packet}"
    place += f" {finding.direction}" if finding.direction else ""
    return f"F{finding.rule}{place}: {finding.name}"


def expected(program: Program, path: Path) -> Union[List[str], KitError, Refusal]:
    """The lines that balisekit's reading of the table leads to, or why there are none."""
    try:
        groups = reader.read(str(path)).groups
    except KitError as error:
        return error
    report = program.check(document(groups, []))
    if isinstance(report, Refusal):
        return report
    if report.findings:
        return [f"no: findings {len(report.findings)}", *(line_of(one, groups) for one in report.findings)]
    telegrams = len({row.number for group in groups for row in group.rows()})
    return [f"yes: groups {len(groups)}, telegrams {telegrams}"]


def is_stricter(answer: Answer) -> bool:
    """Whether balisecheck_table refuses a table for one of its own reasons."""
    return answer.status == 2 and bool(STRICTER.fullmatch(answer.lines[0][len("refused: ") :]))


def is_in_doubt(error: KitError) -> bool:
    """Whether balisekit refuses a table for one of its own reasons."""
    if isinstance(error, TableErrors):
        return any(OF_BALISEKIT.search(str(fault)) for fault in error.faults)
    return bool(OF_BALISEKIT.search(str(error)))


def difference(program: Program, content: bytes, path: Path) -> Optional[str]:
    """In what the two readings of a table differ, if they do."""
    path.write_bytes(content)
    answer, lines = answer_of(content), expected(program, path)
    if isinstance(lines, list):
        same = answer == Answer(int(lines[0].startswith("no")), lines) or is_stricter(answer)
    else:
        same = answer.status == 2 or (isinstance(lines, KitError) and is_in_doubt(lines))
    return None if same else f"{answer}, not {lines}"


def differences(program: Program, folder: Path, seed: int, count: int) -> Iterator[str]:
    """The differences of random tables."""
    random = Random(seed)
    maker = Maker(random)
    for number in range(count):
        content = table(random, maker)
        told = difference(program, content, folder / "table.csv")
        if told:
            yield f"seed {seed}, table {number}: {told}\n{content!r}"


def test_200_tables_are_read_alike(program: Program, tmp_path: Path) -> None:
    """The two readers agree."""
    assert not list(differences(program, tmp_path, 1, 200))


@pytest.mark.long
def test_20000_tables_are_read_alike(program: Program, tmp_path: Path) -> None:
    """The two readers agree on many more tables."""
    assert not list(differences(program, tmp_path, 2, 20_000))


def cuts_and_flips(random: Random, content: bytes) -> Iterator[bytes]:
    """The table cut off after each byte, and with one bit of each byte changed.

    No change makes a control character.
    """
    for at, byte in enumerate(content):
        yield content[:at]
        changed = [byte ^ 1 << bit for bit in range(8)]
        flipped = random.choice([one for one in changed if one >= 32 and one != 127 or one in b"\t\r\n"])
        yield content[:at] + bytes([flipped]) + content[at + 1 :]


def differences_of_changed(program: Program, folder: Path, seed: int, count: int) -> Iterator[str]:
    """The differences of random tables that were cut off or changed."""
    random = Random(seed)
    maker = Maker(random)
    for _ in range(count):
        for content in cuts_and_flips(random, table(random, maker)):
            told = difference(program, content, folder / "table.csv")
            if told:
                yield f"{told}\n{content!r}"


@pytest.mark.long
def test_each_cut_and_a_flip_of_each_byte_of_ten_tables(program: Program, tmp_path: Path) -> None:
    """The two readers agree on a table that was cut off, or in which a bit was changed."""
    assert not list(differences_of_changed(program, tmp_path, 3, 10))

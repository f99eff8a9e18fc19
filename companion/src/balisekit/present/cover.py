"""The first and the last part of a report: the heading, the verdict, how to repeat it, and checksums."""
from __future__ import annotations

import hashlib
from datetime import datetime
from typing import Iterator, List, NamedTuple, Optional, Sequence, Set, Tuple

from balisekit import __version__
from balisekit.etcs.raw_layouts import layout_of
from balisekit.io import clock
from balisekit.present import NOT_PROVED, headings
from balisekit.present.accepted_text import fault_lines
from balisekit.present.account_text import account_lines
from balisekit.present.certificate_reading import Certified
from balisekit.present.check_text import aspects_found
from balisekit.present.links_text import empty_rules
from balisekit.present.opening import entries_words, known_words, paths_from, program_words, settings_words
from balisekit.present.outcome_text import last_lines, not_looked_at, unnamed_lines
from balisekit.present.refusals import RefusedInput, lacking, not_looked_at as not_tried, refused
from balisekit.rules.accepted import Judged
from balisekit.rules.checking import Checked, Place, document
from balisekit.rules.families import FAMILIES, IF_ANY, PROVED, Outcome
from balisekit.rules.remarks import remarks
from balisekit.tables.names import clean, counted, describe_group, passed_over
from balisekit.tables.own_headings import ReportHeading

DOCUMENT = "document.json"
"""The name of the document in the commands that repeat the verdict."""


class Verdict(NamedTuple):
    """The verdict of `check`, as a reader sees it first."""

    tone: str
    """By which a style sheet chooses the colour: `good`, `open` or `incomplete`."""
    word: str
    sentence: str
    """How many findings and remarks there are, and what is missing."""
    closing: Sequence[str]
    """The last lines of `check`."""


class Evidence(NamedTuple):
    """How the verdict is repeated without balisekit."""

    commands: Sequence[str]
    sha256: str
    """Of the document that was handed to the program."""
    answer: str
    """The first line of the program's answer."""


class Cover(NamedTuple):
    """The first and the last part of a report."""

    title: str
    heading: Sequence[Tuple[str, str]]
    signatures: Sequence[str]
    not_looked_at: Sequence[str]
    account: Sequence[str]
    """What became of the telegrams and messages of the files."""
    is_proved: bool
    """Whether the rules F of the program were applied."""
    all_judged: bool
    """Whether each of them was judged or refused."""
    verdict: Verdict
    at_fault: Sequence[str]
    evidence: Optional[Evidence]
    """None if there is no verdict of the program: its rules were not applied, or nothing was handed to it."""
    refused: Sequence[RefusedInput]
    left_out: Sequence[Tuple[str, str]]
    said: Sequence[str]
    """Remarks on the table."""
    inputs: Sequence[Tuple[str, str, str]]
    """Name, SHA-256 and content of each input."""
    program: Sequence[Tuple[str, str]]
    version: str
    not_proved: str


def cover(
    outcome: Outcome, heading: ReportHeading, command: str, now: datetime, certified: Optional[Certified] = None
) -> Cover:
    """The cover of a report on an outcome. `command` begins the command that writes the document again.

    `certified` is a certificate of this very check.
    """
    checked, judged, table = outcome.checked, outcome.judged, outcome.checked.table
    shown = paths_from(checked)
    rows = [*_heading(outcome, heading, now), *([("certificate", certified.last_line)] if certified else [])]
    faults = list(fault_lines(judged, shown)) if judged else []
    return Cover(
        clean(heading.project or shown(table.path)),
        [(name, clean(value)) for name, value in rows if value],
        list(map(clean, heading.signatures)),
        [*not_tried(checked), *not_looked_at(outcome)],
        list(account_lines(outcome)),
        PROVED in outcome.letters,
        not (outcome.account.not_judged or outcome.account_of_messages and outcome.account_of_messages.not_judged),
        _verdict(outcome, last_lines(outcome)),
        [*faults, *(unnamed_lines(outcome) if judged else ())],
        _evidence(outcome, command),
        list(refused(checked)),
        [(describe_group(each.group), clean(each.why)) for each in checked.left_out],
        [f"{aspects_found(table)}. {LACKING}", *remarks(table), *map(_note, table.notes), *passed_over(table)],
        list(_inputs(checked, judged, certified)),
        list(_program(checked)),
        __version__,
        NOT_PROVED,
    )


def _heading(outcome: Outcome, heading: ReportHeading, now: datetime) -> Iterator[Tuple[str, str]]:
    """What the report is about, and what it was made with. A value can be empty."""
    checked, shown = outcome.checked, paths_from(outcome.checked)
    yield from (("project", heading.project), ("table", shown(checked.table.path)), ("revision", heading.revision))
    yield from (("date", clock.stamp(now)), ("author", heading.author), ("program", program_words(checked.program)))
    yield "settings", settings_words(checked.settings, shown)
    yield from [("entries", entries_words(outcome.judged, shown))] if outcome.judged else []


LACKING = "An aspect that the table lacks was not checked, and nothing else here shows that it is missing."


def _note(note: str) -> str:
    return f"Note: {clean(note)}"


def _verdict(outcome: Outcome, closing: Sequence[str]) -> Verdict:
    judged = outcome.judged
    still_open = judged.open if judged else outcome.items
    if outcome.status == 2:
        tone, word = "incomplete", "Incomplete"
    elif still_open:
        tone, word = "open", "Findings" if any(isinstance(item, Place) for item in still_open) else "Remarks"
    elif outcome.status:
        tone, word = "open", "Entries at fault"
    else:
        tone, word = "good", "Nothing open" if outcome.items else "Nothing found"
    return Verdict(tone, word, "; ".join(_counts(outcome)), closing)


def _counts(outcome: Outcome) -> Iterator[str]:
    """What was found and what is missing, in numbers."""
    checked, judged = outcome.checked, outcome.judged
    yield from filter(None, [", ".join(lacking(checked))])
    yield from (text for part in outcome.parts if part.applied for text in empty_rules(part.applied).values())
    if PROVED in outcome.letters:
        groups = {place.group.name for place in checked.findings if place.group}
        messages = {place.message.number for place in checked.findings if place.message}
        where = [f"{len(groups)} of {counted(len(checked.kept), 'group')}"] if groups else []
        where += [counted(len(messages), "message")] if messages else []
        findings = counted(len(checked.findings), "finding")
        separated = headings.separated(outcome.parts[0].open)
        yield f"{findings} in {' and '.join(where)}{separated}" if where else "no findings"
    others = {part.family.letter: len(part.items) for part in outcome.parts if part.applied}
    if others:
        of_families = ", ".join(f"{letter} {count}" for letter, count in others.items() if count)
        total = sum(others.values())
        yield f"{counted(total, 'remark')} ({of_families})" if total else "no remarks"
    if judged:
        faults = f", {counted(len(judged.faults), 'entry', 'entries')} at fault" if judged.faults else ""
        yield f"{len(judged.items) - len(judged.open)} accepted, {len(judged.open)} open{faults}"
    yield from _lacks(outcome)


def _lacks(outcome: Outcome) -> Iterator[str]:
    """What no rule has looked at."""
    where = _not_decoded(outcome.checked)
    if where and PROVED in outcome.letters:
        yield f"packets not decoded in {counted(len(where), 'telegram or message', 'telegrams or messages')}"
    if outcome.without_kilometres:
        yield "rules over the line not applied"
    elif not set(FAMILIES) <= {*IF_ANY, *outcome.letters}:
        yield f"only the rules {', '.join(outcome.letters)} applied"


def _not_decoded(checked: Checked) -> Set[Tuple[bool, int]]:
    """The rows, and the lines of messages, with a packet that neither the program nor balisekit has decoded."""
    places = ((False, checked.accepted.raw_packets()), (True, checked.raw_in_messages))
    return {
        (is_message, number)
        for is_message, raw in places
        for key, numbers in raw.items()
        if layout_of(*key) is None
        for number in numbers
    }


def _evidence(outcome: Outcome, command: str) -> Optional[Evidence]:
    """How the verdict is repeated, if there is one."""
    checked = outcome.checked
    if outcome.verdict is None:
        return None
    content = hashlib.sha256()
    for piece in document(checked.kept, [each.message for each in checked.accepted_messages]):
        content.update(piece.encode("utf-8", "surrogatepass"))
    again = [f"{command} --document {DOCUMENT}", f"sha256sum {DOCUMENT}", f"balisecheck check < {DOCUMENT}"]
    return Evidence(again, content.hexdigest(), outcome.verdict.line)


def _inputs(
    checked: Checked, judged: Optional[Judged], certified: Optional[Certified]
) -> Iterator[Tuple[str, str, str]]:
    """Name, SHA-256 and content of each input."""
    table, messages, entries = checked.table, checked.messages, judged.entries if judged else None
    shown = paths_from(checked)
    content = f"{counted(len(table.rows), 'telegram')} of {counted(len(table.groups), 'group')}; {table.encoding}"
    yield clean(shown(table.path)), table.sha256, content
    if messages:
        yield clean(shown(messages.path)), messages.sha256, f"{len(messages.messages)} radio messages"
    if entries:
        yield clean(shown(entries.path)), entries.sha256, f"{len(entries.entries)} entries of accepted findings"
    if certified:
        yield clean(shown(certified.path)), certified.sha256, "the certificate: which mistakes this check would find"


def _program(checked: Checked) -> List[Tuple[str, str]]:
    """What is known of the program, or of its library if that answered."""
    program = checked.program
    about = [("file", clean(program.path)), ("SHA-256", program.sha256)]
    about += [(key, value) for key, value in program.about.items() if key != program.kind]
    return about + [("known by", known_words(program))]

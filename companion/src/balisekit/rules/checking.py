"""What `check` finds of a table: what was refused, what was left out, and the program's report on the rest."""
from __future__ import annotations

import json
import os
from array import array
from dataclasses import dataclass, replace
from functools import cached_property, lru_cache, partial
from typing import Dict, Iterable, Iterator, List, Mapping, NamedTuple, Optional, Sequence, Set, Tuple, TypeVar, Union

from balisekit.engine.grammar import Finding, Refusal, Verdict
from balisekit.engine.program import Program, Record, Report
from balisekit.engine.records import Form, kept_as_bits
from balisekit.engine.run import temporary_file
from balisekit.errors import NoAnswer
from balisekit.etcs.places import Identities
from balisekit.rules.findings_on_correct_data import row_of
from balisekit.rules.statements import statement
from balisekit.rules.statements.scene import Aspects, Balise, BaliseName, Scene, Statement
from balisekit.tables.account import Account
from balisekit.tables.grouping import by_position, look_at_positions
from balisekit.tables.model import Aspect, Group, Message, Messages, Row, Table
from balisekit.tables.settings import Settings

GREATEST_REFUSED = 10_000
"""After this many refused telegrams the others are not tried."""
NOT_TRIED = f"not tried after {GREATEST_REFUSED:,} refused ones; --all tries them"
LEFT_OUT = "another telegram of the group was refused or not tried"
ALL_HELP = f"continue after {GREATEST_REFUSED:,} refused telegrams or messages, and list all that was not compared"
ENCODE = json.JSONEncoder().encode
Raw = Dict[Tuple[int, bool], List[int]]
"""The rows, or the lines of a file of messages, by packets that the program keeps as bits: by NID_PACKET, and whether
they go from track to train."""
Answer = TypeVar("Answer")
Thing = TypeVar("Thing")


def note_raw(raw: Raw, number: int, record: Record) -> None:
    """Puts the packets of a record that are kept as bits beside this row, or line of a file of messages."""
    for packet in kept_as_bits(record.line):
        raw.setdefault((packet, '"nid_message":136' not in record.line), []).append(number)


class _Kept:
    """Records in a temporary file, by the number of their rows. In memory each process that reads one would copy it."""

    def __init__(self, decoded: Iterable[Tuple[Row, Record]], greatest: int) -> None:
        self._file = temporary_file()
        self._begins, self._ends = (array("Q", [0]) * (greatest + 1) for _ in range(2))
        for row, record in decoded:
            self._begins[row.number] = self._file.tell()
            self._file.write(record.line.encode())
            self._ends[row.number] = self._file.tell()
        self._file.flush()

    def __getitem__(self, number: int) -> Record:
        begin = self._begins[number]
        return Record(os.pread(self._file.fileno(), self._ends[number] - begin, begin).decode())


class Telegrams(Mapping[int, Form]):
    """The records of the telegrams that the program can read, by the number of their rows.

    `check` needs no record for its verdict. So the telegrams are decoded when the first record is asked for, or when
    they are to be kept, and their lines of JSON are kept: the objects of them all take much memory.
    """

    def __init__(self, program: Program, rows: Sequence[Row], known: Mapping[str, Record] = {}) -> None:
        """`known` has records of telegrams that were decoded before, by their digits."""
        self._program, self._known = program, known
        self._rows = {row.number: row for row in rows}
        self._kept: Optional[_Kept] = None
        self._identities: Dict[int, Tuple[int, int]] = {}
        self.raw: Optional[Raw] = None
        """The packets that are kept as bits, once all telegrams have been decoded."""

    @cached_property
    def records(self) -> Mapping[str, Record]:
        """The records of all telegrams, by their digits."""
        return {row.telegram: record for row, record in self.decoded()}

    def keep(self) -> _Kept:
        """The records of all telegrams, which are decoded once for those that ask for them several times."""
        if self._kept is None:
            self._kept = _Kept(self.decoded(), max(self._rows, default=0))
        return self._kept

    def decoded(self, numbers: Optional[Iterable[int]] = None) -> Iterator[Tuple[Row, Record]]:
        """The records of these rows, or of all rows. Unless they are kept they are decoded now."""
        rows = list(self._rows.values()) if numbers is None else [self._rows[number] for number in numbers]
        if self._kept is not None:
            yield from zip(rows, map(self._kept.__getitem__, [row.number for row in rows]))
            return
        raw: Raw = {}
        for row, answer in zip(rows, _decoded(self._program, rows, self._known)):
            if isinstance(answer, Refusal):
                raise self._program.no_answer("decode", f"it refuses what it has read: {answer.line}")
            note_raw(raw, row.number, answer)
            yield row, answer
        self.raw = raw if numbers is None else self.raw

    def identities(self, numbers: Iterable[int]) -> Mapping[int, Tuple[int, int]]:
        """NID_C and NID_BG of at least these rows. Each is decoded once for all that ask for it."""
        for row, record in self.decoded(sorted({*numbers} - self._identities.keys())):
            header, _ = record.parts
            self._identities[row.number] = header.nid_c, header.nid_bg
        return self._identities

    def raw_packets(self) -> Raw:
        """Those that are kept as bits. If not all telegrams have been decoded yet, they are decoded now."""
        for _ in self.decoded() if self.raw is None else ():
            pass
        return self.raw or {}

    def line(self, number: int) -> str:
        """The record of a row, as the program has written it."""
        return self.keep()[number].line

    def __getitem__(self, number: int) -> Form:
        if number not in self._rows:
            raise KeyError(number)
        return self.keep()[number].shared

    def __iter__(self) -> Iterator[int]:
        return iter(self._rows)

    def __len__(self) -> int:
        return len(self._rows)

    def __contains__(self, number: object) -> bool:
        return number in self._rows


def _decoded(program: Program, rows: Sequence[Row], known: Mapping[str, Record]) -> Iterator[Union[Record, Refusal]]:
    """What the program says of each of these telegrams. Those whose records are known are not decoded again."""
    if not known:
        yield from program.decode([row.telegram for row in rows])
        return
    new = iter(program.decode([row.telegram for row in rows if row.telegram not in known]))
    for row in rows:
        yield known[row.telegram] if row.telegram in known else next(new)


class Refused(NamedTuple):
    """A row whose telegram the program has refused."""

    row: Row
    refusal: Refusal
    first: int
    """The row at which the run began that refused it."""


class AcceptedMessage(NamedTuple):
    """A message that the program has read."""

    message: Message
    record: Record

    @property
    def form(self) -> Form:
        """The program's JSON."""
        return self.record.form


class RefusedMessage(NamedTuple):
    """A message that the program has refused."""

    message: Message
    refusal: Refusal


class LeftOut(NamedTuple):
    """A group that was not handed to `check`, and why."""

    group: Group
    why: str


class Place(NamedTuple):
    """What a finding is about, in the table's words. What it does not name is None."""

    finding: Finding
    group: Optional[Group] = None
    aspect: Optional[str] = None
    """The aspect's name in the table, even if the group has only one aspect."""
    row: Optional[Row] = None
    """The balise's row. Without an aspect, for F16, it is that of the first aspect."""
    message: Optional[Message] = None
    earlier: Optional[Group] = None
    """Of F14: the first group with the same identity."""
    statement: Statement = Statement("")
    """What is wrong, with the values that differ."""
    balise: Optional[BaliseName] = None
    """What the balise is called."""
    correct: str = ""
    """The row of the table of findings on correct data that it fits."""


@dataclass(frozen=True)
class Checked:
    """All that the program has said of a table, and of what."""

    program: Program
    table: Table
    messages: Optional[Messages]
    accepted: Telegrams
    """By the number of the row."""
    kept: Tuple[Group, ...]
    """The groups that were handed to `check`, in the order of the document."""
    accepted_messages: Tuple[AcceptedMessage, ...]
    """The messages that were handed to `check`, in the order of the document."""
    refused: Tuple[Refused, ...] = ()
    left_out: Tuple[LeftOut, ...] = ()
    refused_messages: Tuple[RefusedMessage, ...] = ()
    verdict: Optional[Verdict] = None
    """The program's first line, if it was asked."""
    findings: Tuple[Place, ...] = ()
    settings: Settings = Settings()
    """Which settings of the command differ from their defaults."""

    def __repr__(self) -> str:
        return f"<Checked {self.table.path}: status {self.status}, {len(self.findings)} findings>"

    @property
    def not_looked_at(self) -> int:
        """How many rows were not tried, after too many refused ones."""
        return len(self.table.rows) - len(self.accepted) - len(self.refused)

    @property
    def messages_not_looked_at(self) -> int:
        """How many messages were not tried, after too many refused ones."""
        tried = len(self.accepted_messages) + len(self.refused_messages)
        return len(self.messages.messages) - tried if self.messages else 0

    @cached_property
    def raw_in_messages(self) -> Raw:
        """The packets of messages that are kept as bits."""
        raw: Raw = {}
        for accepted in self.accepted_messages:
            note_raw(raw, accepted.message.number, accepted.record)
        return raw

    @cached_property
    def account(self) -> Account:
        """What became of the telegrams of the table."""
        account = self.table.account.refusing(len(self.refused))
        if not (self.refused or self.left_out or self.not_looked_at):
            return account
        refused = {each.row.number for each in self.refused}
        tried = refused | self.accepted.keys()
        account = account.without(NOT_TRIED, {row.number for row in self.table.rows} - tried)
        left_out = {row.number for each in self.left_out for row in each.group.rows()}
        return account.without(LEFT_OUT, left_out & self.accepted.keys())

    @cached_property
    def account_of_messages(self) -> Optional[Account]:
        """What became of the messages, if there is a file of them."""
        if self.messages is None:
            return None
        tried = {each.message.number for each in self.accepted_messages}
        tried |= {each.message.number for each in self.refused_messages}
        lines = {message.number for message in self.messages.messages}
        return self.messages.account.refusing(len(self.refused_messages)).without(NOT_TRIED, lines - tried)

    @property
    def whole(self) -> bool:
        """Whether all that is in the file, and was not left out by an option, has been checked."""
        is_checked = not (self.refused or self.refused_messages or self.left_out or self.not_looked_at)
        return is_checked and self.table.account.is_whole

    @property
    def status(self) -> int:
        """The exit status: 2 if anything was refused or left out, else 1 with findings, else 0 for a yes."""
        if not self.whole or self.verdict is None:
            return 2
        return 0 if self.verdict.yes else 1


def check(
    program: Program,
    table: Table,
    messages: Optional[Messages] = None,
    by_position: bool = False,
    everything: bool = False,
    known: Mapping[str, Record] = {},
) -> Checked:
    """The program's report on the table, or on what is left of it without the telegrams and messages that it refuses.

    After 10,000 refused telegrams or messages the others are not tried, unless `everything` is asked for. Telegrams
    whose records are `known` by their digits are not decoded again.
    """
    radio = messages.messages if messages else ()
    report = None if by_position else program.check(document(table.groups, radio))
    if isinstance(report, Report):
        read = tuple(map(AcceptedMessage, radio, program.readable_messages([message.text for message in radio])))
        return _with(
            report, Checked(program, table, messages, Telegrams(program, table.rows, known), table.groups, read)
        )
    accepted, refused = _try_rows(program, table.rows, everything, known)
    left_out, kept = _sort_out(table.groups, accepted, {one.row.number for one in refused})
    if by_position:
        kept = _by_position(kept, accepted)
        look_at_positions(table.path, kept)
    read, refused_messages = _try_messages(program, radio, everything)
    readable = Checked(program, table, messages, accepted, kept, read, refused, left_out, refused_messages)
    return report_on(readable) if kept or read or readable.whole else readable


def report_on(readable: Checked) -> Checked:
    """The same with what the program reports of its groups and messages, all of which it has read."""
    messages = [accepted.message for accepted in readable.accepted_messages]
    report = readable.program.check(document(readable.kept, messages))
    if isinstance(report, Refusal):
        raise readable.program.no_answer("check", f"it refuses what `decode` has read: {report.line}")
    return _with(report, readable)


def document(groups: Sequence[Group], messages: Iterable[Message]) -> Iterator[str]:
    """The document that is handed to `check`, in pieces."""
    yield '{"groups":['
    for index, group in enumerate(groups):
        texts = [",".join([_quoted(row.telegram) for row in aspect.rows]) for aspect in group.aspects]
        form = '{"balises":[' + ']},{"balises":['.join(texts) + "]}"
        yield ("," if index else "") + "\n" + (form if len(texts) == 1 else f'{{"aspects":[{form}]}}')
    yield '\n],"messages":['
    for index, message in enumerate(messages):
        yield ("," if index else "") + "\n" + ENCODE(message.text)
    yield "\n]}\n"


def _quoted(text: str) -> str:
    """The text as JSON."""
    return f'"{text}"' if text.isalnum() and text.isascii() else ENCODE(text)


def until_too_many(answers: Iterable[Answer], everything: bool) -> Iterator[Answer]:
    """The answers up to the 10,000th refusal, or all of them if `everything` is asked for."""
    refused = 0
    for answer in answers:
        yield answer
        refused += isinstance(answer, Refusal)
        if refused >= GREATEST_REFUSED and not everything:
            return


def greatest_refused(everything: bool) -> Optional[int]:
    """After how many refused messages the others are not tried."""
    return None if everything else GREATEST_REFUSED


def _try_rows(
    program: Program, rows: Sequence[Row], everything: bool, known: Mapping[str, Record]
) -> Tuple[Telegrams, Tuple[Refused, ...]]:
    accepted: List[Row] = []
    refused: List[Refused] = []
    raw: Raw = {}
    for index, answer in enumerate(until_too_many(_decoded(program, rows, known), everything)):
        if isinstance(answer, Refusal):
            refused.append(Refused(rows[index], answer, rows[index + 1 - (answer.number or 1)].number))
        else:
            accepted.append(rows[index])
            note_raw(raw, rows[index].number, answer)
    telegrams = Telegrams(program, accepted, known)
    telegrams.raw = raw
    return telegrams, tuple(refused)


def _try_messages(
    program: Program, radio: Sequence[Message], everything: bool
) -> Tuple[Tuple[AcceptedMessage, ...], Tuple[RefusedMessage, ...]]:
    texts = [message.text for message in radio]
    answers = list(zip(radio, program.messages(texts, greatest_refused(everything))))
    accepted = (AcceptedMessage(message, answer) for message, answer in answers if isinstance(answer, Record))
    refused = (RefusedMessage(message, answer) for message, answer in answers if isinstance(answer, Refusal))
    return tuple(accepted), tuple(refused)


def _sort_out(
    groups: Sequence[Group], accepted: Telegrams, refused: Set[int]
) -> Tuple[Tuple[LeftOut, ...], Tuple[Group, ...]]:
    """The groups with a row that was not accepted, and the others."""
    left_out, kept = [], []
    for group in groups:
        numbers = {row.number for row in group.rows()}
        bad = sorted(numbers & refused)
        if bad:
            left_out.append(LeftOut(group, f"refused: row{'s' if len(bad) > 1 else ''} {', '.join(map(str, bad))}"))
        elif numbers <= accepted.keys():
            kept.append(group)
        else:
            left_out.append(LeftOut(group, "not looked at"))
    return tuple(left_out), tuple(kept)


def _by_position(groups: Sequence[Group], accepted: Telegrams) -> Tuple[Group, ...]:
    """The groups with the balises of each aspect in the order of N_PIG."""
    positions = {row.number: record.form["n_pig"] for row, record in accepted.decoded()}
    return tuple(by_position(group, positions) for group in groups)


def _with(report: Report, readable: Checked) -> Checked:
    """The same with this report, and what the numbers of each finding stand for."""
    counts = (report.verdict.groups, report.verdict.messages)
    if report.verdict.yes and counts != (len(readable.kept), len(readable.accepted_messages)):
        raise readable.program.no_answer("check", f"its counts are wrong: {report.verdict.line}")
    names = _Names(readable, report.findings)
    return replace(readable, verdict=report.verdict, findings=tuple(map(names.place, report.findings)))


def _head(group: Group) -> Row:
    return group.aspects[0].rows[0]


def _correct(scene: Scene) -> str:
    return row_of(scene.finding, scene.aspects)


def _aspects(groups: Sequence[Group], records: Mapping[int, Record], index: int) -> Aspects:
    """All telegrams of a group."""
    group = groups[index]
    forms = {row.number: records[row.number].form for row in group.each_row}
    aspects = [[Balise(row, forms[row.number], place) for place, row in enumerate(each.rows)] for each in group.aspects]
    return Aspects(aspects, group)


class _Names:
    """The groups, aspects and balises of the table that the numbers of findings mean. NoAnswer is raised for others."""

    def __init__(self, readable: Checked, findings: Sequence[Finding]) -> None:
        self._readable = readable
        of_identity = any(finding.rule == 14 for finding in findings)
        of_messages = any(finding.message is not None and finding.rule in (11, 13) for finding in findings)
        places = {finding.group: finding for finding in findings if finding.group is not None}
        groups = [self._at(readable.kept, place, finding) for place, finding in places.items()]
        heads = [_head(group) for group in readable.kept] if of_identity or of_messages else []
        rows = {row.number for row in (*heads, *(row for group in groups for row in group.rows()))}
        self._records = {row.number: record for row, record in readable.accepted.decoded(sorted(rows))}
        # (the findings of a group are together; a method of this object would be a cycle)
        self._aspects = lru_cache(maxsize=1)(partial(_aspects, readable.kept, self._records))
        self._first = list(self._first_groups()) if of_identity else []
        forms = {row.number: self._records[row.number].form for row in heads} if of_messages else {}
        self._identities = Identities(readable.kept, forms)

    def _first_groups(self) -> Iterator[Group]:
        """For each group the first group with the same identity."""
        first: Dict[Tuple[int, int], Group] = {}
        for group in self._readable.kept:
            form = self._records[_head(group).number].form
            yield first.setdefault((form["nid_c"], form["nid_bg"]), group)

    def place(self, finding: Finding) -> Place:
        """What one finding is about."""
        if finding.message is not None:
            accepted = self._at(self._readable.accepted_messages, finding.message, finding)
            form = accepted.form
            self._look_at_packet(form, finding)
            scene = Scene(finding, Aspects([[Balise(None, form)]], self._identities.group_of(form)))
            return Place(finding, message=accepted.message, statement=statement(scene), correct=_correct(scene))
        group, aspect, row = self._site(finding)
        earlier = self._first[finding.group or 0] if finding.rule == 14 else None
        if earlier is group:
            raise self._no_answer(finding)
        scene = Scene(finding, self._aspects(finding.group or 0), earlier)
        self._look_at_packet(scene.own.form, finding)
        name = None if finding.aspect is None and len(group.aspects) > 1 else aspect.name
        balise = None if row is None else scene.own.name
        return Place(finding, group, name, row, None, earlier, statement(scene), balise, _correct(scene))

    def _site(self, finding: Finding) -> Tuple[Group, Aspect, Optional[Row]]:
        """The group, the aspect and the balise of a finding.

        It names an aspect if and only if it is about one of several. F15 and F16 are about groups with several.
        """
        group = self._at(self._readable.kept, finding.group or 0, finding)
        several, of_one = len(group.aspects) > 1, finding.aspect is not None
        if several < (finding.rule in (15, 16)) or of_one != several and (of_one or finding.rule not in (14, 16)):
            raise self._no_answer(finding)
        aspect = self._at(group.aspects, finding.aspect or 0, finding)
        return group, aspect, None if finding.balise is None else self._at(aspect.rows, finding.balise, finding)

    def _look_at_packet(self, form: Form, finding: Finding) -> None:
        """Raises NoAnswer if the finding names a packet that the telegram or message does not have."""
        if finding.packet is not None:
            self._at(form["packets"], finding.packet, finding)

    def _at(self, things: Sequence[Thing], index: int, finding: Finding) -> Thing:
        if index >= len(things):
            raise self._no_answer(finding)
        return things[index]

    def _no_answer(self, finding: Finding) -> NoAnswer:
        return self._readable.program.no_answer("check", f"it names what was not handed to it: {finding.line}")

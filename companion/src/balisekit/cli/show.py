"""`balisekit show`: each telegram and message in words."""
from __future__ import annotations

import argparse
import textwrap
from collections import Counter, deque
from typing import Callable, Deque, Dict, Generator, Iterable, Iterator, List, Mapping, Optional, Sequence, Tuple, Union

from balisekit.cli import options as shared
from balisekit.cli.in_force import in_force
from balisekit.cli.selection import groups_named, with_directions_of
from balisekit.engine.grammar import Refusal
from balisekit.engine.program import Program, Record
from balisekit.errors import TableError
from balisekit.etcs.places import Here, Identities, here_alone, places_of_rows
from balisekit.etcs.variables import Form
from balisekit.present.account_text import overlooked_lines
from balisekit.present.bit_table import bit_lines
from balisekit.present.opening import opening_of
from balisekit.present.refusals import message_refused, overlooked, telegram_refused
from balisekit.present.telegram_text import LEGEND, WIDTH, text
from balisekit.rules.checking import greatest_refused, until_too_many
from balisekit.rules.line import Records, with_directions
from balisekit.tables import messages as messages_file, standard_input
from balisekit.tables.grouping import by_position, look_at_positions
from balisekit.tables.model import Group, Messages, Table
from balisekit.tables.names import describe_balise, describe_message, notes_on

Answer = Union[Record, Refusal]


def add_options(parser: argparse.ArgumentParser) -> None:
    """The options of this command."""
    text = f"{shared.TABLE}; without it and --messages, telegrams from standard input, one per line"
    shared.add(parser, "table", help=text, nargs="?")
    shared.add(parser, *shared.INPUTS[1:])
    text = "only the telegrams of this group; it can be given several times"
    parser.add_argument("--group", action="append", **shared.value("NAME", shared.name, text))
    parser.add_argument("--bits", **shared.flag("show each field with its bit places"))
    shared.add(parser, "--all")


def run(options: argparse.Namespace) -> int:
    """Does it. The answer is the exit status."""
    if options.table is None:
        shared.refuse_unused(
            options, "without TABLE", "sheet", "columns", "skip_column", "fill_merged", "by_position", "group"
        )
    if options.group:
        shared.refuse_unused(options, "with --group", "messages")
    shown = _Shown(options)
    for lines in shown.blocks():
        print("\n".join(lines), end="\n\n", flush=options.table is None)
    for count in shown.not_looked_at:
        print(f"and {count}: --all continues\n")
    print(textwrap.fill(LEGEND, WIDTH))
    refused = [f"{count} of {shown.total[what]} {what} refused" for what, count in shown.refused.items() if count]
    if refused or shown.not_read:
        last_line = f"INCOMPLETE: {', '.join([*refused, *shown.not_looked_at, *shown.not_read])}"
        print(last_line)
        raise TableError(last_line)
    return 0


class _Shown:
    """What is shown, and what is counted on the way by `telegrams` and `messages`."""

    def __init__(self, options: argparse.Namespace) -> None:
        self.options = options
        self.total: "Counter[str]" = Counter()
        self.tried: "Counter[str]" = Counter()
        self.refused: "Counter[str]" = Counter()
        self.not_read: Sequence[str] = ()
        """How many telegrams of the table are in what is not read."""

    @property
    def not_looked_at(self) -> List[str]:
        """How many were not tried, after too many refused ones."""
        places = {"telegrams": "rows" if self.options.table else "lines", "messages": "messages"}
        left = self.total - self.tried
        return [f"{left[what]} {place} not looked at" for what, place in places.items() if left[what]]

    def blocks(self) -> Iterator[List[str]]:
        """The lines of each telegram and message."""
        options = self.options
        if options.table is not None:
            program, table, messages = shared.inputs(options)
            self.not_read = overlooked(table)
            yield from ([line] for line in (*notes_on(table), *overlooked_lines(table)))
            chosen = groups_named(table, options.group) if options.group else table
            yield opening_of(program, in_force(options, [table]))
            groups = Identities(chosen.groups, (yield from self._table(program, table, chosen)))
        else:
            messages = messages_file.read(options.messages) if options.messages else None
            program, groups = Program.find(options.program, options.timeout), Identities((), {})
            opening = opening_of(program, in_force(options, []))
            yield from [opening] if messages else self._standard_input(program, opening)
        yield from self._messages(program, messages, groups)

    def _standard_input(self, program: Program, opening: List[str]) -> Iterator[List[str]]:
        """The telegrams of standard input, which are decoded as they come. Before the first one nothing is written."""
        batches = standard_input.batches()
        waiting: Deque[Tuple[int, str]] = deque()

        def answers() -> Iterator[Answer]:
            for batch in batches:
                self.total["telegrams"] += len(batch)
                waiting.extend(batch)
                yield from program.decode([telegram for _, telegram in batch])

        for answer in self._tried("telegrams", answers()):
            number, telegram = waiting.popleft()
            yield from [opening] if opening else []
            opening = []
            yield self._block(f"line {number}", telegram, answer, telegram_refused, here_alone)
        yield from [opening] if opening else []
        self.total["telegrams"] += sum(map(len, batches))

    def _table(self, program: Program, whole: Table, table: Table) -> Generator[List[str], None, Dict[int, Form]]:
        """The telegrams of the table, or of some of its groups. The answer has the first one read of each group."""
        self.total["telegrams"] = len(table.rows)
        decoded = self._tried("telegrams", program.decode([row.telegram for row in table.rows]))
        answers = {row.number: answer for answer, row in zip(decoded, table.rows)}
        firsts: Dict[int, Form] = {}
        records = Records({number: answer for number, answer in answers.items() if isinstance(answer, Record)})
        ordered: Sequence[Group] = [self._ordered(group, records) for group in table.groups]
        if self.options.group:
            groups, notes = with_directions_of(whole, ordered, program, self.options.by_position)
        else:
            groups, notes = with_directions(ordered, records)
        yield from ([f"note: {note}"] for note in notes)
        for group in groups:
            forms = {row.number: records[row.number] for row in group.rows() if row.number in records}
            first = group.aspects[0].rows[0].number
            firsts.update({first: forms[first]} if first in forms else {})
            rows = {row.number: row for row in group.rows()}
            for number, here in places_of_rows(group, forms).items():
                if number in answers:
                    n_pig = forms[number]["n_pig"] if number in forms else None
                    heading = describe_balise(group, rows[number], n_pig)
                    yield self._block(heading, rows[number].telegram, answers[number], telegram_refused, lambda _: here)
        return firsts

    def _ordered(self, group: Group, forms: Mapping[int, Form]) -> Group:
        """The group with its balises in the order of N_PIG, if that is asked for and all have been read."""
        numbers = {row.number for row in group.rows()} if self.options.by_position else set()
        if not numbers or not numbers <= forms.keys():
            return group
        ordered = by_position(group, {number: forms[number]["n_pig"] for number in numbers})
        look_at_positions(self.options.table, [ordered])
        return ordered

    def _messages(self, program: Program, messages: Optional[Messages], groups: Identities) -> Iterator[List[str]]:
        read = messages.messages if messages else ()
        self.total["messages"] = len(read)
        answers = program.messages([message.text for message in read], greatest_refused(self.options.all))
        for answer, message in zip(self._tried("messages", answers), read):
            heading = f"message of {describe_message(message)}"
            yield self._block(heading, message.text, answer, message_refused, groups.here)

    def _block(
        self,
        heading: str,
        digits: str,
        answer: Answer,
        sentence: Callable[[str, Refusal], str],
        here: Callable[[Form], Here],
    ) -> List[str]:
        """The lines of a telegram or message. Those of a refused one end with the program's words."""
        if isinstance(answer, Refusal):
            return [f"{heading}: {sentence(digits, answer)}", f"    program: {answer.text}"]
        form = answer.shared
        lines = bit_lines(digits, form) if self.options.bits else text(form, here(form)).split("\n")
        return [heading, *lines]

    def _tried(self, what: str, answers: Iterable[Answer]) -> Iterator[Answer]:
        """The answers up to too many refusals."""
        for answer in until_too_many(answers, self.options.all):
            self.tried[what] += 1
            self.refused[what] += isinstance(answer, Refusal)
            yield answer

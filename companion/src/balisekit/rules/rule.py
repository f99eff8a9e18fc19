"""What a rule of balisekit is: its page, and the function that looks for it in a line.

Each rule has a file of its own, whose docstring is its page. A rule is balisekit's own, and not proved.
"""
from __future__ import annotations

import re
from collections import Counter
from dataclasses import dataclass
from decimal import Decimal
from enum import IntEnum
from functools import cached_property
from typing import (
    TYPE_CHECKING,
    AbstractSet,
    Callable,
    Dict,
    FrozenSet,
    Iterator,
    List,
    Mapping,
    NamedTuple,
    Optional,
    Sequence,
    Tuple,
    Union,
)

from balisekit.rules.chainage import Jump
from balisekit.rules.chains import Chain
from balisekit.rules.line import Line
from balisekit.rules.location import BaliseGroup, Location
from balisekit.rules.page_sentences import filled_in
from balisekit.tables.model import Row
from balisekit.tables.names import NAMED, describe_message, listed, rows_words
from balisekit.tables.plan import Plan

if TYPE_CHECKING:  # (only added rules need the one, and rules X the other)
    from balisekit.rules.template import Template
    from balisekit.rules.track_plan.confirmed import Confirmed

REFUSED = "refused"
FALSE_ALARM, NEVER = "When it is a false alarm", "Never"
"""The paragraph of a page, and how it begins if no correct data gets a remark."""
ALL = "all"
"""Asks for all rules."""
LINE_SPEED, RELEASE_SPEED = 350, 40
"""In km/h, if the user says nothing."""


Field = Tuple[int, int, str, Optional[int]]
"""A field of a telegram: its row, the place of its packet, its key, and which element it is of, counted from 0."""


class Origin(NamedTuple):
    """The file of a rule that is not balisekit's. Of an installed package it is the name of the module."""

    path: str
    sha256: str
    """Empty if the code of the rule is in no file."""
    package: str = ""
    version: str = ""

    def __str__(self) -> str:
        return f"{self.package} {self.version}: {self.path}" if self.package else self.path


class Urgency(IntEnum):
    """What may follow at worst, the gravest first."""

    WRONG_INFORMATION = 1
    """A train may go by information that is wrong, is not for it or does not reach far enough."""
    WRONG_PLACE = 2
    """A train may believe itself to be somewhere else."""
    NOT_JUDGED = 3
    """The program does not judge what a packet does, so anything above or below may follow."""
    BRAKING = 4
    """A train may brake or be tripped without need."""
    RULE_ONLY = 5
    """No effect on a train is known; a rule of the standard or of this project is broken."""


class Options(NamedTuple):
    """What a user says of the line."""

    tolerance: Decimal = Decimal()
    """How many metres the kilometres of the table may be wrong, for the rules L."""
    tolerance_of_places: Decimal = Decimal(1)
    """By how many metres places may differ, for the rules E."""
    line_speed: Optional[int] = None
    """The greatest speed of the line in km/h, if the user states it."""
    release_speed: int = RELEASE_SPEED
    """The greatest release speed of the line in km/h."""
    jumps: Tuple[Jump, ...] = ()
    """Where the kilometres jump."""
    asked: FrozenSet[str] = frozenset()
    """The rules that were asked for by name, or `all`."""
    plan: Optional[Plan] = None
    """The track plan, for the rules X."""
    added: Tuple[Rule, ...] = ()
    """The rules that the user adds."""
    layouts: FrozenSet[int] = frozenset()
    """The raw packets whose layouts the project has compared with its print, by NID_PACKET."""
    confirmed: Optional[float] = None
    """How many of a hundred variables the design has to confirm, if the user states it."""
    replaced: Tuple[str, ...] = ()
    """The files and packages with rules that the settings name, and in whose place the command line names others."""

    @property
    def greatest_speed(self) -> int:
        """The speed in km/h above which a speed is remarked."""
        return LINE_SPEED if self.line_speed is None else self.line_speed

    def asks_for(self, rule: str) -> bool:
        """Whether a rule, or the part of a rule that is off by default, was asked for."""
        return not self.asked.isdisjoint({rule, ALL})


class Remark(NamedTuple):
    """What a rule has found, and where."""

    rule: str
    location: Location
    sentence: str
    about: Optional[BaliseGroup] = None
    """The group that the sentence is about, if it is another one."""
    values: Mapping[str, Decimal] = {}
    """The values that the rule has compared, by their names."""
    named: Sequence[BaliseGroup] = ()
    """The other groups that the sentence rests on, if no telegram of its location names them."""
    urgency: Optional[Urgency] = None
    """How urgent it is, if it is not as urgent as its rule."""
    rows: Sequence[int] = ()
    """The rows that the sentence is about, if they are not the row or the rows of its location."""
    aspects: Sequence[str] = ()
    """The aspects that the sentence is about, if it is not about the row of its location."""
    marks: Sequence[Tuple[Optional[Row], str, int]] = ()
    """The places in a picture that it is about: the row, the direction, and the distance from the group."""
    blamed: Sequence[Field] = ()
    """The fields that look wrong, as far as the rule knows them."""
    beside: Sequence[Field] = ()
    """The fields with which it has compared them."""
    also: Sequence[Location] = ()
    """The other places that have it too: one remark stands for them all."""
    compared: Sequence[Location] = ()
    """The places that it compares with its own, if their telegrams or messages are known."""
    facts: Sequence[str] = ()
    """What it rests on and the sentence only counts, or does not show: an entry accepts nothing else."""
    texts: Mapping[str, str] = {}
    """The texts of an added rule that its sentence names, such as names of groups."""
    arguments: Sequence[str] = ()
    """What stands in the fields of the template of its rule, if that has one."""
    origin: Optional[Origin] = None
    """Where its rule is from, if that is not balisekit's."""

    @property
    def everywhere(self) -> Sequence[Location]:
        """All places that have it."""
        return [self.location, *self.also]

    @property
    def others(self) -> Sequence[int]:
        """The rows that it names beside its own."""
        if not self.also and not self.compared:
            return ()
        own = {*self.rows, *([self.location.row.number] if self.location.row else [])}
        return sorted({where.row.number for where in (*self.also, *self.compared) if where.row} - own)

    @property
    def words(self) -> str:
        """The sentence, and the rows of other groups and the messages that have it too."""
        if not self.also:
            return self.sentence
        rows = {where.row.number for where in self.also if where.row} - {*self.rows}
        messages = dict.fromkeys(where.message for where in self.also if where.message)
        names = [f"the message of {describe_message(each)}" for each in messages]
        parts = [*([rows_words(rows)] if rows else []), *([listed(names, NAMED)] if names else [])]
        return f"{self.sentence}; {' and '.join(parts)} too" if parts else self.sentence


class Result(NamedTuple):
    """What a rule has found, how many things it has looked at, and how many not, by the reason."""

    found: Sequence[Remark]
    looked_at: int
    not_looked_at: Mapping[str, int] = {}
    """A rule that has looked at nothing, and not at something, makes the answer incomplete."""
    notes: Sequence[str] = ()
    """What the user should know beside the remarks, a line each."""
    is_optional: bool = False
    """Whether it is no fault that it has looked at nothing."""
    usual: AbstractSet[str] = frozenset()
    """The reasons that sound lines have too: words without `--all` only count them."""
    doubted: AbstractSet[int] = frozenset()
    """The rows that it would call wrong if no finding of the program did. None of these findings is expected."""
    confirmed: Optional[Confirmed] = None
    """Of a rule X: which variables rows of the design confirm or contradict."""

    @classmethod
    def of_chains(cls, line: Line, look_at: Callable[[Chain], Iterator[Union[Remark, str, None]]]) -> Result:
        """Looks at all chains: for each link `look_at` gives a remark, None if all is well, or why it is not compared.

        That reason is empty if there is nothing to compare. What telegrams of a group repeat is looked at once.
        """
        skipped = Counter(line.infill_links)
        found: List[Remark] = []
        looked_at = 0
        for chains in line.alike:
            for link, answer in zip(chains[0].links, look_at(chains[0])):
                if isinstance(answer, str):
                    if answer:
                        skipped[answer] += len(chains) * link.known
                    continue
                looked_at += len(chains)
                if answer:
                    place = answer.location.link
                    found += [answer._replace(location=chain.location._replace(link=place)) for chain in chains]
        return cls(found, looked_at, skipped)

    @classmethod
    def of_places(
        cls, found: Sequence[Remark], looked_at: int, lacks: Mapping[str, int], others: Mapping[str, int] = {}
    ) -> Result:
        """A result that counts what the table `lacks`, and others for which nothing in the table is missing."""
        return cls(found, looked_at, {**lacks, **others}, is_optional=not any(lacks.values()))

    @property
    def skipped(self) -> int:
        """How many things it has not looked at."""
        return sum(self.not_looked_at.values())

    @property
    def unusually_skipped(self) -> int:
        """How many of these for a reason that sound lines do not have."""
        return sum(count for why, count in self.not_looked_at.items() if why not in self.usual)

    @property
    def is_empty(self) -> bool:
        """Whether there was something to look at, and nothing was looked at."""
        return self.skipped > 0 and self.looked_at == 0 and not self.is_optional


@dataclass(frozen=True, eq=False)
class Rule:
    """A rule: its name, what it looks at, its page, and the function that looks for it."""

    name: str
    looks_at: str
    page: str
    find: Callable[[Line, Options], Result]
    urgency: Urgency = Urgency.RULE_ONLY
    """What its remarks mean at worst, as its page says."""
    needs_kilometres: bool = False
    """Whether it is not applied to a table without kilometres."""
    is_default: bool = True
    """Whether it is applied if nobody asks for it."""
    optional_part: str = ""
    """What it also reports if it is asked for by name, of a rule that is otherwise always applied."""
    template: Optional[Template] = None
    """Of what its sentences are made, if there is one template for all of them."""
    origin: Optional[Origin] = None
    """Where it is from, if it is not balisekit's."""

    @cached_property
    def title(self) -> str:
        """What the rule is about, by the first line of its page."""
        return self.page.split("\n", 1)[0].split(": ", 1)[-1].rstrip(".")

    @property
    def has_correct_data(self) -> bool:
        """Whether correct data may get a remark of this rule, by its page."""
        return not self.parts.get(FALSE_ALARM, NEVER).startswith(NEVER)

    @cached_property
    def parts(self) -> Dict[str, str]:
        """The paragraphs of the page after the first line, by their first words: `What it says`, `Why it matters`.

        A paragraph is one line, and each of its items, which begin with `- `, is a line of its own.
        """
        items = (re.split(r"\n(?=- )", each) for each in filled_in(self.page).split("\n\n")[1:])
        paragraphs = ["\n".join(" ".join(each.split()) for each in some) for some in items]
        return {head: text for head, _, text in (each.partition(". ") for each in paragraphs)}

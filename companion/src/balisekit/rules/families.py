"""The families of rules, by the letter that their names begin with, and what they find of a table.

F are the findings of the program, which are proved. The other families are rules of balisekit, and not proved.
"""
from __future__ import annotations

import time
from dataclasses import dataclass, replace
from datetime import date
from functools import cached_property, partial
from typing import AbstractSet, Iterable, Iterator, List, Mapping, NamedTuple, Optional, Sequence, Tuple

from balisekit.engine.grammar import Verdict
from balisekit.rules import links, meaning, track_plan
from balisekit.rules.accepted import RULES, Acceptance, Entries, Item, Judged, identities, judge
from balisekit.rules.applied import Applied, Notes, look_for, no_notes, results_of
from balisekit.rules.checking import Checked, Place, check
from balisekit.rules.corrections import SUGGESTIONS
from balisekit.rules.corrections.correction import Correction, Evidence
from balisekit.rules.corrections.trying import Again, Answer, explained
from balisekit.rules.discovery import ADDED, first_to_last, letter_of
from balisekit.rules.entries import Entry, entries, entry_of, with_stop_aspects
from balisekit.rules.line import Line
from balisekit.rules.location import Identity
from balisekit.rules.passed_over import Find, nothing
from balisekit.rules.rule import Options, Remark, Result, Rule
from balisekit.rules.statements.scene import BaliseName
from balisekit.rules.track_plan.coverage import Coverage, coverage_of
from balisekit.tables.account import Account
from balisekit.tables.grouping import EVERY
from balisekit.tables.model import Table
from balisekit.tables.plan import Plan

PROVED, PLAN = "F", "X"
"""The family of the program, and the one that needs a track plan."""
WITHOUT_F = "--only {} leaves out the program's findings F"


class Family(NamedTuple):
    """Rules whose names begin with one letter."""

    letter: str
    title: str
    """What is above its part of a list."""
    things: str
    """What its rules find."""
    rules: Sequence[Rule] = ()
    """Those of balisekit. The rules F are in the program."""
    notes: Notes = no_notes
    """The notes on a line beside those of the rules."""
    passed_over: Find = nothing
    """The groups and messages that its rules pass over. Its notes name them too."""

    @property
    def needs_kilometres(self) -> bool:
        """Whether no rule can be applied to a table without kilometres."""
        return bool(self.rules) and all(rule.needs_kilometres for rule in self.rules)


FAMILIES: Mapping[str, Family] = {
    "F": Family("F", "findings of the program, proved", "findings"),
    "L": Family(
        "L",
        f"links, by balisekit's own rules {first_to_last(links.RULES)}, not proved",
        "links",
        links.RULES,
        links.notes_on,
        passed_over=links.passed_over,
    ),
    "E": Family(
        "E",
        "remarks on what the data mean, by balisekit's own rules, not proved",
        "remarks",
        meaning.RULES,
        meaning.notes_on,
        passed_over=meaning.passed_over,
    ),
    "X": Family(
        "X",
        f"track plan, by balisekit's own rules {first_to_last(track_plan.RULES)}, not proved",
        "track plan",
        track_plan.RULES,
        track_plan.notes_on,
        passed_over=track_plan.passed_over,
    ),
    ADDED: Family(ADDED, "added rules, not balisekit's, and not proved", "added rules"),
}
"""In the order of an answer. `apply` is given the rules of the last one."""
DOUBTING = ("E", "X")
"""The families whose remarks may be about the aspect of a finding."""
IF_ANY = frozenset({PLAN, ADDED})
"""The families that are not applied unless the user supplies the plan, or the rules."""


class Part(NamedTuple):
    """What the rules of one family have found of a table."""

    family: Family
    items: Sequence[Item]
    """The findings or the remarks: what has to be accepted."""
    seconds: float
    """How long it took."""
    applied: Optional[Applied] = None
    """Of rules of balisekit: what each has looked at."""
    open: Sequence[Entry] = ()
    """One for each cause. Those that nobody has accepted are apart from the others."""
    accepted: Sequence[Entry] = ()
    coverage: Optional[Coverage] = None
    """Of the rules X: how much the design confirms."""

    @property
    def empty(self) -> Sequence[Rule]:
        """The rules that had something to look at, and looked at nothing."""
        return self.applied.empty if self.applied else ()

    @property
    def entries(self) -> Sequence[Entry]:
        """All entries, the open ones first."""
        return [*self.open, *self.accepted]


@dataclass(frozen=True)
class Outcome:
    """What all families that were asked for have found of a table."""

    checked: Checked
    parts: Sequence[Part]
    judged: Optional[Judged] = None
    """What was accepted, if there is a file of accepted entries."""
    without_kilometres: bool = False
    """Whether rules were not applied, since no row of the table has a kilometre."""
    off: Sequence[str] = ()
    """The added rules that are off, since nobody has asked for them."""
    replaced: Sequence[str] = ()
    """The files and packages of [check] rules_from that --rules-from replaces."""
    outside: Sequence[str] = ()
    """The rules that somebody has asked for by name, although `--only` leaves out their family."""
    with_all: bool = False
    """Whether somebody has asked for all that was not looked at."""
    design: Optional[Plan] = None
    """The design of the line, if its rules were applied."""
    least: Optional[float] = None
    """How many of a hundred variables the design has to confirm, if somebody states it."""

    def __repr__(self) -> str:
        return f"<Outcome of {self.checked.table.path}: status {self.status}, {len(self.entries)} entries>"

    @property
    def letters(self) -> str:
        """The families that were applied."""
        return "".join(part.family.letter for part in self.parts)

    @property
    def verdict(self) -> Optional[Verdict]:
        """The program's verdict, if the rules F were applied."""
        return self.checked.verdict if PROVED in self.letters else None

    @property
    def findings(self) -> Sequence[Place]:
        """The findings of the program, if the rules F were applied."""
        return self.checked.findings if PROVED in self.letters else ()

    @cached_property
    def entries(self) -> Sequence[Entry]:
        """The entries of all parts, those of correct data last."""
        return sorted((entry for part in self.parts for entry in part.entries), key=lambda entry: bool(entry.expected))

    @property
    def expected(self) -> Sequence[Entry]:
        """The open entries of correct data, which all parts have."""
        return [entry for part in self.parts for entry in part.open if entry.expected]

    @property
    def items(self) -> Sequence[Item]:
        """The findings and remarks of all parts."""
        return [item for part in self.parts for item in part.items]

    @cached_property
    def _identities(self) -> Mapping[str, Identity]:
        every = [each for entry in self.entries for each in (entry, *entry.folded)]
        return identities(self.checked, [entry.group for entry in every if entry.group])

    def identity(self, entry: Entry) -> Optional[Identity]:
        """NID_C and NID_BG of the group of an entry, if they are known."""
        return self._identities.get(entry.group.name) if entry.group else None

    def entry_of(self, item: Item) -> Entry:
        """The entry of a remark, or of a finding by itself: that of the answer if it has no other, and its words."""
        if isinstance(item, Remark):
            return entry_of_remark(item)
        entry = self._of_one_finding.get(id(item))
        return entry if entry and entry.sentence == str(item.statement) else entry_of(item)

    @cached_property
    def _of_one_finding(self) -> Mapping[int, Entry]:
        return {id(entry.findings[0]): entry for entry in self.entries if len(entry.findings) == 1}

    def acceptances(self, entry: Entry) -> Sequence[Acceptance]:
        """Who has accepted an entry."""
        found = map(self.judged.of, items_of(entry)) if self.judged else ()
        return list(dict.fromkeys(each for each in found if each))

    @cached_property
    def account(self) -> Account:
        """What became of the telegrams of the table. Without the rules F the program's findings cover none."""
        account = self.checked.account
        if PROVED in self.letters:
            return account
        rows = {row.number for group in self.checked.kept for row in group.rows()}
        return account.without(WITHOUT_F.format(",".join(self.letters)), rows, asked=True)

    @cached_property
    def account_of_messages(self) -> Optional[Account]:
        """What became of the messages, if there is a file of them."""
        account = self.checked.account_of_messages
        if account is None or PROVED in self.letters:
            return account
        lines = {each.message.number for each in self.checked.accepted_messages}
        return account.without(WITHOUT_F.format(",".join(self.letters)), lines, asked=True)

    @property
    def coverage(self) -> Optional[Coverage]:
        """How much the design confirms, if there is one."""
        return next((part.coverage for part in self.parts if part.coverage), None)

    @property
    def is_confirmed(self) -> bool:
        """Whether the design confirms as much as somebody states."""
        return self.least is None or self.coverage is not None and self.coverage.share >= self.least

    @property
    def whole(self) -> bool:
        """Whether all that was handed in has been looked at, and the design confirms enough of it."""
        return self.checked.whole and not any(part.empty for part in self.parts) and self.is_confirmed

    @property
    def status(self) -> int:
        """2 if anything was refused, left out or not looked at, 1 if anything is open or an entry at fault, else 0."""
        if not self.whole or self.checked.verdict is None:
            return 2
        judged = self.judged
        return int(bool(judged.open or judged.faults if judged else self.items))


def items_of(entry: Entry) -> Sequence[Item]:
    """The findings or the remark of an entry, or those of all entries for which it stands."""
    if entry.folded:
        return [item for each in entry.folded for item in items_of(each)]
    remark: Sequence[Item] = (entry.remark,) if entry.remark else ()
    return remark or entry.findings


def apply(
    checked: Checked,
    letters: Sequence[str],
    options: Options,
    signed: Optional[Tuple[Entries, date]] = None,
    began: Optional[float] = None,
    with_causes: bool = True,
) -> Outcome:
    """What the rules of these families find. Rules over the line are not applied to a table without kilometres.

    `signed` has the accepted entries, and the day of the run. `began` is when the command began, by
    time.perf_counter(): that time belongs to the first part. Without `with_causes` no entry stands for several others
    that one correction explains.
    """
    known = families(options)
    asked = [family for letter, family in known.items() if letter in letters]
    able = _able(checked, asked)
    applied = [family for family in able if family.rules or family.letter == PROVED]
    parts = list(_looked_at(checked, applied, options, began))
    checked = _without_doubtful(checked, [result for part in parts for result in _results(part)])
    parts = [part._replace(items=checked.findings) if part.family.letter == PROVED else part for part in parts]
    items = [item for part in parts for item in part.items]
    judged = judge(items, checked, *signed, partial(_is_in_full, applied, options)) if signed else None
    applied_rules = {rule.name for family in asked for rule in family.rules}
    on = {rule.name for family in known.values() for rule in family.rules}
    off = [rule.name for rule in options.added if rule.name not in on]
    outside = sorted((options.asked & on) - applied_rules)
    found = [_with_entries(checked, part, judged) for part in parts]
    if with_causes:
        found = _with_causes(checked, found, partial(_judged_again, checked, asked, options), options)
        found = [part._replace(open=with_stop_aspects(part.open), accepted=part.accepted) for part in found]
    design = options.plan if any(family.letter == PLAN for family in asked) else None
    return Outcome(
        checked, found, judged, able != asked, off, options.replaced, outside, design=design, least=options.confirmed
    )


def _able(checked: Checked, asked: Sequence[Family]) -> Sequence[Family]:
    """These families with the rules that can be applied to the table."""
    has_kilometres = any(row.km is not None for row in checked.table.rows)
    return asked if has_kilometres else [_without_kilometres(family) for family in asked]


def _results(part: Part) -> Iterable[Result]:
    """What each rule of a part has found."""
    return part.applied.results.values() if part.applied else ()


def _without_doubtful(checked: Checked, results: Iterable[Result]) -> Checked:
    """The same. No finding is called correct data if a remark is about its aspect, its telegram or its message.

    The same holds for a row of which a rule is silent only because of such a finding.
    """
    some = list(results)
    doubting = [remark for result in some for remark in result.found if remark.rule[0] in DOUBTING]
    rows = {row for remark in doubting for row in _own_rows(remark)}.union(*(result.doubted for result in some))
    messages = {where.message.number for remark in doubting for where in remark.everywhere if where.message}

    def is_doubted(place: Place) -> bool:
        is_said = place.message is not None and place.message.number in messages
        return bool(place.correct) and (is_said or not rows.isdisjoint(_rows_of_aspect(place)))

    if not any(map(is_doubted, checked.findings)):
        return checked
    findings = (place._replace(correct="") if is_doubted(place) else place for place in checked.findings)
    return replace(checked, findings=tuple(findings))


def _own_rows(remark: Remark) -> Sequence[int]:
    """The rows that a remark is about."""
    return [*remark.rows, *(where.row.number for where in remark.everywhere if where.row)]


def _rows_of_aspect(place: Place) -> Iterator[int]:
    """Its own row, and those that only its aspect has. A finding of the whole group is about all such rows."""
    yield from [place.row.number] if place.row else []
    aspects = place.group.aspects if place.group else ()
    number = place.finding.aspect
    some = aspects if number is None else aspects[number : number + 1]
    yield from (row.number for aspect in some for row in aspect.rows if row.aspect != EVERY)


def _judged_again(checked: Checked, asked: Sequence[Family], options: Options, table: Table) -> Iterator[Answer]:
    """What the same rules find of a corrected table, whatever was accepted: those first that most corrections break.

    Nobody asks for the rest of an answer that has a new entry. The program's findings may rest on remarks. Added rules
    see no corrected table.
    """
    known = checked.accepted.records
    made = check(checked.program, table, checked.messages, table.reading.by_position, known=known)
    yield Answer(refused=_refused(made))
    line = Line.of(made, options.jumps)
    results: List[Result] = []
    for family in sorted(
        _able(made, [family for family in asked if family.letter != ADDED]),
        key=lambda each: (each.letter not in DOUBTING, each.letter),
    ):
        if family.letter == PROVED:
            yield Answer(entries(_without_doubtful(made, results)))
        for rule, result in results_of(line, options, family.rules):
            results.append(result)
            reasons = {(rule.name, why): count for why, count in result.not_looked_at.items()}
            yield Answer(
                list(map(entry_of_remark, result.found)), {rule.name: result.unusually_skipped}, reasons=reasons
            )


def _refused(checked: Checked) -> int:
    """How many telegrams and groups were refused, left out or not tried."""
    return len(checked.refused) + len(checked.left_out) + checked.not_looked_at


def _with_causes(checked: Checked, parts: Sequence[Part], again: Again, options: Options) -> List[Part]:
    """The same parts. Open entries that one correction explains are folded below one entry, but no added rule's."""
    own = [part for part in parts if part.family.letter != ADDED]
    still_open = [entry for part in own for entry in part.open if not entry.expected]
    line = next((part.applied.line for part in parts if part.applied), None)
    if not still_open or line is None:
        return list(parts)
    results = [each for part in parts if part.applied for each in part.applied.results.items()]
    skipped = {rule.name: each.unusually_skipped for rule, each in results}
    reasons = {(rule.name, why): count for rule, each in results for why, count in each.not_looked_at.items()}
    before = Answer([entry for part in own for entry in part.entries], skipped, _refused(checked), reasons)
    found = explained(Evidence(checked, line, options, still_open), before, again, SUGGESTIONS)
    made = [_standing_for(checked, *each) for each in found]
    line.for_pictures()
    folded = {id(entry) for cause in made for entry in cause.folded}
    return [_with_causes_of(part, made, folded) for part in parts] if made else list(parts)


def _with_causes_of(part: Part, made: Sequence[Entry], folded: AbstractSet[int]) -> Part:
    """A part with the entries that stand for others, each in the family of its rule."""
    others = [entry for entry in part.open if id(entry) not in folded]
    own = [cause for cause in made if letter_of(cause.rule) == part.family.letter]
    return part._replace(open=sorted([*own, *others], key=lambda entry: (bool(entry.expected), entry.urgency)))


def _standing_for(checked: Checked, correction: Correction, entries: Sequence[Entry]) -> Entry:
    """The entry for a correction, which stands for the entries that it explains.

    It has the rule that the correction names, or that of the first entry.
    If only the place is known, it is the first entry there, and says without what all of them are gone.
    """
    numbers = {row for each in entries for row in (*each.rows, *each.other_rows)}
    quoted = {id(place) for each in entries for place in each.findings}
    first = next((each for each in entries if each.rule == correction.rule), entries[0])
    row = correction.group.row(correction.rows[0])
    made = first._replace(
        sentence=correction.sentence,
        rows=correction.rows,
        group=correction.group,
        aspects=(),
        balise=None,
        packet=None,
        direction="",
        km=row.km if row else None,
        message=None,
        values=correction.values,
        balises=(),
    )
    if correction.is_only_place:
        same = (each for each in entries if letter_of(each.rule) == letter_of(first.rule))
        first = next((each for each in same if not set(correction.rows).isdisjoint(each.rows)), first)
        words = f"{first.sentence}; without {correction.sentence} these {len(entries)} entries are gone"
        rows = first.rows if not set(correction.rows).isdisjoint(first.rows) else correction.rows
        made = first._replace(sentence=words, rows=rows)
    return made._replace(
        urgency=min(each.urgency for each in entries),
        findings=tuple(place for place in checked.findings if id(place) in quoted),
        other_rows=tuple(sorted(numbers - set(made.rows))),
        folded=tuple(entries),
    )


def families(options: Options) -> Mapping[str, Family]:
    """The families with the rules that are applied by default or were asked for. Without a plan X is not there."""
    added = {**FAMILIES, ADDED: FAMILIES[ADDED]._replace(rules=options.added)}
    return {letter: _asked_for(each, options) for letter, each in added.items() if letter != PLAN or options.plan}


def _is_in_full(applied: Sequence[Family], options: Options, name: str) -> bool:
    """Whether all that a rule of this name reports is looked for."""
    rules = {rule.name: rule for family in applied for rule in family.rules}
    if letter_of(name) == PROVED:
        return any(family.letter == PROVED for family in applied)
    rule = rules.get(name)
    return rule is not None and rule.find is not _none and (not rule.optional_part or options.asks_for(name))


def _asked_for(family: Family, options: Options) -> Family:
    """The family with the rules that are applied by default or were asked for."""
    return family._replace(rules=[rule for rule in family.rules if rule.is_default or options.asks_for(rule.name)])


def _without_kilometres(family: Family) -> Family:
    """The family with the rules that need no kilometres. Somebody has named each added rule, so all of these stay."""
    if family.letter == ADDED:
        rules = (
            replace(rule, looks_at="tables", find=_none) if rule.needs_kilometres else rule for rule in family.rules
        )
        return family._replace(rules=list(rules))
    return family._replace(rules=[rule for rule in family.rules if not rule.needs_kilometres])


def _none(line: Line, options: Options) -> Result:
    """What an added rule that needs kilometres has looked at: none of one table."""
    return Result([], 0, {"no row has a kilometre": 1})


def _looked_at(checked: Checked, applied: Sequence[Family], options: Options, began: Optional[float]) -> Iterator[Part]:
    """What the rules of each family find, as yet without entries."""
    line: Optional[Line] = None
    for family in applied:
        begin, began = time.perf_counter() if began is None else began, None
        if family.letter == PROVED:
            yield Part(family, checked.findings, time.perf_counter() - begin)
            continue
        is_first = line is None
        line = line or Line.of(checked, options.jumps)
        if family.letter == ADDED:
            line.for_pictures()  # (the views of added rules need memory)
        found = look_for(line, options, family.rules, family.notes, family.passed_over)
        coverage = _coverage(line, options, found) if family.letter == PLAN else None
        line.after_links()  # (the next rules need memory)
        found = replace(found, notes=(*line.not_applied, *found.notes)) if is_first else found
        yield Part(family, found.remarks, time.perf_counter() - begin, found, coverage=coverage)
    if line:
        line.for_pictures()  # (entries need memory)


def _coverage(line: Line, options: Options, found: Applied) -> Optional[Coverage]:
    """How much the design confirms, by what each rule X has compared."""
    some = [result.confirmed for result in found.results.values() if result.confirmed]
    return coverage_of(line.decoded, options.plan, some) if options.plan else None


def _with_entries(checked: Checked, part: Part, judged: Optional[Judged]) -> Part:
    """The same with the entries of what it has found."""
    begin = time.perf_counter()
    still_open = [item for item in part.items if not (judged and judged.of(item))]
    accepted = [item for item in part.items if judged and judged.of(item)]
    made = [_entries(checked, items) if items else [] for items in (still_open, accepted)]
    return part._replace(open=made[0], accepted=made[1], seconds=part.seconds + time.perf_counter() - begin)


def _entries(checked: Checked, items: Sequence[Item]) -> Sequence[Entry]:
    """The entries of findings, or of remarks, the most urgent ones first."""
    remarks = [item for item in items if isinstance(item, Remark)]
    if remarks:
        return sorted(map(entry_of_remark, remarks), key=lambda entry: entry.urgency)
    return entries(checked, [item for item in items if isinstance(item, Place)])


def entry_of_remark(remark: Remark) -> Entry:
    """The entry of a remark."""
    where, group, row = remark.location, remark.location.group, remark.location.row
    rows = [row] if row else group.group.rows() if group else []
    numbers = tuple(sorted(remark.rows or {row.number for row in rows}))
    first = group.group.row(numbers[0]) if group and numbers else None
    aspects = (row.aspect,) if row and row.aspect not in ("", "*") else ()
    name = BaliseName(row.name, where.n_pig) if row and where.n_pig is not None else None
    return Entry(
        remark.rule,
        RULES[remark.rule].urgency if remark.urgency is None else remark.urgency,
        ": ".join(filter(None, (where.packet_words, remark.words))),
        numbers,
        group.group if group else None,
        tuple(remark.aspects) or aspects,
        group.group.places[row.number] if row and group else None,
        where.number,
        where.direction,
        first.km if first else None,
        where.message,
        {**{name: f"{value:f}" for name, value in remark.values.items()}, **remark.texts},
        remark=remark,
        balises=(name,) if name else (),
        other_rows=tuple(remark.others),
    )

"""Findings and remarks that were accepted: the entries of a file, and which findings and remarks of a line they fit.

An entry names a group by its identity, a message by its name in the messages' file, an aspect by its name in the table,
and a balise and packet by their places. So a group that is put in before moves nothing. Names have the escapes of all
outputs. The checksum of an entry holds the telegrams that were looked at, and what a sentence says of other ones: its
numbers, and the names of aspects and tracks. Where an entry has a `*`, it holds the value of each item too. The entry
accepts no others.
"""
from __future__ import annotations

import datetime
import hashlib
import re
from collections import Counter
from dataclasses import dataclass
from functools import cached_property
from typing import (
    Callable,
    Collection,
    Dict,
    Iterable,
    Iterator,
    List,
    Mapping,
    NamedTuple,
    Optional,
    Sequence,
    Tuple,
    Union,
)

from balisekit.errors import TableError, TableErrors, faults_of
from balisekit.expressions import expression
from balisekit.io import inputs
from balisekit.io.csv_writing import plain
from balisekit.rules import links, meaning, track_plan
from balisekit.rules.checking import Checked, Place
from balisekit.rules.discovery import ADDED, ADDED_NAME, first_to_last, letter_of
from balisekit.rules.facts import place
from balisekit.rules.rule import Remark, Rule
from balisekit.tables import csv as csv_file
from balisekit.tables.cells import headings, is_error
from balisekit.tables.headings import Headings, look_at_cells
from balisekit.tables.model import Group, Message, Row
from balisekit.tables.names import BLANK, clean

FIELDS = ("rule", "nid_c", "nid_bg", "message", "aspect", "balise", "packet", "direction")
"""What says which finding is meant."""
NEEDED = (*FIELDS, "reason", "who", "date")
COLUMNS = (*NEEDED, "until", "sha256")
ANY = "*"
NUMBER = ("|[0-9]{1,6}", "no whole number")
FINDINGS = range(1, 17)
"""The numbers of the program's findings F."""
RULES: Mapping[str, Rule] = {rule.name: rule for rule in (*links.RULES, *meaning.RULES, *track_plan.RULES)}
"""All rules of balisekit whose remarks can be accepted, by their names."""
NO_REASONS = frozenset({"na", "tba", "tbc", "tbd", "todo", "none", "nil", "x", "xx", "xxx"})
"""The letters of what people write instead of a reason, such as `n/a`."""
OF_FAMILIES = "{}, {} and {}".format(*map(first_to_last, (links.RULES, meaning.RULES, track_plan.RULES)))
OF_PROGRAM = [f"F{number}" for number in FINDINGS]
VALUES = {
    "rule": ("|".join([*OF_PROGRAM, *RULES, ADDED_NAME]), f"none of F1 to F16, {OF_FAMILIES}"),
    **dict.fromkeys(("nid_c", "nid_bg", "balise", "packet"), NUMBER),
    "direction": ("|nominal|reverse", "neither nominal nor reverse"),
    "sha256": ("|[0-9a-f]{64}", "no SHA-256: --propose writes it"),
}
"""An expression for the values of a column, and what any other one is."""
UNNAMED = "\0"
"""Instead of the name of a message that has none, or `*`, or that of another message. No entry is about it."""
EARLIEST = datetime.date(2000, 1, 1)
ONE_DAY = datetime.timedelta(days=1)
"""How much later than the day of the run, in universal time, the day of a signature may be."""
LISTED = ("X7", "X11")
"""The rules that remark on what only the track plan has. An entry has its name as aspect, and no identity."""
ONE_TELEGRAM = ("F1", "F4", "F6", "F9", "L1", "L2", "L3", "L5", "L6", "L9")
"""The findings and remarks about one telegram only."""
OF_ROWS = ("E", "X", ADDED)
"""The families whose remarks at a row are about its telegram only."""
APART = 16
"""F16 rests on which aspect has which telegram."""
ALL_ASPECTS = ("F3", "F14", "F15", "F16")
"""The findings that compare aspects or groups. The others are about all telegrams of an aspect."""
ON_CORRECT_DATA = ("F6", "F9", "F10", "F11", "F12", "F13", "F14", "F16")
"""The rules of the table of findings on correct data in docs/findings.md."""
ROW_NUMBERS = expression(r"\brow \d+|\brows \d+(?:(?: to |, | and )\d+)*")
"""Numbers of rows in a sentence: a row that is added elsewhere changes them."""
LINE_NUMBER = expression(r"\bline \d+")
"""That of a message, whose text is covered."""
ANY_NUMBER = expression(r"[+-]?\d(?:[\d.,]*\d)?")
QUOTED, OF_ASPECT = expression('"[^"]*"'), expression('aspect ("[^"]*")')
"""The names in the sentence of a remark, and those of aspects in the statement of a finding."""
Key = Tuple[str, ...]
Item = Union[Place, Remark]
"""What one entry accepts: a finding of the program, or a remark of a rule of balisekit."""


class Acceptance(NamedTuple):
    """A row of the file."""

    row: int
    key: Key
    reason: str
    who: str
    date: Optional[datetime.date]
    until: Optional[datetime.date]
    sha256: str = ""
    """Of the telegrams, or the message, that the findings are about which it accepts."""

    @property
    def rule(self) -> str:
        """Whose findings it accepts."""
        return self.key[0]

    @property
    def is_wide(self) -> bool:
        """Whether a `*` lets it fit several findings."""
        return ANY in self.key

    def refused(self, never: Collection[str]) -> Optional[TableError]:
        """Why nobody may accept findings so broadly. `never` are the rules that no correct data gets."""
        if self.is_wide and self.rule == "F14":
            why = "F14 is not accepted by *: two groups of one identity are looked at one by one"
            return TableError(why, column=FIELDS[self.key.index(ANY)])
        if self.key[4] == ANY and self.rule in never:
            why = f"{self.rule} is not accepted by * as aspect, since no correct data gets it: name the aspect"
            return TableError(why, column="aspect")
        if self.is_wide and self.key[2] in ("", ANY) and self.until is None:
            return TableError("an entry with * that names no identity needs a last day", column="until")
        return None

    def faults(self, day: datetime.date) -> List[str]:
        """Why it accepts nothing, whatever the data are."""
        faults = [] if _is_text(self.reason) and not _stands_in(self.reason) else ["no reason"]
        faults += [] if _is_text(self.who) else ["no who"]
        faults += [] if self.date else ["no date"]
        if self.date and self.date > day + ONE_DAY:
            faults.append(f"date {self.date} is after the day of the run, {day}")
        if self.date and self.date < EARLIEST:
            faults.append(f"date {self.date} is before {EARLIEST.year}")
        if self.date and self.until and self.until < self.date:
            faults.append(f"until {self.until} is before date {self.date}")
        elif self.until and self.until < day:
            faults.append(f"expired: until {self.until} is past")
        return faults

    def changed(self, fitted: Sequence[Tuple[Key, Item]]) -> List[str]:
        """Why it does not accept these items, which it fits: its checksum is of other data, or it has none."""
        items = [item for _, item in fitted]
        now = checksum(items, starred=[under_stars(self.key, own) for own, _ in fitted])
        if self.sha256 == now:
            return []
        these = f"the {len(items)} findings" if len(items) > 1 else "the finding"
        hint = f": the sha256 of {these} that it fits is {now}" if self.is_wide else ""
        since = f" since {self.date}" if self.date else ""
        if not self.sha256:
            return [f"no sha256{hint}"]
        if self.sha256 == checksum(items, in_full=False):
            rest = "all names, places and values on which the sentence rests"
            return [
                f"its sha256 is of an earlier balisekit, and does not cover {rest}: have they changed{since}?{hint}"
            ]
        what = "telegram has" if len(_texts(items[0])) == 1 else "telegrams have"
        what = "message has" if _message(items[0]) else what
        what = "telegrams or values have" if isinstance(items[0], Remark) else what
        return [f"the {what} changed{since}{hint}"]


class Entries(NamedTuple):
    """A file of accepted findings as it was read."""

    path: str
    sha256: str
    entries: Tuple[Acceptance, ...]
    never: Collection[str]
    """The rules that no correct data gets."""


@dataclass(frozen=True)
class Judged:
    """The findings and remarks of a line beside the entries."""

    entries: Entries
    items: Tuple[Item, ...]
    by_item: Tuple[Optional[Acceptance], ...]
    """For each item the entry that accepts it."""
    faults: Tuple[Tuple[Acceptance, str], ...]
    """The entries that are unused, not in order, or of other data, and why."""
    former: Tuple[Optional[Acceptance], ...]
    """For each item the first entry that fits it only, whether or not it accepts it."""
    passed_over: Tuple[Acceptance, ...] = ()
    """The entries that match nothing, for rules that were not applied in full: nobody knows whether they fit."""
    day: datetime.date = EARLIEST
    """By which day the entries were judged."""

    @cached_property
    def _by_id(self) -> Dict[int, Optional[Acceptance]]:
        return {id(item): entry for item, entry in zip(self.items, self.by_item)}

    def of(self, item: Item) -> Optional[Acceptance]:
        """The entry that accepts one of the items."""
        return self._by_id[id(item)]

    @property
    def accepted_by_any(self) -> int:
        """How many items are accepted by entries with `*`."""
        return sum(entry is not None and entry.is_wide for entry in self.by_item)

    @property
    def against_the_rule(self) -> Mapping[str, int]:
        """How many items are accepted of each rule that no correct data gets by findings.md."""
        return Counter(entry.rule for entry in self.by_item if entry and entry.rule in self.entries.never)

    @property
    def open(self) -> Sequence[Item]:
        """The items that no entry accepts."""
        return [item for item, entry in zip(self.items, self.by_item) if entry is None]


def read(path: str, added: Iterable[Rule] = ()) -> Entries:
    """The entries of this file. TableError or TableErrors is raised if it cannot be read.

    `added` are rules that the user adds. An entry for another rule of such a name is for a rule that is not applied.
    """
    file, never = inputs.read(path), never_correct(added)
    with faults_of(path):
        rows = csv_file.read(file.content, Headings(COLUMNS, NEEDED)).rows
        return Entries(path, file.sha256, _entries(rows, never), never)


def never_correct(added: Iterable[Rule] = ()) -> Collection[str]:
    """The rules that no correct data gets: of the others, the pages name correct data."""
    own = (rule.name for rule in (*RULES.values(), *added) if not rule.has_correct_data)
    return {*OF_PROGRAM, *own}.difference(ON_CORRECT_DATA)


def _entries(rows: Sequence[Sequence[str]], never: Collection[str]) -> Tuple[Acceptance, ...]:
    heading = headings(list(rows[0])) if rows else []
    for name in dict.fromkeys(heading):
        if name and name not in COLUMNS:
            raise TableError(f"there is no column {name[:40]}: the columns are {', '.join(COLUMNS)}", row=1)
        if name and heading.count(name) > 1:
            raise TableError(f"two columns have the heading {name}", row=1)
    missing = [name for name in NEEDED if name not in heading]
    if missing:
        raise TableError(f"no column {' and no column '.join(missing)}", row=1)
    places = {name: at for at, name in enumerate(heading) if name}
    entries, faults = [], []
    for number, cells in enumerate(rows[1:], 2):
        if any(cell.strip() for cell in cells):
            try:
                look_at_cells(cells, len(heading), places)
                entries.append(_entry(number, places, cells, never))
            except TableError as fault:
                fault.row = number
                faults.append(fault)
    if faults:
        raise TableErrors(faults)
    return tuple(entries)


def _entry(number: int, places: Mapping[str, int], cells: Sequence[str], never: Collection[str]) -> Acceptance:
    found = {name: plain(cells[at].strip()) for name, at in places.items() if at < len(cells)}
    values = {name: found.get(name, "") for name in COLUMNS}
    for name, value in values.items():
        if "\n" in value or "\r" in value:
            raise TableError("the cell contains a line end", column=name)
        if is_error(value):
            raise TableError(f"{value} is an error of the spreadsheet: its formula failed", column=name)
    key = tuple(clean(_value(name, values[name])) for name in FIELDS)
    is_listed = key[0] in LISTED and key[1:4] == ("", "", "") and key[4] not in ("", ANY)
    if {"", ANY} & set(key[1:3]) and key[3] in ("", ANY) and not is_listed:
        why = "an entry is about one group, by nid_c and nid_bg, or about one message, by its name"
        raise TableError(why, column="message" if key[1:3] == ("", "") else "nid_c")
    dates = _date("date", values["date"]), _date("until", values["until"])
    entry = Acceptance(number, key, values["reason"], values["who"], *dates, _value("sha256", values["sha256"]))
    too_broad = entry.refused(never)
    if too_broad:
        raise too_broad
    return entry


def _value(name: str, value: str) -> str:
    """A value as findings have it."""
    if name not in VALUES or value == ANY and name not in ("rule", "sha256"):
        return value
    expression, what = VALUES[name]
    written = value.upper() if name == "rule" else value.lower()
    if not re.fullmatch(expression, written):
        raise TableError(f"{value[:40] or 'nothing'} is {what}", column=name)
    return written.lstrip("0") or "0" if written and VALUES[name] == NUMBER else written


def _is_text(value: str) -> bool:
    """Whether there is anything to read."""
    return any(letter.isalnum() and not BLANK.match(letter) for letter in value)


def _stands_in(reason: str) -> bool:
    """Whether a reason is only what people write instead of one."""
    return "".join(filter(str.isalnum, reason.casefold())) in NO_REASONS


def _date(name: str, value: str) -> Optional[datetime.date]:
    if not value:
        return None
    try:
        if re.fullmatch("[0-9]{4}-[0-9]{2}-[0-9]{2}", value):
            return datetime.date.fromisoformat(value)
    except ValueError:
        pass
    why = f"{value[:40]} is no date: write it as 2026-11-26; a spreadsheet changes it unless the column is text"
    raise TableError(why, column=name)


def keys(items: Iterable[Item], checked: Checked) -> List[Key]:
    """What an entry has to say of each item."""
    items = list(items)
    names = Counter(clean(one.name) for one in (checked.messages.messages if checked.messages else ()))
    known = identities(checked, [item.group for item in items if isinstance(item, Place) and item.group])
    return [_key(item, known, names) for item in items]


def identities(checked: Checked, groups: Iterable[Group]) -> Dict[str, Tuple[int, int]]:
    """NID_C and NID_BG of each of these groups, by its name: those of its first balise in its first aspect."""
    first = {group.aspects[0].rows[0].number: group.name for group in groups}
    known = checked.accepted.identities(number for number in first if number in checked.accepted)
    return {name: known[number] for number, name in first.items() if number in known}


def _key(item: Item, known: Mapping[str, Tuple[int, int]], names: Mapping[str, int]) -> Key:
    message = _message(item)
    name = "" if message is None else clean(message.name)
    name = UNNAMED if message is not None and (name in ("", ANY) or names[name] > 1) else name
    if isinstance(item, Remark):
        return (item.rule, *_identity(item), name, *_place_of(item))
    finding = item.finding
    identity: Tuple[str, str] = ("", "")
    if item.group is not None:
        nid_c, nid_bg = known[item.group.name]
        identity = (str(nid_c), str(nid_bg))
    numbers = ["" if number is None else str(number) for number in (finding.balise, finding.packet)]
    return (f"F{finding.rule}", *identity, name, clean(item.aspect or ""), *numbers, finding.direction or "")


def _identity(remark: Remark) -> Tuple[str, str]:
    """NID_C and NID_BG of the group at which a remark is."""
    group = remark.location.group
    if group is None:
        return "", ""
    return (str(group.identity[0]), str(group.identity[1])) if group.identity else (UNNAMED, UNNAMED)


def _place_of(remark: Remark) -> Tuple[str, str, str, str]:
    """Aspect, balise, packet and direction of a remark."""
    where, aspect, balise = remark.location, clean(remark.location.listed), ""
    if where.row is not None and where.group is not None:
        aspect = "" if where.row.aspect == ANY else clean(where.row.aspect)
        balise = str(where.group.group.places[where.row.number])
    return aspect, balise, "" if where.packet is None else str(where.packet), where.direction


def _message(item: Item) -> Optional[Message]:
    return item.location.message if isinstance(item, Remark) else item.message


def under_stars(entry: Key, item: Key) -> Sequence[str]:
    """What an item has where an entry has `*`. Two aspects may exchange all else, and the entry would fit as before."""
    return [f"{name} {own}" for name, any_, own in zip(FIELDS, entry, item) if any_ == ANY]


def checksum(items: Sequence[Item], in_full: bool = True, starred: Sequence[Sequence[str]] = ()) -> str:
    """The SHA-256 of the telegrams or messages that items are about: their digits in small letters, a line each.

    For a remark the values that its rule has compared and the numbers of its sentence follow, a line each. Balisekit up
    to 0.5.16 left out the rest: names, the other places, what a sentence only counts, how many items are alike, and
    what each item has where its entry has `*`.
    """
    stars: Sequence[Sequence[str]] = [*(starred if in_full else ()), *([()] * len(items))]
    lines = (
        [*own, *map(str.lower, (*_texts(item), *_values(item, in_full))), *(_rest(item) if in_full else ())]
        for item, own in zip(items, stars)
    )
    blocks: Iterable[str] = ["".join(f"{line}\n" for line in own) for own in lines]
    text = "".join(sorted(blocks if in_full else set(blocks)))
    return hashlib.sha256(text.encode("utf-8", "surrogatepass")).hexdigest()


def _values(item: Item, in_full: bool) -> List[str]:
    """The values of a remark, the groups that it names, and the numbers of its sentence, such as other kilometres.

    Of a rule of users it is the whole sentence: another rule of the same name may mean something else by its values.
    """
    if not isinstance(item, Remark):
        return []
    named = [f"group {identity[0]} {identity[1]}" for identity in (each.identity for each in item.named) if identity]
    words = ROW_NUMBERS.sub("", item.sentence)
    numbers = ANY_NUMBER.findall(LINE_NUMBER.sub("", words) if in_full else words)
    values = {**{name: f"{value.normalize():f}" for name, value in item.values.items()}, **item.texts}
    own = [words] if item.origin else []
    return [*(f"{name} {value}" for name, value in values.items()), *named, *numbers, *own]


def _rest(item: Item) -> List[str]:
    """The names in its sentence, the aspects of its rows, the other places, and what the sentence does not show.

    Of a finding that compares aspects, also which of their telegrams it blames, and the values that it compares.
    """
    if not isinstance(item, Remark):
        names = OF_ASPECT.findall(str(item.statement))
        if not names or f"F{item.finding.rule}" not in ALL_ASPECTS:
            return names
        rows = item.group.rows() if item.group and item.finding.rule == APART else ()
        sent = [*([item.row.telegram] if item.row else []), *(f"{row.aspect} {row.telegram}" for row in rows)]
        return [*names, *map(str.lower, sent), *item.statement.values.values()]
    own = item.location.row.aspect if item.location.row else ""
    places = map(place, dict.fromkeys((*item.also, *item.compared)))
    aspects = [name for name in item.aspects if name != own]
    return [*QUOTED.findall(item.sentence), *aspects, *sorted(places), *sorted(item.facts)]


def _texts(item: Item) -> List[str]:
    """The telegrams that an item is about, in the order of the aspects and of their balises, or the message."""
    message = _message(item)
    if message is not None:
        return [message.text]
    if isinstance(item, Remark):
        return _texts_of_remark(item)
    finding, group = item.finding, item.group
    rule = f"F{finding.rule}"
    if group is not None and finding.aspect is not None and rule not in (*ONE_TELEGRAM, *ALL_ASPECTS):
        return [row.telegram for row in group.aspects[finding.aspect].rows]
    return _telegrams(rule, item.row, [each for each in (group, item.earlier) if each])


def _texts_of_remark(remark: Remark) -> List[str]:
    """The telegrams of its rows, or of its row, or of all rows of its group."""
    row, groups = remark.location.row, [remark.location.group.group] if remark.location.group else []
    if remark.rows:
        return list(
            {row.number: row.telegram for group in groups for row in group.rows() if row.number in remark.rows}.values()
        )
    return [row.telegram] if row and letter_of(remark.rule) in OF_ROWS else _telegrams(remark.rule, row, groups)


def _telegrams(rule: str, row: Optional[Row], groups: Sequence[Group]) -> List[str]:
    """The one telegram that such a rule is about, or each row of these groups once."""
    if rule in ONE_TELEGRAM and row is not None:
        return [row.telegram]
    return list({row.number: row.telegram for group in groups for row in group.rows()}.values())


def judge(
    items: Sequence[Item],
    checked: Checked,
    entries: Entries,
    day: datetime.date,
    is_applied: Callable[[str], bool] = lambda rule: letter_of(rule) == "F",
) -> Judged:
    """Which items are accepted on this day, and which entries are at fault.

    An entry that matches nothing is no fault unless its rule is applied in full.
    """
    named = keys(items, checked)
    about = list(_entries_about(named, entries.entries))
    fitted_rows = {entry.row for fits in about for entry in fits}
    applied = [entry for entry in entries.entries if entry.row in fitted_rows or is_applied(entry.rule)]
    fitting: Dict[int, List[Tuple[Key, Item]]] = {}
    for key, item, fits in zip(named, items, about):
        for entry in fits:
            fitting.setdefault(entry.row, []).append((key, item))
    faults: Dict[int, List[str]] = {}
    for entry in applied:
        fitted = fitting.get(entry.row)
        why = entry.changed(fitted) if fitted else ["unused: it matches no finding"]
        faults[entry.row] = why + entry.faults(day)
    by_item = [next((entry for entry in fits if not faults[entry.row]), None) for fits in about]
    former = [next((entry for entry in fits if not entry.is_wide), None) for fits in about]
    at_fault = [(entry, ", ".join(faults[entry.row])) for entry in applied if faults[entry.row]]
    others = tuple(entry for entry in entries.entries if entry.row not in faults)
    return Judged(entries, tuple(items), tuple(by_item), tuple(at_fault), tuple(former), others, day)


def _entries_about(wanted: Iterable[Key], entries: Iterable[Acceptance]) -> Iterator[List[Acceptance]]:
    """The entries about each item, looked up by which of their fields are `*`, and by the others."""
    by_mask: Dict[Tuple[bool, ...], Dict[Key, List[Acceptance]]] = {}
    for entry in entries:
        mask = tuple(field == ANY for field in entry.key)
        by_mask.setdefault(mask, {}).setdefault(entry.key, []).append(entry)
    for key in wanted:
        masked = ((tuple(ANY if any_ else own for any_, own in zip(mask, key)), some) for mask, some in by_mask.items())
        yield [entry for own, some in masked for entry in some.get(own, ())]

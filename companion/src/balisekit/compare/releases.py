"""What differs between two releases of a line: groups, telegrams, messages and findings.

Groups are paired by their identity, telegrams by aspect and position. So the order of groups does not matter.
"""
from __future__ import annotations

import hashlib
from collections import Counter
from collections.abc import Callable, Hashable, Iterator, Mapping, Sequence
from dataclasses import dataclass, field, replace
from typing import Dict, List, NamedTuple, Optional, Set, Tuple

from balisekit.compare.moves import Exchanged, Renumbered, exchanged, renumbered
from balisekit.compare.sides import Known, Pairs, Sent, Side, paired
from balisekit.engine.program import Record
from balisekit.etcs.differences import Change, differences
from balisekit.etcs.variables import Form
from balisekit.rules.checking import Checked, Place, report_on
from balisekit.tables.document import name_by_place
from balisekit.tables.grouping import EVERY
from balisekit.tables.model import Group, Message, Messages, Row, Table
from balisekit.tables.names import clean, describe_message

BY_ORDER = (3, 14, 15, 16)
"""The rules whose findings depend on the order of groups or aspects: one is compared with an earlier one."""
BESIDE_TELEGRAMS = {"name": "balise", "km": "km", "track": "track", "nominal": "nominal"}
"""The columns that no telegram has, and what a note calls them."""
OTHER_ORDER = (
    "F3, F14, F15 and F16 depend on which group or aspect comes first: the new release was checked for them in the "
    "order of the old release, with additions last"
)
NO_NAMES = (
    "a document has no names, so aspects and messages are paired by their order: names that were exchanged or given "
    "anew are not compared"
)


@dataclass(frozen=True)
class Changed:
    """A telegram or message that differs. Without changes it differs only in fill or case."""

    words: str
    old: int
    """Its row or line in the old release, and in the new one."""
    new: int
    changes: Tuple[Change, ...] = ()


@dataclass
class Difference:
    """All that differs between two releases."""

    old: Side
    new: Side
    groups_added: List[str] = field(default_factory=list)
    groups_removed: List[str] = field(default_factory=list)
    added: List[str] = field(default_factory=list)
    """Telegrams of groups that are in both releases, and messages, which only the new release has."""
    removed: List[str] = field(default_factory=list)
    groups_renumbered: List[Renumbered] = field(default_factory=list)
    exchanged: List[Exchanged] = field(default_factory=list)
    """Telegrams that changed places. They are neither changed nor unchanged."""
    changed: List[Changed] = field(default_factory=list)
    respelled: List[Changed] = field(default_factory=list)
    same: List[str] = field(default_factory=list)
    """The texts of all unchanged telegrams and messages in small letters."""
    findings_new: List[Place] = field(default_factory=list)
    findings_gone: List[Place] = field(default_factory=list)
    notes: List[str] = field(default_factory=list)
    lacks_names: bool = False
    """Whether a table has names of aspects or messages that a document lacks, so that they are not compared."""

    def __repr__(self) -> str:
        paths = [side.checked.table.path for side in (self.old, self.new)]
        return f"<Difference of {' and '.join(paths)}: status {self.status}>"

    @property
    def unchanged(self) -> int:
        """How many telegrams and messages are unchanged."""
        return len(self.same)

    @property
    def sha256(self) -> str:
        """Of the texts of all unchanged telegrams and messages: in small letters, sorted, a line each."""
        text = "".join(f"{line}\n" for line in sorted(self.same))
        return hashlib.sha256(text.encode("utf-8", "surrogatepass")).hexdigest()

    @property
    def whole(self) -> bool:
        """Whether all telegrams and messages could be compared, and all names of aspects and messages."""
        return self.old.checked.whole and self.new.checked.whole and not self.lacks_names

    @property
    def status(self) -> int:
        """2 if anything was refused or not compared, 1 if anything differs, else 0."""
        groups = self.groups_added or self.groups_removed or self.groups_renumbered
        telegrams = self.added or self.removed or self.changed or self.respelled or self.exchanged
        return 2 if not self.whole else int(bool(groups or telegrams or self.findings_new or self.findings_gone))

    def compare(self, words: str, old: Sent, new: Sent) -> None:
        """Compares two telegrams or messages: their texts, and their fields if the texts differ."""
        if old[1] == new[1]:
            self.same.append(new[1].lower())
            return
        before, after = old[2].form, new[2].form
        into = self.respelled if before == after else self.changed
        into.append(Changed(words, old[0], new[0], tuple(differences(before, after))))


def by_place(table: Table, messages: Optional[Messages]) -> Tuple[Table, Optional[Messages]]:
    """A release with its aspects and messages named by their indices, as those of a document are."""
    groups = []
    for group in table.groups:
        names = [str(place) if len(group.aspects) > 1 else "" for place in range(len(group.aspects))]
        aspects = tuple(aspect._replace(name=name) for name, aspect in zip(names, group.aspects))
        groups.append(replace(group, aspects=aspects))
    said = messages.messages if messages else ()
    numbered = tuple(message._replace(name=name_by_place(place)) for place, message in enumerate(said))
    return replace(table, groups=tuple(groups)), messages and messages._replace(messages=numbered)


def compare(old: Checked, new: Checked, named: bool = True) -> Difference:
    """What differs between two releases. `named` ones are not documents: there are notes on names, km and tracks."""
    answer, differing = Difference(Side(old), Side(new)), []
    if not named and any(_by_order(side) for side in (old, new)):
        answer.notes.append(NO_NAMES)
    pairs, removed, added = _paired_groups(answer.old, answer.new, named)
    answer.groups_renumbered, removed, added = renumbered(answer.old, answer.new, removed, added, named)
    answer.groups_removed += map(answer.old.describe, removed)
    answer.groups_added += map(answer.new.describe, added)
    others = [(each.before, each.after) for each in answer.groups_renumbered]
    for before, after in [*pairs, *others] if named else []:
        answer.notes += _renamed(answer.new, before, after)
    for before, after in pairs:
        content = _content(answer.old, before)
        if content is not None and content == _content(answer.new, after):
            answer.same += {row.number: row.telegram.lower() for row in after.rows()}.values()
        else:
            differing.append((before, after))
    for which, side in enumerate((answer.old, answer.new)):
        side.decode(row for pair in differing for row in pair[which].rows())
    answer.exchanged = exchanged(answer.old, answer.new, differing)
    moved = [{rows[which] for each in answer.exchanged for rows in each.rows} for which in (0, 1)]
    for before, after in differing:
        _compare_group(answer, before, after, moved)
    _compare_messages(answer)
    _compare_findings(answer, [*pairs, *others])
    return answer


def _by_order(side: Checked) -> bool:
    """Whether a release has aspects or messages, which are paired by their order if they have no names."""
    return bool(side.accepted_messages) or any(len(group.aspects) > 1 for group in side.table.groups)


def _paired_groups(old: Side, new: Side, named: bool) -> Tuple[Pairs[Group], List[Group], List[Group]]:
    """Groups of one identity. If several have it, those of one name come first, then those with the same telegrams."""
    keys: List[Callable[[Known], Hashable]] = [
        lambda known: (known[0], known[1].name),
        lambda known: (known[0], tuple(row.telegram for row in known[1].rows())),
        lambda known: known[0],
    ]
    pairs, gone, come = paired(old.known(), new.known(), *keys[not named :])
    groups = [(before, after) for (_, before), (_, after) in pairs]
    return groups, [group for _, group in gone], [group for _, group in come]


class ReadTelegram(NamedTuple):
    """A telegram that could be read. One that is sent in every aspect comes once for each."""

    aspect: str
    position: int
    place: int
    row: Row


def _placed(side: Side, group: Group, moved: Set[int]) -> Iterator[ReadTelegram]:
    """The telegrams of a group, without those that were exchanged."""
    for aspect in group.aspects:
        for place, row in enumerate(aspect.rows):
            if row.number in side.checked.accepted and row.number not in moved:
                yield ReadTelegram(aspect.name, side.head(row)[0], place, row)


def _content(side: Side, group: Group) -> Optional[Sequence[object]]:
    """What a group sends, if all of it could be read."""
    if any(row.number not in side.checked.accepted for row in group.rows()):
        return None
    return [(aspect.name, [(row.telegram, row.aspect == EVERY) for row in aspect.rows]) for aspect in group.aspects]


def _compare_group(answer: Difference, before: Group, after: Group, moved: Sequence[Set[int]]) -> None:
    """Compares the telegrams of two groups by aspect and position; those that are left by aspect and place."""
    old, new = answer.old, answer.new
    pairs, gone, come = paired(
        _placed(old, before, moved[0]),
        _placed(new, after, moved[1]),
        lambda placed: (placed.aspect, placed.position),
        lambda placed: (placed.aspect, placed.place),
    )
    known = {(was.row.number, now.row.number): (was.row, now.row) for was, now in pairs}
    for _, (was, now) in sorted(known.items(), key=lambda item: item[0]):
        answer.compare(new.describe(after, now.aspect, now), old.sent(was), new.sent(now))
    for side, group, left, which, into in ((new, after, come, 1, answer.added), (old, before, gone, 0, answer.removed)):
        both = {numbers[which] for numbers in known}
        rows = {placed.row.number: placed.row for placed in left if placed.row.number not in both}
        into += [f"{side.describe(group, row.aspect, row)}  row {row.number}" for row in rows.values()]


def _renamed(new: Side, before: Group, after: Group) -> Iterator[str]:
    """What the table has of a group that differs, without any telegram: of each column the first cell that differs."""
    if before.name != after.name:
        yield _note(new.describe(after), "name", before.name, after.name)
    first = before.aspects[0]._replace(name=after.aspects[0].name)  # (the first ones are compared whatever their names)
    partners = {aspect.name: aspect for aspect in (first, *before.aspects)}
    pairs = [pair for own in after.aspects if own.name in partners for pair in zip(partners[own.name].rows, own.rows)]
    for column, words in BESIDE_TELEGRAMS.items():
        cells = ((getattr(was, column), getattr(now, column), now.number) for was, now in pairs)
        was, now, number = next((each for each in cells if each[0] != each[1]), (None, None, 0))
        if number:
            yield _note(new.describe(after) + (f", row {number}" if column == "name" else ""), words, was, now)


def _note(words: str, column: str, was: object, now: object) -> str:
    """That a column differs."""
    values = ["none" if value in (None, "") else clean(str(value)) for value in (was, now)]
    return f"{words}: {column} {values[0]} -> {values[1]}"


def _compare_messages(answer: Difference) -> None:
    """Compares the messages by their names, and those without one by their order."""
    old, new = (side.checked.accepted_messages for side in (answer.old, answer.new))
    pairs, gone, come = paired(old, new, lambda accepted: accepted.message.name)
    for pair in pairs:
        was, now = ((accepted.message.number, accepted.message.text, accepted.record) for accepted in pair)
        answer.compare(_message(pair[1].message), was, now)
    answer.added += [_message(accepted.message) for accepted in come]
    answer.removed += [_message(accepted.message) for accepted in gone]


def _message(message: Message) -> str:
    return f"message of {describe_message(message)}"


def _compare_findings(answer: Difference, pairs: Pairs[Group]) -> None:
    """Which findings are new, and which are gone, by what they are about."""
    numbers = [{pair[which].name: number for number, pair in enumerate(pairs)} for which in (0, 1)]
    old = _keyed(answer.old, answer.old.checked.findings, numbers[0])
    new = _keyed(answer.new, _findings_in_order(answer, pairs), numbers[1])
    answer.findings_new += _without(new, old)
    answer.findings_gone += _without(old, new)


def _findings_in_order(answer: Difference, pairs: Pairs[Group]) -> Sequence[Place]:
    """The findings of the new release. Those that depend on an order are looked for in the order of the old one."""
    new = answer.new.checked
    if not any(place.finding.rule in BY_ORDER for place in new.findings):
        return new.findings
    places = {group.name: place for place, group in enumerate(answer.old.checked.table.groups)}
    partners = {after.name: before for before, after in pairs}
    last = len(places)
    kept = sorted(
        (_in_order(group, partners.get(group.name)) for group in new.kept),
        key=lambda group: places[partners[group.name].name] if group.name in partners else last,
    )
    if kept == list(new.kept):
        return new.findings
    answer.notes.append(OTHER_ORDER)
    findings = report_on(replace(new, kept=tuple(kept))).findings
    return [
        *(place for place in new.findings if place.finding.rule not in BY_ORDER),
        *(place for place in findings if place.finding.rule in BY_ORDER),
    ]


def _in_order(group: Group, before: Optional[Group]) -> Group:
    """The group with its aspects in the order of the old one."""
    names = [aspect.name for aspect in before.aspects] if before else []
    places = {name: place for place, name in enumerate(names)}
    return replace(group, aspects=tuple(sorted(group.aspects, key=lambda aspect: places.get(aspect.name, len(names)))))


Keyed = List[Tuple[Hashable, Place]]


def _keyed(side: Side, findings: Sequence[Place], numbers: Mapping[str, int]) -> Keyed:
    """Each finding with what it is about."""
    messages = side.checked.accepted_messages
    records: Dict[Optional[Message], Record] = {accepted.message: accepted.record for accepted in messages}
    side.decode(place.row for place in findings if place.row and place.finding.packet is not None)
    keyed: Keyed = []
    for place in findings:
        finding, packet = place.finding, None
        name = place.group.name if place.group else place.message and place.message.name
        subject = numbers.get(place.group.name, name) if place.group else name
        if finding.packet is not None:
            record = side.records[place.row.number] if place.row else records[place.message]
            packet = _packet(record.form, finding.packet)
        about = (place.group is None, subject, place.aspect, finding.balise, packet, finding.direction)
        keyed.append(((finding.rule, *about), place))
    return keyed


def _packet(form: Form, place: int) -> Hashable:
    """A packet by its number, direction and order."""
    heads = [(packet["nid_packet"], packet.get("q_dir")) for packet in form["packets"][: place + 1]]
    return heads[-1], heads.count(heads[-1])


def _without(keyed: Keyed, others: Keyed) -> Iterator[Place]:
    """The findings that only one of the two releases has."""
    counted = Counter(key for key, _ in others)
    for key, place in keyed:
        counted[key] -= 1
        if counted[key] < 0:
            yield place

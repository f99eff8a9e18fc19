"""Findings that have one cause: the same text, no profile at all, exchanged telegrams, a telegram of another group.

Which findings belong to exchanged telegrams is the program's word: those that it does not report of the other order.
"""
from __future__ import annotations

from collections import Counter
from typing import Dict, Iterable, Iterator, List, Mapping, NamedTuple, Optional, Sequence, Set, Tuple

from balisekit.engine.program import Report
from balisekit.rules.checking import Checked, Place, document
from balisekit.rules.location import Identity
from balisekit.rules.statements.profiles import neither_profile
from balisekit.rules.statements.scene import Balise, Statement
from balisekit.tables.grouping import by_position
from balisekit.tables.model import Group, Row
from balisekit.tables.names import NAMED, clean, group_words, listed, rows_words

OF_HEADERS = frozenset((1, 2, 3, 4, 5, 6, 7, 8, 15, 16))
"""The rules that a telegram in a wrong place may break."""
OF_ORDER = frozenset((4, 5, 15, 16))
"""The rules beside F1 that balises in a wrong order may break."""
NO_GRADIENT, NO_SPEED_PROFILE = 10, 12


class Cause(NamedTuple):
    """Findings of one cause, and what is wrong."""

    rule: int
    places: Tuple[Place, ...]
    statement: Statement
    balise: Optional[Balise] = None
    """The balise that it is about, if that is not the balise of its findings."""


def causes(checked: Checked, findings: Sequence[Place]) -> List[Cause]:
    """The causes of these findings. Each finding belongs to exactly one."""
    places = list(findings)
    found: List[Cause] = []
    for look in (_strange, _exchanged):
        some = look(checked, places)
        taken = {place.finding.line for cause in some for place in cause.places}
        places = [place for place in places if place.finding.line not in taken] if taken else places
        found += some
    return list(_with_copies(checked, found + _alike(places)))


def _alike(places: Sequence[Place]) -> List[Cause]:
    """Findings of one rule and one group or message with the same text are united."""
    without_profiles = _without_profiles(places)
    same: Dict[Tuple[int, Tuple[object, ...]], List[Tuple[Place, Statement]]] = {}
    for place in places:
        said = without_profiles.get(_missing_at(place), place.statement)
        rule = place.finding.rule if said is place.statement else NO_GRADIENT
        about = *_about(place), said.lacking, said.before, said.after, place.correct
        same.setdefault((rule, about), []).append((place, said))
    return [Cause(rule, tuple([place for place, _ in some]), _united(some)) for (rule, _), some in same.items()]


def _united(some: Sequence[Tuple[Place, Statement]]) -> Statement:
    """The statement of the first of these, with the other rows of them all."""
    others = sorted({row for _, said in some for row in said.others})
    return some[0][1]._replace(others=tuple(others)) if len(some) > 1 else some[0][1]


def _about(place: Place) -> Tuple[object, ...]:
    """The group or message of a finding."""
    return place.group.name if place.group else None, place.message.number if place.message else None


def _missing_at(place: Place) -> Tuple[object, ...]:
    """For F10 and F12: group or message, aspect and direction. For other findings nothing."""
    is_missing = place.finding.rule in (NO_GRADIENT, NO_SPEED_PROFILE)
    return (*_about(place), place.finding.aspect, place.finding.direction) if is_missing else ()


def _without_profiles(places: Iterable[Place]) -> Mapping[Tuple[object, ...], Statement]:
    """What is said where both profiles are missing with the same authority, and neither is elsewhere in the group."""
    missing: Dict[Tuple[object, ...], List[Place]] = {}
    for place in places:
        if _missing_at(place):
            missing.setdefault(_missing_at(place), []).append(place)
    both = {
        at: neither_profile(*(place.statement for place in some))
        for at, some in missing.items()
        if len(some) == 2 and some[0].correct == some[1].correct
    }
    return {at: said for at, said in both.items() if said}


def _by_group(places: Iterable[Place]) -> Dict[str, List[Place]]:
    """The findings of each group, by its name."""
    known: Dict[str, List[Place]] = {}
    for place in places:
        if place.group is not None:
            known.setdefault(place.group.name, []).append(place)
    return known


# ---- telegrams of one group in a wrong order


class Order(NamedTuple):
    """Balises of a group that have N_PIG of each other, in some of its aspects."""

    places: Tuple[Place, ...]
    positions: Tuple[Tuple[int, int], ...]
    """The place of each of these balises, and its N_PIG."""


def _exchanged(checked: Checked, places: Sequence[Place]) -> List[Cause]:
    """Balises of a group whose N_PIG are those of each other, and what is not found if they are put in that order."""
    suspects = {place.group.name for place in places if place.group and place.finding.rule == 1}
    by_group = _by_group(place for place in places if place.group and place.group.name in suspects)
    orders = {name: list(_orders(some)) for name, some in by_group.items()}
    groups = [group for group in checked.kept if orders.get(group.name)]
    left = _left(checked, [_put_in_order(group, orders[group.name]) for group in groups])
    found: List[Cause] = []
    for group in groups:
        gone = OF_ORDER - left[group.name]
        brought = [place for place in by_group[group.name] if place.finding.rule in gone]
        for order in orders[group.name]:
            found.append(Cause(1, (*order.places, *brought), _exchange(order)))
            brought = []
    return found


def _orders(places: Sequence[Place]) -> Iterator[Order]:
    """The F1 of a group, by aspects with the same order of balises."""
    by_aspect: Dict[int, List[Place]] = {}
    for place in places:
        if place.finding.rule == 1:
            by_aspect.setdefault(place.finding.aspect or 0, []).append(place)
    alike: Dict[Tuple[Tuple[int, int], ...], List[Place]] = {}
    for some in by_aspect.values():
        positions = tuple((place.finding.balise or 0, place.balise.n_pig) for place in some if place.balise)
        if sorted(at for at, _ in positions) == sorted(said for _, said in positions):
            alike.setdefault(positions, []).extend(some)
    yield from (Order(tuple(some), positions) for positions, some in alike.items())


def _put_in_order(group: Group, orders: Sequence[Order]) -> Group:
    """The group with its balises in the order of N_PIG."""
    positions = dict(group.places)
    for order in orders:
        said = dict(order.positions)
        positions.update((place.row.number, said[place.finding.balise or 0]) for place in order.places if place.row)
    return by_position(group, positions)


def _left(checked: Checked, groups: Sequence[Group]) -> Dict[str, Set[int]]:
    """The rules that the program still finds broken in each of these groups."""
    report = checked.program.check(document(groups, ())) if groups else None
    known = isinstance(report, Report)
    left: Dict[str, Set[int]] = {group.name: set() if known else set(OF_ORDER) for group in groups}
    for finding in report.findings if isinstance(report, Report) else ():
        if finding.group is not None and finding.group < len(groups):
            left[groups[finding.group].name].add(finding.rule)
    return left


def _exchange(order: Order) -> Statement:
    """What is wrong with the order of balises."""
    wanted, said = ([str(pair[index]) for pair in order.positions] for index in (0, 1))
    words = "their telegrams or their rows look " + ("exchanged" if len(said) == 2 else "to be in a wrong order")
    sentence = f"{words}: N_PIG is {_listed(said)} instead of {_listed(wanted)}"
    return Statement(sentence, values={"N_PIG": ", ".join(said), "wanted_N_PIG": ", ".join(wanted)})


def _listed(words: Sequence[str]) -> str:
    return " and ".join([", ".join(words[:-1]), words[-1]])


# ---- a telegram of another group


class Strange(NamedTuple):
    """A telegram whose identity is not that of all others of its group."""

    group: Group
    balise: Balise
    others: int
    """How many telegrams have the other identity."""
    identity: Identity
    """That of the others."""

    def brings(self, place: Place) -> bool:
        """Whether a finding is about this telegram, or compares with it."""
        number, rule, at_head = self.balise.rows[0], place.finding.rule, self.group.aspects[0].rows[0]
        if rule == 14:
            return number == at_head.number and self.group in (place.group, place.earlier)
        if place.group is not self.group or rule not in OF_HEADERS:
            return False
        same_place = rule == 16 and place.finding.aspect is None and place.finding.balise == self.group.places[number]
        return same_place or number in (place.row.number if place.row else 0, *place.statement.others)


def _strange(checked: Checked, places: Sequence[Place]) -> List[Cause]:
    """Telegrams of another group, with all that they bring into this one."""
    identities = {"NID_C", "NID_BG"}
    suspects = {
        place.group.name: place.group
        for place in places
        if place.group and place.finding.rule == 3 and not identities.isdisjoint(place.statement.values)
    }
    if not suspects:
        return []
    heads = {group.aspects[0].rows[0].number: group for group in checked.kept}
    numbers = {*heads, *(row.number for group in suspects.values() for row in group.rows())}
    places_of = {number: place for group in suspects.values() for number, place in group.places.items()}
    balises = {
        row.number: Balise(row, record.form, places_of.get(row.number, 0))
        for row, record in checked.accepted.decoded(sorted(numbers))
    }
    found = [one for group in suspects.values() for one in _strange_of(group, balises)]
    owners: Dict[Identity, Group] = {}
    strange = {one.balise.rows[0] for one in found}
    for number, group in heads.items():
        if number not in strange:
            owners.setdefault(_identity(balises[number]), group)
    by_group = _by_group(places)
    for place in places:
        if place.earlier is not None:
            by_group.setdefault(place.earlier.name, []).append(place)
    return [
        Cause(3, tuple(filter(one.brings, by_group[one.group.name])), _not_of_group(one, owners), one.balise)
        for one in found
    ]


def _strange_of(group: Group, balises: Mapping[int, Balise]) -> Iterator[Strange]:
    """The one telegram of a group whose identity is not that of all others, of which there are two at least."""
    rows = {row.number: _identity(balises[row.number]) for row in group.rows()}
    (identity, count), *others = Counter(rows.values()).most_common()
    if len(others) == 1 and others[0][1] == 1 < count:
        number = next(number for number, own in rows.items() if own != identity)
        yield Strange(group, balises[number], count, identity)


def _identity(balise: Balise) -> Identity:
    return balise.form["nid_c"], balise.form["nid_bg"]


def _not_of_group(one: Strange, owners: Mapping[Identity, Group]) -> Statement:
    """What is wrong with a telegram of another group, and of which one it is, if the table has it."""
    own, owner = _identity(one.balise), owners.get(_identity(one.balise))
    like = f": it looks like one of {group_words(owner)}" if owner and owner is not one.group else ""
    sentence = (
        f"the telegram has the identity {own[0]}/{own[1]} (NID_C/NID_BG), and the other {one.others} telegrams of "
    )
    values = {"NID_C": own[0], "NID_BG": own[1], "other_NID_C": one.identity[0], "other_NID_BG": one.identity[1]}
    words = f"{sentence}the group have {one.identity[0]}/{one.identity[1]}{like}"
    return Statement(words, values={name: str(value) for name, value in values.items()})


# ---- the same telegram in another group


def _with_copies(checked: Checked, some: Sequence[Cause]) -> Iterator[Cause]:
    """The same causes. Those of F3 tell which of their telegrams are in other groups too."""
    suspects = {index: list(_compared(cause)) for index, cause in enumerate(some) if cause.rule == 3}
    copies: Dict[str, List[Row]] = {row.telegram.lower(): [] for rows in suspects.values() for row in rows}
    for row in checked.table.rows if copies else ():
        if row.telegram.lower() in copies:
            copies[row.telegram.lower()].append(row)
    for index, cause in enumerate(some):
        for row in suspects.get(index, ()):
            others = [each for each in copies[row.telegram.lower()] if each.group != row.group]
            cause = cause._replace(statement=_copied(cause.statement, row, others))
        yield cause


def _compared(cause: Cause) -> Iterator[Row]:
    """The telegrams that F3 compares: the one that is not of its group, or those that differ."""
    if cause.balise is not None and cause.balise.row is not None:
        yield cause.balise.row
        return
    numbers = {row for place in cause.places for row in (place.row.number if place.row else 0, *place.statement.others)}
    rows = {row.number: row for place in cause.places if place.group for row in place.group.rows()}
    yield from (rows[number] for number in sorted(numbers) if number in rows)


def _copied(said: Statement, row: Row, copies: Sequence[Row]) -> Statement:
    """The statement, and of which rows of other groups a telegram is a copy."""
    if not copies:
        return said
    numbers, groups = [each.number for each in copies], dict.fromkeys(clean(each.group) for each in copies)
    words = f"; row {row.number} has the same telegram as {rows_words(numbers)} ({listed(list(groups), NAMED)})"
    return said._replace(after=said.after + words, further=(*said.further, *numbers))

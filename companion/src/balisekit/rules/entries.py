"""What an engineer has to look at: one entry for each cause.

An entry is made of findings of the program, whose lines it quotes, or of a remark of balisekit's own rules, which are
not proved.
"""
from __future__ import annotations

from decimal import Decimal
from typing import Any, Dict, List, Mapping, NamedTuple, Optional, Sequence, Tuple

from balisekit.rules.causes import Cause, causes
from balisekit.rules.checking import Checked, Place
from balisekit.rules.rule import Remark, Urgency
from balisekit.rules.statements.scene import BaliseName
from balisekit.tables.model import Group, Message, Row


class Entry(NamedTuple):
    """One cause, and all places at which it shows. What it does not name is None or empty."""

    rule: str
    """`F11`, `L2`."""
    urgency: Urgency
    sentence: str
    """What is wrong, with the values that differ and their units. It names packets by NID_PACKET, balises by name."""
    rows: Tuple[int, ...] = ()
    """The rows of the table that it is about, in their order."""
    group: Optional[Group] = None
    aspects: Tuple[str, ...] = ()
    balise: Optional[int] = None
    """The position of the balise in its group, counted from 0 as N_PIG is."""
    packet: Optional[int] = None
    """The NID_PACKET."""
    direction: str = ""
    """`nominal` or `reverse`; nothing if it is about both or none."""
    km: Optional[Decimal] = None
    message: Optional[Message] = None
    values: Mapping[str, str] = {}
    """The values that the sentence names, by their variables or as `supervised_location_m`."""
    findings: Tuple[Place, ...] = ()
    """The findings of the program, if it is an entry of the program: their lines are quoted."""
    remark: Optional[Remark] = None
    """What a rule of balisekit has found, if it is an entry of a rule of balisekit."""
    expected: str = ""
    """The case of correct data that gets such a finding, if it fits one."""
    balises: Tuple[BaliseName, ...] = ()
    """The balises that it is about."""
    other_rows: Tuple[int, ...] = ()
    """The rows that the sentence names beside its own."""
    folded: Tuple[Entry, ...] = ()
    """The entries that one correction explains, if this entry stands for them. Its findings are theirs."""

    @property
    def rules(self) -> Sequence[str]:
        """The rules of its findings: an exchange of telegrams may break several."""
        numbers = sorted({place.finding.rule for place in self.findings})
        others = [entry.rule for entry in self.folded if not entry.findings]
        return [*(f"F{number}" for number in numbers), *dict.fromkeys(others)] or [self.rule]

    @property
    def quoted(self) -> Sequence[str]:
        """The lines of the program, unchanged."""
        return [place.finding.line for place in self.findings]


URGENCIES: Mapping[int, Urgency] = {
    **dict.fromkeys((1, 2, 5, 8, 10, 11, 12, 13, 16), Urgency.WRONG_INFORMATION),
    **dict.fromkeys((3, 14), Urgency.WRONG_PLACE),
    **dict.fromkeys((4, 6, 7, 15), Urgency.BRAKING),
    9: Urgency.NOT_JUDGED,
}
"""What a finding means at worst, by docs/findings.md. F15 is worse with F16, which is an entry of its own."""


CORRECT: Mapping[str, str] = {
    "stop aspect": "stop aspect: expected",
    "one controlled balise": "one controlled balise: expected",
    "infill": "infill: expected",
    "default group": "default telegram: expected",
    "default aspect": "default telegram: expected",
    "cover marker": "cover marker: expected",
    "message": "expected if the profiles were sent before",
    "earlier group": "expected if an earlier group sends the profiles",
}
"""What is said of a finding that fits a row of the table of findings on correct data."""


def entries(checked: Checked, places: Optional[Sequence[Place]] = None) -> List[Entry]:
    """The program's findings, or some of them: one entry for each cause.

    The most urgent ones come first, and those of correct data last. Those of one urgency are sorted by track and
    kilometre.
    """
    tracks: Dict[str, int] = {}
    for row in checked.table.rows:
        tracks.setdefault(row.track, len(tracks))
    made = [_entry(cause) for cause in causes(checked, checked.findings if places is None else places)]
    return sorted(made, key=lambda entry: _order(entry, tracks))


def _order(entry: Entry, tracks: Mapping[str, int]) -> Tuple[Any, ...]:
    """By what entries are sorted. Groups come before messages, those without a kilometre behind the others."""
    group, place = entry.group, entry.findings[0]
    where: Tuple[Any, ...] = (1, entry.message.number if entry.message else 0)
    if group is not None:
        km = group.aspects[0].rows[0].km
        where = 0, tracks.get(group.track, 0), km is None, km or 0, place.finding.group, entry.rows
    return (entry.expected != "", entry.urgency, where, int(entry.rule[1:]))


def with_stop_aspects(some: Sequence[Entry]) -> Sequence[Entry]:
    """The same entries. Two or more expected ones of stop aspects are one entry: a line has one design for them."""
    stops = [entry for entry in some if entry.expected == CORRECT["stop aspect"]]
    if len(stops) < 2:
        return some
    aspects = {(entry.group.name, name) for entry in stops if entry.group for name in entry.aspects or ("",)}
    groups = {name for name, _ in aspects}
    made = stops[0]._replace(
        sentence=f"{len(aspects)} stop aspects of {len(groups)} groups lack packet 21 (gradient profile), packet 27 "
        "(international static speed profile) or both, with V_MAIN 0",
        urgency=min(entry.urgency for entry in stops),
        rows=tuple(sorted({row for entry in stops for row in entry.rows})),
        group=None,
        aspects=(),
        balise=None,
        packet=None,
        direction="",
        km=None,
        values={"stop_aspects": str(len(aspects)), "groups": str(len(groups))},
        findings=tuple(place for entry in stops for place in entry.findings),
        balises=(),
        other_rows=(),
        folded=tuple(stops),
    )
    others = [entry for entry in some if entry.expected != CORRECT["stop aspect"]]
    before = [entry for entry in others if not entry.expected]
    return [*before, made, *others[len(before) :]]


def entry_of(place: Place) -> Entry:
    """The entry of a finding by itself."""
    return _entry(Cause(place.finding.rule, (place,), place.statement))


def _entry(cause: Cause) -> Entry:
    """The entry of a cause."""
    places, said, group = cause.places, cause.statement, cause.places[0].group
    own = [cause.balise.row] if cause.balise else [row for place in places for row in _rows(place)]
    rows = {row.number: row for row in own if row}
    numbers = tuple(sorted(rows))
    aspects = {place.aspect for place in places}
    directions = {place.finding.direction for place in places if place.finding.direction}
    balises = {place.finding.balise for place in places}
    names = [cause.balise.name] if cause.balise else [place.balise for place in places if place.balise]
    return Entry(
        f"F{cause.rule}",
        min([URGENCIES[place.finding.rule] for place in places]),
        str(said),
        numbers,
        group,
        tuple([one.name for one in group.aspects if one.name and one.name in aspects]) if group else (),
        balises.pop() if len(balises) == 1 else None,
        said.packet,
        directions.pop() or "" if len(directions) == 1 else "",
        rows[numbers[0]].km if numbers else None,
        places[0].message,
        said.values,
        places,
        expected=_expected(cause),
        balises=tuple(dict.fromkeys(names)),
        other_rows=tuple(sorted({*said.others, *said.further})),
    )


def _expected(cause: Cause) -> str:
    """The case of correct data that all findings of a cause fit.

    An authority without a profile fits none if the profile is there, for the other direction or in a silent balise.
    """
    (case, *others) = {place.correct for place in cause.places}
    return "" if others or case == "earlier group" and cause.statement.others else CORRECT.get(case, "")


def _rows(place: Place) -> Sequence[Row]:
    """The rows that a finding is about: all of its aspect or group, or those of its balise, in each aspect."""
    balise, aspect = place.finding.balise, place.finding.aspect
    aspects = place.group.aspects if place.group else ()
    aspects = aspects if aspect is None else aspects[aspect : aspect + 1]
    return [row for one in aspects for row in (one.rows if balise is None else [one.rows[balise]])]

"""Aspects of infill without a packet 136, although their signal has an authority at them. For E15."""
from __future__ import annotations

from typing import Iterator, List, NamedTuple, Optional, Sequence, Set

from balisekit.etcs.geometry import DIRECTIONS
from balisekit.rules.decoded import Decoded
from balisekit.rules.location import Location
from balisekit.rules.meaning.along import is_authority
from balisekit.rules.meaning.infill_signals import AUTHORITY, identity_of, signal_of
from balisekit.rules.meaning.sent import kmh, speed
from balisekit.rules.meaning.words import source
from balisekit.rules.passages import GroupData, Passage
from balisekit.rules.rule import Remark
from balisekit.tables.names import quoted

NO_REFERENCE = "aspects without a packet 136, of which the signal has an authority"
"""Why infill is not compared."""


class Lacking(NamedTuple):
    """The remarks on aspects without a packet 136, and how many others there are."""

    found: Sequence[Remark]
    left: int


def lacking_infill(decoded: Decoded) -> Lacking:
    """Looks at the groups of which an aspect has a packet 136, and another one at which trains may run has none.

    One aspect is reported if all others of its group have one. Several may be a design.
    """
    found: List[Remark] = []
    left = 0
    for data in decoded.controlled:
        for direction in DIRECTIONS if not data.group.unread else ():
            having = [each for each in data.passages if each.direction == direction and each.reference is not None]
            lacking = {each.name for each in data.group.group.aspects} - {each.aspect for each in having}
            for signal in _of_signals(decoded, having, lacking if having else set()):
                found += [_remark(data, direction, signal)] if len(lacking) == 1 else []
                left += len(lacking) > 1
    return Lacking(found, left)


def _of_signals(decoded: Decoded, having: Sequence[Passage], lacking: Set[str]) -> Iterator[Passage]:
    """What the signal has at each of the aspects that are lacking, if that is an authority with V_MAIN above 0."""
    if not lacking:
        return
    signal: Optional[Passage] = None
    for each in having:
        identity = identity_of(each)
        target = decoded.by_identity.get(identity) if identity else None
        signal = signal or (signal_of(decoded, each, target) if target else None)
    if signal is not None and signal.group is not None:
        for each in signal.group.passages:
            is_meant = each.direction == signal.direction and each.aspect in lacking
            if is_meant and any(map(is_authority, each.of(AUTHORITY))):
                yield each


def _remark(data: GroupData, direction: str, signal: Passage) -> Remark:
    """A remark on the aspect without infill."""
    name, (authority, *_) = signal.aspect, signal.of(AUTHORITY)
    rows = next(each.rows for each in data.group.group.aspects if each.name == name)
    own = tuple(row.number for row in rows if row.aspect == name)
    main = authority.form["v_main"]
    sentence = (
        f"the aspect {quoted(name)} has no packet 136, which all other aspects have, although V_MAIN is {speed(main)} "
        f"in packet 12 of {source(signal, authority)}"
    )
    where = Location(data.group, direction=direction)
    values, compared = {"v_main_kmh": kmh(main)}, [signal.at(authority)]
    return Remark("E15", where, sentence, values=values, rows=own, aspects=[name], compared=compared)

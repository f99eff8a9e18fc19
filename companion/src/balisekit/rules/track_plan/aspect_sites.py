"""The aspects of the table that a plan lists, and what their packets other than 12 give beside it, for the rule X4."""
from __future__ import annotations

from typing import Dict, Iterator, NamedTuple, Sequence, Tuple

from balisekit.rules.decoded import Decoded
from balisekit.rules.passages import GroupData, Passage
from balisekit.rules.rule import Remark
from balisekit.rules.telegrams import Packet
from balisekit.rules.track_plan.aspect_terms import AUTHORITY, both, is_alike, other_terms_of
from balisekit.rules.track_plan.placed import NO_PLACE, Counts, PlacedPlan, cells_of, plan_words
from balisekit.tables.plan import PlanRow, aspect_name
from balisekit.tables.plan_values import OTHER_KEYS


class Site(NamedTuple):
    """An aspect of the table."""

    data: GroupData
    aspect: str
    is_read: bool
    """Whether the program has read all its telegrams."""

    @property
    def rows(self) -> Tuple[int, ...]:
        """The rows of the aspect."""
        rows = next(each.rows for each in self.data.group.group.aspects if each.name == self.aspect)
        return tuple(each.number for each in rows)

    def passages(self, row: PlanRow) -> Sequence[Passage]:
        """What trains of the row's way get of the aspect."""
        return [each for each in self.data.passages if each.aspect == self.aspect and row.way in (0, each.way)]

    def remark(self, row: PlanRow, sentence: str) -> Remark:
        """A remark of X4 on all rows of the aspect."""
        facts = [cells_of(row)]
        return Remark("X4", self.data.location(), sentence, rows=self.rows, aspects=(self.aspect,), facts=facts)


def sites_of(decoded: Decoded) -> Dict[str, Site]:
    """The aspects of the table by the names that a plan gives them."""
    return {
        aspect_name(data.group.group.name, aspect.name): Site(
            data, aspect.name, all(row.number in data.telegrams for row in aspect.rows)
        )
        for data in decoded.groups
        for aspect in data.group.group.aspects
    }


def of_other_packets(placed: PlacedPlan, site: Site, row: PlanRow, more: int, counts: Counts) -> Iterator[Remark]:
    """One remark on all that other packets than 12 give otherwise. Without a way, one direction has to give it all."""
    if not row.terms.keys() & {*OTHER_KEYS}:
        return
    passages, is_known = site.passages(row), not row.way or site.data.group.rising is not None
    counts["" if is_known else NO_PLACE] += 1
    if not is_known:
        return
    differing = [_differing(each.said, row, more) for each in passages] or [_differing((), row, more)]
    known = dict(sorted(differing, key=len)[0])
    known.update(
        (key, each[key]) for each in differing for key in each if not row.terms[key]
    )  # (none in any direction)
    texts = [known[key] for key in row.terms if key in known]
    if "authority" in row.terms and any(each.of(AUTHORITY) for each in passages):
        texts.insert(0, "the aspect has a packet 12, and none")
    placed.confirmed.tell(row, site.rows, not texts)
    if texts:
        yield site.remark(row, f"{' by the plan; '.join(texts)} by {plan_words(row, with_km=False)}")


def _differing(packets: Sequence[Packet], row: PlanRow, more: int) -> Dict[str, str]:
    """What these packets give otherwise than a row, in words, by the keys."""
    return {
        key: both(key, said, row.terms[key])
        for key, said, allowed in other_terms_of(packets, row.terms)
        if not is_alike(key, said, row.terms[key], allowed + more)
    }

"""Compares restrictions, conditions and areas with the rows of a plan, and finds rows that no packet states."""
from __future__ import annotations

from collections import Counter
from typing import Dict, Iterator, List, Sequence, Set, Tuple

from balisekit.design.tracks import Area, Start
from balisekit.rules.meaning.along import unread_of
from balisekit.rules.rule import Options, Remark
from balisekit.rules.track_plan.borders import NOT_DECODED
from balisekit.rules.track_plan.placed import BEHIND_POINT, BEYOND, NO_PLACE, SAYS_NOTHING, PlacedPlan, Saying
from balisekit.rules.track_plan.placed import cells_of, plan_words
from balisekit.rules.track_plan.things import FIELDS, NUMBERS, REVOCATION
from balisekit.rules.track_plan.things import Thing, fields_of, meant, places_differ, things_of
from balisekit.tables.chainage import rounding
from balisekit.tables.names import clean
from balisekit.tables.plan import WAY_WORDS, PlanRow
from balisekit.tables.plan_things import LENGTH_KEYS, words

WORDS = {"tsr": "temporary restriction", "condition": "track condition", "reversing": "reversing area"}
WORDS.update(crossing="level crossing", traction="change of the traction system")
WORDS.update(repositioning="repositioning section", stop_in_sr="order for trains in SR", shunting="order for shunting")

ONE_WAY = "stated for one way only, although groups say something for both"


class Comparison:
    """The comparison of all things of the kinds that a plan has."""

    def __init__(self, placed: PlacedPlan, options: Options) -> None:
        self._placed, self._options = placed, options
        self.counts: Counter[str] = Counter()
        self.found: Dict[Tuple[str, str], Tuple[List[Saying], Sequence[str]]] = {}
        """The packets that differ alike, by their kind and the sentence, and on which rows it rests."""
        self._named: Set[int] = set()
        self._ways: Dict[int, Set[int]] = {}
        """By the numbers of rows: the ways for which packets state what they say."""
        self._lacking: Set[Tuple[str, str]] = set()
        """The kinds and tracks of which not all packets are compared."""

    def of_kind(self, kind: str) -> Iterator[Remark]:
        """What differs in one kind, then its rows that no packet states."""
        decoded = self._placed.decoded
        self._lacking.update((kind, clean(track)) for track, _ in unread_of(decoded))
        infill = (clean(one.track) for one in decoded.passages for each in one.infill if each.number in NUMBERS[kind])
        self._lacking.update((kind, track) for track in infill)
        for saying in (each for each in self._placed.sayings(*NUMBERS[kind]) if not fields_of(each.packet)):
            self.counts[NOT_DECODED] += 1
            self._lacking.add((kind, clean(saying.passage.track)))
        for thing in things_of(self._placed, kind):
            self._look_at(thing)
        for row in self._placed.plan.of_kind(kind):
            if row.number not in self._named and (kind, row.track) not in self._lacking:
                yield from self._unstated(row)
            self.counts[ONE_WAY] += not row.way and self._lacks_a_way(row)

    def _lacks_a_way(self, row: PlanRow) -> bool:
        """Whether packets state a row for one way only, and groups of its track say something for the other way too."""
        ways = self._ways.get(row.number, set())
        others = (one for one in self._placed.decoded.passages if one.speaks and clean(one.track) == row.track)
        return len(ways) == 1 and any(one.way is not None and one.way not in ways for one in others)

    def _look_at(self, thing: Thing) -> None:
        """Compares one thing with its row."""
        passage = thing.saying.passage
        start = self._placed.start(passage)
        is_behind = start is not None and self._placed.is_behind_point(passage, start.at(thing.end))
        why = NO_PLACE if start is None else BEHIND_POINT if is_behind else ""
        self.counts[why] += 1
        if why or start is None:
            self._lacking.add((thing.kind, clean(passage.track)))
            return
        rows = meant(thing, self._placed.tracks, start)
        self._named.update(area.row.number for area in rows)
        for area in rows:
            self._ways.setdefault(area.row.number, set()).add(start.way)
        texts = list(self._differing(thing, start, rows[0])) if rows else []
        compared = self._placed.confirmed.contradict if texts else self._placed.confirmed.confirm
        compared([area.row for area in (rows[:1] if texts else rows)], thing.saying.packet, ())
        if texts:
            self._add(thing, f"{' by the plan; '.join(texts)} by {plan_words(rows[0].row, with_km=False)}", rows[0].row)
        elif not rows:
            self._add(thing, f"it has the {WORDS[thing.kind]} {self._span(thing, start)}, and the plan has none there")

    def _differing(self, thing: Thing, start: Start, area: Area) -> Iterator[str]:
        """What differs in place and values, in words."""
        tolerance, stated = self._placed.decoded.tolerance, self._options.tolerance
        begin, end = (tolerance(stated, rounding(thing.unit, thing.lengths + more)) for more in (0, 1))
        allowed = begin, end
        pairs = (("begins", thing.begin, area.begin), ("ends", thing.end, area.end))
        for (verb, own, wanted), differs in zip(pairs, places_differ(thing, area, allowed)):
            if differs:
                here, there = (self._placed.km(thing.saying.passage, start.at(each)) for each in (own, wanted))
                yield f"the {WORDS[thing.kind]} {verb} at {here}, and at {there}"
        for key, wanted_term in area.row.terms.items():
            said = thing.terms.get(key)
            near = isinstance(said, int) and isinstance(wanted_term, int) and key in LENGTH_KEYS
            apart = abs(int(str(said)) - int(str(wanted_term))) if near else 0
            if apart > allowed[1] or not near and said != wanted_term:
                yield f"{FIELDS[thing.kind, key]}: {words(key, said)}, and {words(key, wanted_term)}"

    def _span(self, thing: Thing, start: Start) -> str:
        ends = (self._placed.km(thing.saying.passage, start.at(each)) for each in (thing.begin, thing.end))
        return "from {} to {}".format(*ends) if thing.end != thing.begin else f"at {next(ends)}"

    def _add(self, thing: Thing, sentence: str, *rows: PlanRow) -> None:
        """Packets that differ alike are one remark."""
        self.found.setdefault((thing.kind, sentence), ([], list(map(cells_of, rows))))[0].append(thing.saying)

    def _unstated(self, row: PlanRow) -> Iterator[Remark]:
        """A row that no packet states, if it is within the table."""
        decoded, place = self._placed.decoded, self._placed.place(row.track, row.km)
        group = decoded.nearest(row.track, place) if place is not None else None
        if place is None or group is None:
            return
        is_inside = decoded.is_inside(row.track, place)
        self.counts["" if is_inside else BEYOND] += 1
        if is_inside:
            self._placed.confirmed.uncovered.add(row.number)
            way = f" for {WAY_WORDS[row.way]} trains" if row.way else ""
            numbers = " or ".join(map(str, NUMBERS[row.kind]))
            sentence = f"no packet {numbers} states the {WORDS[row.kind]} of {plan_words(row)}{way}"
            yield Remark("X10", group.location(), sentence, values={"plan_km": row.km}, facts=[cells_of(row)])

    def revocations(self) -> None:
        """Compares the packets 66 with the numbers of the rows."""
        for saying in self._placed.sayings(REVOCATION):
            start, number = self._placed.start(saying.passage), dict(saying.packet.form).get("nid_tsr")
            rows = self._placed.plan.places("tsr", start.track, start.way) if start else ()
            why = NO_PLACE if start is None else "" if rows else SAYS_NOTHING
            self.counts[why] += 1
            if not why and number not in [row.terms.get("id", number) for row in rows]:
                sentence = f"NID_TSR is {number}, and no row tsr of the plan has this number"
                facts = list(map(cells_of, rows))
                self.found.setdefault(("revocation", sentence), ([], facts))[0].append(saying)

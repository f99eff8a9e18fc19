"""X4: aspect other than in the route table of the plan.

What it says. The packet 12 of an aspect differs from the plan's row for this aspect, such as in V_MAIN, end, overlap or
release speed. The rule also compares the mode, the stop orders and the links of the aspect if the row states them. It
also reports a row of the plan whose aspect has no packet 12 for trains that run the way of the row. It rests on
SUBSET-026, 7.4.2 and 7.5.1.
- The rule compares only what the row of the plan states.
- The end of authority is compared as a distance from the group.
- The release speed belongs to the overlap, or to the danger point if there is no overlap.
- If the row states a time or a place of a timer that the packet does not have, the remark gives `none` for the packet.
- Lengths may differ by the rounding of Q_SCALE and by `--tolerance` (default 0).
- A missing packet 12 is reported only if the table has the aspect and no telegram of the aspect is refused.
- A row with only `authority`, `mode`, `stop` or `links` needs no packet 12. With `authority=none` a packet 12 is
  reported.
- `mode` is compared with the one mode of packet 80, `stop` with packets 137 and 132, and `links` with the groups that
  packet 5 names. If the row states no `way`, one direction of the aspect must have them. What a row excludes by `none`
  or `links=0` must be in no direction.
- `to` is compared with the place of the row `signal` that has this name, as X3 compares ends.
- The kilometre and the track of the row are not compared. A note names the rows that have another track than the group,
  or a kilometre more than 50 m from it.
- A packet 12 that follows a packet 136 is not compared, and does not count as the packet 12 of the aspect.

Why it matters. At worst the train gets wrong information: it runs farther or faster than its route allows.

Example. Before (`examples/meaning/level-border.csv` with `--plan` `examples/meaning/plan.csv`): "yellow" of Signal 9
(km 22.003) has V_MAIN 140 km/h, and the plan has 100 km/h. After: both have the speed of the route.

When it is a false alarm. The rule assumes that the plan has the values that the packet must have. If the plan has the
values of the route, the packet can differ on purpose. It might have a lower speed or a speed that does not restrict, or
be for limited supervision. The rule assumes that each aspect of the plan has a packet 12. An aspect might have none on
purpose, for example because it stops trains by other packets. It assumes that a row of the plan and the packet are for
the same way. This is wrong if a group has packets for both directions, and its rows state no `way`. Finally, it assumes
that lengths are rounded no more coarsely than to the unit of Q_SCALE.

Usual cause. The telegrams of two aspects were exchanged, or a value was copied from another signal. The route table
might also have changed since the telegrams were made.

How to correct it. Correct the packet 12, or the row of the plan.

How to accept it. State why the packet differs from the route table, for example because it reduces the speed.
"""
from __future__ import annotations

from collections import Counter
from typing import Iterator, List, Set

from balisekit.rules.line import Line
from balisekit.rules.passages import Passage
from balisekit.rules.rule import Options, Remark, Result, Rule, Urgency
from balisekit.rules.track_plan.aspect_sites import Site, of_other_packets, sites_of
from balisekit.rules.track_plan.aspect_terms import AUTHORITY, all_terms_of, allowances, both, is_alike, values_of
from balisekit.rules.track_plan.authorities import confirm_authority
from balisekit.rules.track_plan.placed import NO_PLACE, SAYS_NOTHING, Counts, PlacedPlan, Saying, cells_of
from balisekit.rules.track_plan.placed import plan_words, remark
from balisekit.rules.track_plan.sites import elsewhere
from balisekit.rules.track_plan.x3_ends import other_signal
from balisekit.tables.plan import WAY_WORDS, PlanRow, aspect_name
from balisekit.tables.plan_values import OTHER_KEYS

REFUSED = "a refused telegram of the aspect"


def find(line: Line, options: Options) -> Result:
    """Compares each packet 12 of each aspect, then what its other packets give."""
    placed, counts = PlacedPlan(line, options), Counter[str]()
    found: List[Remark] = []
    matched: Set[int] = set()
    for passage in line.decoded.passages:
        own = [] if passage.message else passage.of(AUTHORITY)
        rows = placed.plan.aspects.get(_name(passage), ()) if own else ()
        fitting = [row for row in rows if row.way in (0, passage.way)]
        matched.update(row.number for row in (fitting if passage.way else rows))
        for packet in own:
            why = "" if fitting else NO_PLACE if rows and passage.way is None else SAYS_NOTHING
            placed.confirmed.pass_over(packet, why)
            counts[why] += 1
            for row in (row for row in fitting if not _needs_none(row)):
                found += _compare(placed, Saying(passage, packet), row, options, counts)
    sites = sites_of(line.decoded)
    for row in (row for rows in placed.plan.aspects.values() for row in rows):
        site = sites.get(row.name)
        if site and site.is_read:
            if row.number not in matched and not _needs_none(row):
                placed.confirmed.uncovered.add(row.number)
                found.append(_lacking(site, row))
            found += of_other_packets(placed, site, row, int(options.tolerance * 10), counts)
        elif site and row.number not in matched:
            counts[REFUSED] += 1
    return placed.result(["aspect"], found, +counts, elsewhere(placed, sites))


def _needs_none(row: PlanRow) -> bool:
    """Whether a row says nothing that a packet 12 has."""
    return row.terms.keys() <= {*OTHER_KEYS}


def _name(passage: Passage) -> str:
    return aspect_name(passage.group.group.group.name, passage.aspect) if passage.group else ""


def _compare(placed: PlacedPlan, saying: Saying, row: PlanRow, options: Options, counts: Counts) -> Iterator[Remark]:
    """One remark on all values of a packet 12 that differ."""
    packet, said = saying.packet, all_terms_of(saying.packet)
    allowed = allowances(packet, int(options.tolerance * 10))
    stated = [key for key in row.terms if key not in (*OTHER_KEYS, "to")]
    differ = [key for key in stated if not is_alike(key, said.get(key), row.terms[key], allowed.get(key, 0))]
    texts = [both(key, said.get(key), row.terms[key]) for key in differ]
    values = {name: value for key in differ for name, value in values_of(key, said.get(key), row.terms[key])}
    confirm_authority(placed, saying, row, stated, differ)
    if "to" in row.terms:
        differing, why = other_signal(placed, saying, str(row.terms["to"]), options)
        counts.update({why: counts.get(why, 0) + 1} if why else {})
        texts += [each for each, _ in differing]
        placed.confirmed.tell(row, [saying.packet.row.number] if saying.packet.row and not why else [], not differing)
        values.update(pair for _, some in differing for pair in some.items())
    if texts:
        sentence = f"{' by the plan; '.join(texts)} by {plan_words(row, with_km=False)}"
        yield remark("X4", [saying], sentence, values, [cells_of(row)])


def _lacking(site: Site, row: PlanRow) -> Remark:
    """An aspect of the plan that gives no authority for its way."""
    way = f" for {WAY_WORDS[row.way]} trains" if row.way else ""
    own = (each for one in site.passages(row) for each in one.infill)
    infill = " before its packet 136" if any(each.number == AUTHORITY for each in own) else ""
    sentence = f"the aspect has no packet 12{way}{infill}, and {plan_words(row, with_km=False)} has one"
    return site.remark(row, sentence)


RULE = Rule("X4", "authorities of aspects", __doc__ or "", find, Urgency.WRONG_INFORMATION)

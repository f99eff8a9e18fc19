"""X3: end of authority at no signal of the plan.

What it says. A movement authority that lets trains run ends at a place where the plan has no signal for these trains.
The remark names the plan's nearest signal and its distance. The rule rests on SUBSET-026, 7.4.2 and 7.5.1.
- Such authorities are packets 12 with V_MAIN above 0 and packets 15, if they have a length. Each ends at the end of its
  end section.
- The end may differ by `--tolerance` (default 0) and by one unit of the last decimal of the kilometres, at most 1 m. It
  may also differ by one unit of Q_SCALE, and half a unit for each further section.
- If the plan has no signal at all for a track and way, authorities there are not compared. If it has at least one, it
  must contain all signals at which authorities of that way end.
- What follows a packet 136 is not compared.
- {beyond a point}

Why it matters. At worst the train gets wrong information, and stops beyond the signal. Or it stops too far in rear of
the signal.

Example. Before (`examples/meaning/level-border.csv` with `--plan` `examples/meaning/plan.csv`): the authority of Signal
4 at "green" ends at km 17.500, 50 m beyond Signal 6, which the plan has at km 17.450. After: the authority ends at the
place that the plan has for the signal.

When it is a false alarm. The rule assumes that the plan has all ends of authority. A marker board, buffer stop, level
border or limit of authority (V_LOA above 0), or the end of a calling-on route might be missing. Write such places into
the plan as signals. In limited supervision an authority might end at no signal. {leaving} {points} {kilometres}
{missing} {one way}

Usual cause. A section is missing or was counted twice. Or the length was measured to another signal, or from another
group.

How to correct it. Correct L_SECTION and L_ENDSECTION, or the row of the plan.

How to accept it. Name what is at the end of the authority. If the authority will always end there, write that place
into the plan instead.
"""
from __future__ import annotations

from collections import Counter
from decimal import Decimal
from typing import Dict, List, NamedTuple, Optional, Sequence, Tuple

from balisekit.design.tracks import Spot, Start, nearest
from balisekit.rules.line import Line
from balisekit.rules.location import ANOTHER_TRACK
from balisekit.rules.track_plan.confirmed import Path
from balisekit.rules.track_plan.placed import (
    BEHIND_POINT,
    NO_PLACE,
    SAYS_NOTHING,
    PlacedPlan,
    Saying,
    Values,
    cells_of,
    plan_words,
    remark,
)
from balisekit.rules.rule import Options, Remark, Result, Rule, Urgency
from balisekit.rules.telegrams import AUTHORITIES, Packet, allowance
from balisekit.tables.names import clean, kilometre
from balisekit.tables.plan_values import metres


Differing = Tuple[str, Values]
"""What differs in words, and both values."""


class End(NamedTuple):
    """An end of authority, and the nearest signal of the plan."""

    saying: Saying
    start: Start
    place: int
    signal: Spot


def find(line: Line, options: Options) -> Result:
    """Compares each end of authority."""
    placed, counts = PlacedPlan(line, options), Counter[str]()
    found: Dict[Tuple[int, int], List[End]] = {}
    for saying in placed.sayings(*AUTHORITIES):
        if gives_way(saying.packet):
            end, why = end_of(placed, saying)
            tolerance = line.decoded.tolerance(options.tolerance, allowance(saying.packet, saying.packet.lengths))
            if end and placed.tracks.is_lost("signal", end.start, end.place, tolerance):
                end, why = None, NO_PLACE
            counts[why] += 1
            placed.confirmed.pass_over(saying.packet, why)
            if end and abs(end.place - end.signal.place) > tolerance:
                found.setdefault((end.signal.row.number, end.place), []).append(end)
                placed.confirmed.contradict([end.signal.row], saying.packet, lengths_of(saying.packet))
            elif end:
                placed.confirmed.confirm([end.signal.row], saying.packet, lengths_of(saying.packet))
    return placed.result(["signal"], [_remark(placed, each) for each in found.values()], counts)


def lengths_of(packet: Packet) -> Sequence[Path]:
    """The variables whose sum is the end of an authority."""
    return [("l_endsection",), *(("sections", place, "l_section") for place in range(packet.lengths - 1))]


def gives_way(packet: Packet) -> bool:
    """Whether an authority lets a train run."""
    return bool(packet.form.get("v_main", 1) and packet.end)


def end_of(placed: PlacedPlan, saying: Saying) -> Tuple[Optional[End], str]:
    """Where an authority ends, and the nearest signal; or why they are not compared."""
    start = placed.start(saying.passage)
    if start is None:
        return None, NO_PLACE
    spots, place = placed.tracks.spots("signal", start.track, start.way), start.at(saying.packet.authority.end)
    if not spots:
        return None, SAYS_NOTHING
    if placed.is_behind_point(saying.passage, place):
        return None, BEHIND_POINT
    return End(saying, start, place, nearest(spots, place)), ""


def other_signal(placed: PlacedPlan, saying: Saying, name: str, options: Options) -> Tuple[Sequence[Differing], str]:
    """Where an authority ends, if that is not at the signal of this name; or why the two are not compared."""
    passage, packet = saying
    end, why = end_of(placed, saying)
    if end is None:
        return [], why
    spots = placed.tracks.spots("signal", end.start.track, end.start.way)
    own = [spot for spot in spots if spot.row.name == name]
    if not own:
        return [], ANOTHER_TRACK
    signal, allowed = nearest(own, end.place), allowance(packet, packet.lengths)
    if abs(signal.place - end.place) <= placed.decoded.tolerance(options.tolerance, allowed):
        return [], ""
    words = f"the authority ends at {placed.km(passage, end.place)}, and at {name} (km {kilometre(signal.row.km)})"
    return [(words, {"km": placed.km_value(passage, end.place), "plan_km": signal.row.km})], ""


def _remark(placed: PlacedPlan, ends: Sequence[End]) -> Remark:
    saying, start, place, signal = ends[0]
    passage, apart = saying.passage, abs(place - signal.place)
    name = f", {clean(signal.row.name)}" if signal.row.name else ""
    side = "beyond" if (place - signal.place) * start.way > 0 else "short of"
    sentence = (
        f"the authority ends at {placed.km(passage, place)}, {metres(apart)} m {side} the nearest signal of the "
        f"plan{name} ({plan_words(signal.row)})"
    )
    values = {"km": placed.km_value(passage, place), "plan_km": signal.row.km, "metres_apart": Decimal(apart) / 10}
    return remark("X3", [each.saying for each in ends], sentence, values, [cells_of(signal.row)])


RULE = Rule("X3", "ends of authority", __doc__ or "", find, Urgency.WRONG_INFORMATION)

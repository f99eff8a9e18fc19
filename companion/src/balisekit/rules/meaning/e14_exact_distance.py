"""E14: distance not as it is written.

What it says. A distance by D_LINK differs from the distance by the kilometres, but not so much that L2 reports it. L2
also allows Q_LOCACC, which describes how exactly a group is installed, not how exactly D_LINK is written. The rule
rests on SUBSET-026, 3.4.4 and 7.5.1.
- The distance counts from the sending group, or from the linked group before.
- The two distances may differ by rounding, and by `--tolerance` if it is stated. Rounding is one unit of Q_SCALE, and
  one unit of the last decimal of the kilometres (at most 1 m). If several D_LINK are added up, half a unit of Q_SCALE
  is allowed for each further one.
- If the links of two or more groups lead over one stretch and all differ by the same amount, one remark asks whether
  the kilometres jump there.
- The rule also compares M_POSITION of packets 79 (geographical position information) with the kilometre of their group
  and D_POSOFF. Positions may all differ from the kilometres by the same amount. One group is reported if its positions
  differ otherwise, at least three other groups agree, and there are at least four right positions for each wrong one.
  The proved program does not decode packet 79: balisekit decodes it by a layout of its own.
- If many links of a track differ, the kilometres might follow another axis than the track. One note then counts these
  links instead of remarks. Many are at least five, and more than a fifth of the links of the track. Links over a jump
  do not count.

Why it matters. At worst the train has a wrong position: it believes itself some metres from where it is. All distances
that it counts from there lead to wrong places. A remark about a jump has the lowest urgency.

Example. Before (`examples/meaning/mistakes/E14.csv`): Signal 5 is 1,504 m from Signal 4 by D_LINK and 1,500 m by the
kilometres, and Q_LOCACC is 5 m. After: D_LINK is 1,500 m.

When it is a false alarm. {kilometres} {missing} The rule assumes that D_LINK is rounded to the nearest unit. A tool
that always rounds to one side breaks this assumption. {leaving} M_POSITION might count from another origin at one
group, such as where two lines meet.

Usual cause. A distance was counted from or to a balise that is not the first one of its group. Or a group was moved a
few metres. Or the kilometre of the table is wrong.

How to correct it. Correct D_LINK, M_POSITION or the kilometre. Give jumps of the kilometres by `--jumps` or in the
track plan. State a greater `--tolerance` if the kilometres follow another axis.

How to accept it. Name the source of the distance, and why the kilometres of the table differ from it.

How sure. 90 %, by practice and memory of the standard.
"""
from __future__ import annotations

from collections import Counter
from decimal import Decimal
from typing import Iterator, Optional, Sequence, Tuple

from balisekit.etcs.variables import metres
from balisekit.rules.line import Line
from balisekit.rules.location import ANOTHER_TRACK, Location
from balisekit.rules.link_steps import Jump, Step, jumps_of, steps_of
from balisekit.rules.links import l2_distance
from balisekit.rules.meaning.positions import unlike_positions
from balisekit.rules.meaning.words import balises_of
from balisekit.rules.rule import Options, Remark, Result, Rule, Urgency
from balisekit.rules.telegrams import rounding

LEAST, SHARE = 5, 5
"""One note counts the links of a track if they are at least LEAST, and more than one in SHARE of all its links."""


def find(line: Line, options: Options) -> Result:
    """Looks at each link between two groups of one track."""
    skipped = Counter(line.infill_links)
    steps = list(steps_of(line, skipped))
    least = line.decoded.tolerance(options.tolerance)
    differing = [each for each in steps if abs(each.difference) > least + rounding(each.link.unit, each.lengths)]
    wrong = set(map(id, differing))
    jumps = [each for each in jumps_of(steps, least + 1) if any(id(step) in wrong for step in each.steps)]
    jumps = jumps if len(differing) > 1 else []
    found, notes = [_jump(line, each) for each in jumps if not _is_far(line, each, options)], []
    apart = [each for each in differing if not any(_explains(jump, each, least) for jump in jumps)]
    within = [each for each in apart if not _is_by_l2(line, each, options)]
    totals, counts = Counter(each.here.track for each in steps), Counter(each.here.track for each in within)
    many = {track for track, count in counts.items() if count >= LEAST and count * SHARE > totals[track]}
    for track in sorted(many):
        where = f" of track {track}" if track else ""
        notes.append(
            f"E14: {counts[track]} of {totals[track]} links{where} differ from the kilometres by more than the "
            "tolerance, and L2 finds none of them: the kilometres may follow another axis than D_LINK"
        )
    for step in within:
        if step.here.track not in many:
            found += _remarks(line, step, least)
    positions, count = unlike_positions(line.decoded, options)
    looked_at = sum(len(each.chains) for each in steps) + count
    return Result([*found, *positions], looked_at, skipped, notes, usual=frozenset({ANOTHER_TRACK}))


def _explains(jump: Jump, step: Step, tolerance: int) -> bool:
    return jump.explains(step.here.track, step.low, step.high, step.difference, tolerance)


def _is_far(line: Line, jump: Jump, options: Options) -> bool:
    """Whether L2 remarks on links over it."""
    return any(_is_by_l2(line, step, options) for step in jump.steps)


def _is_by_l2(line: Line, step: Step, options: Options) -> bool:
    """Whether L2 remarks on the link: it counts from the sender on, as long as nothing differs."""
    chain = step.chains[0]
    for link, found in zip(chain.links, l2_distance.compare(line, chain, options.tolerance)):
        if link is step.link:
            return isinstance(found, Remark)
    return False


def _remarks(line: Line, step: Step, least: int) -> Iterator[Remark]:
    tolerance = least + rounding(step.link.unit, step.lengths)
    words, compared = _other_balise(line, step) or ("", [])
    side = "within" if abs(step.difference) <= step.link.accuracy * 10 else "above"
    sentence = (
        f"{step.here} is {metres(step.distance)} from {step.base} by D_LINK, and {metres(step.by_kilometres)} by the "
        f"kilometres: they differ by {metres(abs(step.difference))}, which is {side} Q_LOCACC ({step.link.accuracy} m) "
        f"and above the tolerance of {metres(tolerance)}{words}"
    )
    values = {"metres_by_d_link": Decimal(step.distance) / 10, "metres_by_kilometres": Decimal(step.by_kilometres) / 10}
    for chain in step.chains:
        location = chain.at(step.link)
        yield Remark("E14", location, sentence, step.here, values, named=(step.base,), compared=compared)


def _other_balise(line: Line, step: Step) -> Optional[Tuple[str, Sequence[Location]]]:
    """Which balise of the two groups the distance fits better than the first ones."""
    chainage = line.decoded.chainages[step.here.track]
    found = []
    for group, sign, which in ((step.here, 1, "to"), (step.base, -1, "from")):
        for position, row in list(enumerate(balises_of(group)))[1:]:
            own, place = group.place, chainage.place(row.km) if row else None
            if row is not None and own is not None and place is not None:
                distance = step.by_kilometres + sign * step.way * (place - own)
                balise = f"balise {position} of {group}, row {row.number}"
                words = f"; by the kilometres it is {metres(distance)} {which} {balise}"
                found.append((abs(step.distance - distance), words, row.number, [Location(group, row)]))
    best = min(found, default=None, key=lambda each: each[:3])
    return best[1:4:2] if best and best[0] < abs(step.difference) and best[0] <= line.decoded.resolution else None


def _jump(line: Line, jump: Jump) -> Remark:
    """One remark for all links over a jump of the kilometres."""
    where, *also = jump.locations
    sentence = f"{jump.words(line.decoded.chainages[jump.track])}: give the jump by --jumps, or correct the kilometres"
    values = {"difference_m": Decimal(jump.difference) / 10}
    remark = Remark("E14", where, sentence, jump.steps[0].here, values, urgency=Urgency.RULE_ONLY)
    return remark._replace(also=also, facts=jump.facts)


RULE = Rule("E14", "links", __doc__ or "", find, Urgency.WRONG_PLACE, needs_kilometres=True)

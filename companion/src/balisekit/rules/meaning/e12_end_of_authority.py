"""E12: end of authority.

What it says. An authority ends at another place than the other authorities to the same group, or more than 50 m from
every group. The rule compares the ends of authorities with each other, and each end with the places of groups. It rests
on SUBSET-026, 3.8 and 7.4.2.
- The rule compares the ends of all authorities that lead to one group, on one track and in one direction. The most
  frequent end counts as right, and the rule reports each other end. If several ends are equally frequent, the end
  nearest to the group counts as right.
- Authorities without packets 5 are compared with each other if each end is at most 20 m from the next end. If several
  of these ends are equally frequent, the end at the lowest kilometre counts as right.
- An end is at a group if it is at most 50 m from the group, apart from `--tolerance` and rounding.
- The rule reports a packet 12 whose end is at no group, but at most 200 m from the nearest group. It does not report a
  packet 15 for such an end.
- The rule reports an end more than 200 m from each group under two conditions. The packets 5 sent with the authority
  name a group of the track beyond the end. For each sender of such an end, at least four other senders have ends at
  groups. Packets 12 and packets 15 are counted separately. Ends that do not meet both conditions are only counted.
- An authority is a packet 12 with V_MAIN above 0, or a packet 15. The packets after a packet 136 are not compared.
- The sum of L_SECTION and L_ENDSECTION, counted along the kilometres from the sending group, leads to the end of an
  authority. A group is at the place of its first balise.
- An authority leads to the group in its packets 5 that is nearest to its end, if this group is at most 200 m from the
  end. If the nearest group is farther away, the authority leads to the last group before the end. Then its packets 5
  must also name a group beyond the end.
- An authority leads to no group if D_LINK and the kilometres disagree by more than 200 m about the place of the group.
- The rule reports that an end is at no group only between the first and the last group with an authority for this track
  and direction. Beyond the last one it is counted as not compared, unless it leads to a group or others end beside it.
- An end more than 200 m from each group is not reported if V_LOA is above 0.
- The rule does not report that an end is at no group if packets 5 name a group there whose place on the track is
  unknown. That group is not in the table, has no kilometre, or is on another track.
- An end beyond a `point` of the track plan is not compared.
- Two ends are at the same place if they differ by at most `--tolerance` (default 1 m) and rounding.

Why it matters. At worst the train gets wrong information, and might pass the signal at which it has to stop. Or the
train stops some metres in rear of the signal.

Example. Before (`examples/meaning/mistakes/E12.csv`): at "green" the authority of Signal 3 ends at km 16.050, and 1
other authority that leads to Signal 5 ends at km 16.000. After: L_ENDSECTION of "green" is 50 m shorter.

When it is a false alarm. The rule assumes that all authorities to one group end at one place. An authority can end
elsewhere if it is for a calling-on route, has a limit of authority (V_LOA above 0), or leads by radio to a marker
board. An authority can also end at a signal up to 200 m beyond the last group in its packets 5. The rule also assumes
that each authority ends at a group. In limited supervision an authority might end elsewhere. An authority might also
end at a buffer stop, a board or a border. There might be no group of the table or of a packet 5 within 50 m of such a
place. {leaving} {points} {kilometres} {one way}

Usual cause. A length was typed wrongly, or has a wrong Q_SCALE. Or a signal was moved, and not all groups in rear of
the signal were changed.

How to correct it. Correct the lengths. Their sum must be the distance to the signal.

How to accept it. Name what is at the end of this authority, for example a buffer stop or a marker board.

How sure. 88 %, by practice and memory of the standard.
"""
from __future__ import annotations

from collections import Counter
from decimal import Decimal
from typing import Dict, Iterator, Optional, Sequence, Set, Tuple

from balisekit.etcs.variables import metres
from balisekit.rules.decoded import Decoded
from balisekit.rules.facts import counted, sender
from balisekit.rules.line import Line
from balisekit.rules.location import BaliseGroup
from balisekit.rules.meaning.along import End, beyond, counted_beyond, is_authority, passed_over
from balisekit.rules.meaning.ends_between import Key, ends_between, inside_the_line, near_a_group
from balisekit.rules.meaning.ends_by_target import ends_by_target, together
from balisekit.rules.meaning.words import at_place, merged, source
from balisekit.rules.rule import Options, Remark, Result, Rule, Urgency

LAST = "group that gives an authority"


def find(line: Line, options: Options) -> Result:
    """Compares the ends that lead to one group, and each end with the groups."""
    decoded, found = line.decoded, {}  # type: Decoded, Dict[Key, Remark]
    ends = ends_by_target(decoded, options)
    compared: Set[Key] = set()
    for target, some in together(ends):
        found.update((end.key, remark) for end, remark in _compare(decoded, options, some, target))
        compared.update(end.key for end in some if target or len(some) > 1)
    all_inside, beyond_it = inside_the_line(decoded, ends.away)
    inside = [end for end in all_inside if end.key not in found]
    for end in inside:
        found.update((end.key, remark) for remark in near_a_group(decoded, options, end))
    away = ends_between(decoded, options, inside)
    found.update(away.found)
    apart = {key: each for key, each in beyond_it.items() if key not in compared}
    longest = max((each for key, each in ends.lengths.items() if key not in apart), default=0)
    left = away.left + counted_beyond(LAST, list(apart.values()), longest)
    lacks, looked_at = passed_over(decoded, is_authority), len(ends.lengths) - sum(left.values())
    result = Result.of_places(merged(found.values()), looked_at, lacks, ends.left + left)
    return result._replace(usual=frozenset({beyond(LAST)}))


def _compare(
    decoded: Decoded, options: Options, ends: Sequence[End], target: Optional[BaliseGroup] = None
) -> Iterator[Tuple[End, Remark]]:
    """The ends that differ from the most frequent one, of equally frequent ones from that nearest to the group."""
    if len({end.place for end in ends}) < 2:
        return
    counts = Counter(end.place for end in ends)
    at = target.place if target and target.place is not None else ends[0].place
    usual = max(ends, key=lambda each: (counts[each.place], -abs(each.place - at)))
    same = counts[usual.place]
    where = f" that lead{'s' if same == 1 else ''} to {target}" if target else " nearby"
    facts = [counted(sender(each.passage, each.packet) for each in ends if each.place == usual.place)]
    for end in (each for each in ends if each.differs(usual, decoded, options)):
        sentence = (
            f"the authority ends at {at_place(decoded, end.passage, end.place)} by L_SECTION and L_ENDSECTION; {same} "
            f"other{'s' if same > 1 else ''}{where}, such as that of {source(usual.passage, usual.packet)}, "
            f"end{'s' if same == 1 else ''} at {at_place(decoded, end.passage, usual.place)}: they differ by "
            f"{metres(abs(end.place - usual.place))}"
        )
        values = {"end_m": Decimal(end.place) / 10, "other_end_m": Decimal(usual.place) / 10}
        compared = [usual.passage.at(usual.packet)]
        yield end, Remark("E12", end.passage.at(end.packet), sentence, None, values, compared=compared, facts=facts)


RULE = Rule("E12", "ends of authority", __doc__ or "", find, Urgency.WRONG_INFORMATION, needs_kilometres=True)

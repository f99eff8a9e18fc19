"""E7: aspects that say the same.

What it says. Two or more aspects of a group have equal packets in every balise, among them a packet 12 with V_MAIN
above 0. M_MCOUNT may differ. If no packet 12 of such aspects has a V_MAIN above 0, one note for the table counts them.

Why it matters. At worst the train gets wrong information: at the more restrictive aspect it gets the authority and the
speed of the other one.
- The urgency is lowest if the authority ends within 50 m of the last group of its track and way, and no other signal is
  in between.
- The last group is the last one with packets other than 0, 145, 254 and 255 for trains that run this way. A group of
  unknown direction, or with a refused telegram, counts for both ways.
- A remark about infill has the lowest urgency if the remark about its signal has it.

Example. Before (`examples/meaning/mistakes/E7.csv`): the aspects "yellow" and "green" of Signal 3 (km 13.003) have the
same packets, with V_MAIN 140 km/h. After: the authority of "yellow" ends at the next signal, and that of "green" at the
one after it.

When it is a false alarm. The rule assumes that two names are two aspects. One aspect might have two names, or a default
telegram might repeat it. The rule also assumes that a train gets different data at two aspects. That is not so if only
the driver sees the difference, or if two routes have the same data. Two aspects might also differ only beyond the end
of authority, such as yellow and green in rear of a buffer stop or level border. Such aspects can have the lowest
urgency.

Usual cause. The telegram of one aspect was copied and not changed.

How to correct it. Correct the wrong telegram according to the aspect table of the signal.

How to accept it. State why both aspects give a train the same data, for example because the track ends there.

How sure. 93 %, by practice and memory of the standard.
"""
from __future__ import annotations

from collections import Counter
from decimal import Decimal
from itertools import chain
from typing import Dict, Iterator, List, Mapping, NamedTuple, Optional, Sequence, Tuple

from balisekit.etcs.geometry import INFILL
from balisekit.etcs.variables import Form
from balisekit.rules.decoded import Decoded
from balisekit.rules.line import Line
from balisekit.rules.location import Location
from balisekit.rules.meaning.along import End, ends_of, ends_the_line
from balisekit.rules.passages import GroupData
from balisekit.rules.rule import REFUSED, Options, Remark, Result, Rule, Urgency
from balisekit.rules.telegrams import AUTHORITIES, Packet, Telegram
from balisekit.tables.model import Aspect
from balisekit.tables.names import clean, listed, quoted

NAMED = 5


class Alike(NamedTuple):
    """Aspects of a group whose packets are the same."""

    data: GroupData
    aspects: Sequence[Aspect]
    packets: Sequence[Packet]
    """Those of the first of the aspects."""

    @property
    def names(self) -> List[str]:
        """What the aspects are called."""
        return [aspect.name for aspect in self.aspects]

    @property
    def speeds(self) -> List[int]:
        """Each V_MAIN above 0, in km/h."""
        return [packet.form["v_main"] * 5 for packet in self.packets if packet.number == 12 and packet.form["v_main"]]


def find(line: Line, options: Options) -> Result:
    """Looks at the aspects of each group."""
    alike = [each for data in line.decoded.controlled for each in _alike(data)]
    stops = [each for each in alike if not each.speeds]
    ends: Dict[Tuple[int, int], List[End]] = {}
    for end in ends_of(line.decoded) if alike else ():
        ends.setdefault((id(end.passage.group), end.packet.end), []).append(end)
    moving = [(each, _ends_of(each, ends)) for each in alike if each.speeds]
    last = [each for each, own in moving if own and all(ends_the_line(line.decoded, end) for end in own)]
    least = [*last, *(each for each, own in moving if not own and _is_infill_of(line.decoded, each, last))]
    found = [_remark(each, Urgency.RULE_ONLY if each in least else None) for each, _ in moving]
    unread = sum(bool(each.group.unread) for each in line.decoded.controlled)
    return Result(found, len(line.decoded.controlled) - unread, {REFUSED: unread}, list(_note(stops)), is_optional=True)


def _alike(data: GroupData) -> Iterator[Alike]:
    """The aspects that say the same, together."""
    classes: Dict[Tuple[int, ...], List[Tuple[List[Telegram], List[Aspect]]]] = {}
    for aspect in data.group.group.aspects:
        if all(row.number in data.telegrams for row in aspect.rows):
            telegrams = [data.telegrams[row.number] for row in aspect.rows]
            of_hash = classes.setdefault(tuple([telegram.hash for telegram in telegrams]), [])
            known = next((own for first, own in of_hash if _are_alike(first, telegrams)), None)
            if known is None:
                known = []
                of_hash.append((telegrams, known))
            known.append(aspect)
    for telegrams, aspects in chain.from_iterable(classes.values()):
        if len(aspects) > 1:
            yield Alike(data, aspects, [packet for telegram in telegrams for packet in telegram.packets])


def _are_alike(some: Sequence[Telegram], others: Sequence[Telegram]) -> bool:
    """Whether the packets of all balises are the same. A fixed balise has one row for all aspects."""
    return all(one is other or _forms(one.packets) == _forms(other.packets) for one, other in zip(some, others))


def _forms(packets: Sequence[Packet]) -> List[Form]:
    return [packet.form for packet in packets]


def _ends_of(alike: Alike, known: Mapping[Tuple[int, int], Sequence[End]]) -> Sequence[End]:
    """Where their authorities end that count from their group. `known` has all ends by group and length."""
    own = _forms(alike.packets)
    lengths = {packet.end for packet in alike.packets if packet.number in AUTHORITIES}
    return [end for length in lengths for end in known.get((id(alike.data), length), ()) if end.packet.form in own]


def _is_infill_of(decoded: Decoded, alike: Alike, signals: Sequence[Alike]) -> bool:
    """Whether its packet 136 names one of these signals, whose aspects have these names."""
    country = alike.data.group.identity[0] if alike.data.group.identity else 0
    named = (packet.form for packet in alike.packets if packet.number == INFILL and "nid_bg" in packet.form)
    targets = [decoded.by_identity.get((form.get("nid_c", country), form["nid_bg"])) for form in named][:1]
    return any(each.data in targets and {*alike.names} <= {*each.names} for each in signals)


def _remark(alike: Alike, urgency: Optional[Urgency]) -> Remark:
    rows = [row for aspect in alike.aspects for row in aspect.rows]
    counts = Counter(row.number for row in rows)
    controlled = {number for number, count in counts.items() if count < len(alike.aspects)}
    speed = max(alike.speeds)
    sentence = (
        f"the aspects {_names(alike.names)} have the same packets in every balise, with V_MAIN {speed} km/h: one of "
        "them may be a copy"
    )
    values = {"v_main_kmh": Decimal(speed)}
    where = Location(alike.data.group)
    aspects, numbers = tuple(alike.names), tuple(sorted(controlled))
    facts = [] if urgency is None else [urgency.name]
    return Remark("E7", where, sentence, values=values, urgency=urgency, rows=numbers, aspects=aspects, facts=facts)


def _note(stops: Sequence[Alike]) -> Iterator[str]:
    """How many groups have such aspects without a V_MAIN above 0."""
    groups = list(dict.fromkeys(each.data.group.group.name for each in stops))
    if groups:
        count = f"{len(groups)} groups" if len(groups) > 1 else "1 group"
        yield (
            f"E7: in {count} aspects without a V_MAIN above 0 have the same packets, such as the aspects "
            f"{_names(stops[0].names)} of {clean(groups[0])}"
        )


def _names(names: Sequence[str]) -> str:
    return listed([quoted(name) for name in names], NAMED)


RULE = Rule("E7", "groups with aspects", __doc__ or "", find, Urgency.WRONG_INFORMATION)

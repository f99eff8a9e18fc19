"""E24: aspect unlike its namesakes.

What it says. An aspect of one signal differs from the aspects of the same name at the other signals. The aspect lacks a
packet that the other aspects have, or one of its values is unlike theirs. The first five items are the faults, and the
other items are limits. The rule rests on SUBSET-026, 3.8 and 4.4.
- Packets: a packet 12, 21, 27 or 80 is missing if at least four of five signals have it at this aspect. Any other
  packet of a balise with aspects is missing if all other signals have it at this aspect. One remark names all aspects
  of a signal that lack packets.
- Values: T_OL, D_STARTOL, V_RELEASEOL, V_RELEASEDP, T_SECTIONTIMER, D_SECTIONTIMERSTOPLOC, T_ENDTIMER,
  D_ENDTIMERSTARTLOC, M_MAMODE and V_MAMODE are compared. A value is reported if at least four other signals have this
  variable at the aspect, and all of them have one value. No aspect of another signal may have the reported value.
- V_MAIN: a V_MAIN above 0 is reported in two cases. In the first case V_MAIN is the greatest V_STATIC at most signals,
  but not at this one. In the second case most signals have one V_MAIN, and this signal has another one. For each signal
  that differs, at least four others with a V_MAIN above 0 at this aspect must have what is usual. Of the two cases, the
  one with fewer differing signals counts.
- "Go" at a stop aspect: Q_SRSTOP of packet 137 or Q_ASPECT of packet 132 is "go" beside a V_MAIN of 0. The aspect is
  reported if only this signal has "go", and another signal has "stop" at its aspect of the same name.
- "Stop" at a proceed aspect: Q_SRSTOP is "stop" beside a V_MAIN above 0. The aspect is reported if only this signal has
  "stop", and another signal has "go". If several signals have "stop", at least four times as many must have "go".
- Signals: a signal is a group with several aspects, of which at least half have a packet 12 for one direction. At least
  five signals must have an aspect of this name, except for "go" and "stop". Infill groups (all their packets 12 follow
  a packet 136) and groups with a refused telegram are counted as not compared.
- Groups with few packets 12: a group with a packet 12 at fewer than half of its aspects does not count as a signal.
  Only its missing packets are reported. Its packets 12 must be for one direction, and at least half of the names of its
  aspects must each occur at five signals.
- Missing packets that are not reported: the packets 0, 5, 145, 254 and 255 are not compared. An aspect that E8 reports
  is not reported again, and a packet 21 or 27 is not reported beside a V_MAIN above 0. If at least half of the signals
  have a packet, but too few for a remark, the aspects without it are counted as not compared.
- Values that are not reported: a value beside a D_OL or D_DP that no other signal has is not compared. A D_STARTOL that
  is equal to L_ENDSECTION is not compared either. Values and orders to stop or go that differ at several signals are
  counted as not compared.
- V_MAIN that is not reported: a V_MAIN that is too low is reported only if one signal differs, and another proceed
  aspect of it has its usual V_MAIN. In the first case V_MAIN is not reported if another aspect of the signal has the
  same V_MAIN, or if all other signals have it. In the second case a low V_MAIN is not reported if it is equal to the
  greatest V_STATIC. A speed that E2 reports is not reported again.
- Slow routes: an aspect with a packet 80 might lead to a slow route, so that its V_MAIN or V_MAMODE is lower than
  usual. The lower value is not reported if a V_STATIC of the aspect is equal to it, or is not above the usual speed. A
  V_MAIN below half of each V_STATIC is that of no route. V_MAIN is not compared at an aspect with a packet 80 if less
  than half of the aspects of its name have one.
- The aspects whose V_MAIN differs from what is usual, but is not reported, are counted as not compared.

Why it matters. At worst the train gets wrong information. At an aspect without packets the train runs on with the
packets of the signal before, so that a red signal does not stop it. Or the train gets a speed or a time of another
signal.

Example. Before (`examples/meaning/mistakes/E24.csv`): "red" of Signal 3 (km 13.003) lacks the packets 12, 21 and 27,
which "red" has at 5 other signals. After: "red" of Signal 3 has a packet 12 with V_MAIN 0 and both profiles.

When it is a false alarm. The rule assumes that an aspect of one name means the same at each signal. One signal might
use a name in another way, or might have the only aspect of this name that stops no ETCS train. A signal at the border
of the ETCS area might have a packet 12 at its stop aspects only. The rule assumes that a project uses one T_OL, one
release speed and one value of each timer. One signal might have a value of its own, such as for a steep gradient or a
short section, although its overlap is as long as others are. It assumes that a signal with a V_MAIN of its own has this
V_MAIN at all its proceed aspects. Finally, it assumes that a signal treats trains in staff responsible mode and in
shunting as its namesakes do. A single permissive signal might let these trains pass at danger.

Usual cause. The telegram of the aspect was made without its packets, or a value was typed wrongly.

How to correct it. Add the packets, or correct the value according to the design of the signal.

How to accept it. State why this signal differs from the others, and the source of its value.

How sure. 88 %, by practice and memory of the standard.
"""
from __future__ import annotations

from collections import Counter
from decimal import Decimal
from typing import Dict, List, Sequence, Set, Tuple

from balisekit.rules.facts import counted, group_words
from balisekit.rules.line import Line
from balisekit.rules.location import Location
from balisekit.rules.meaning.lacking_packets import Unlike, lacking_packets
from balisekit.rules.meaning.namesakes import INFILL, LEAST, Case, Cases, Odd, namesakes_of, odd_values, signals_of
from balisekit.rules.meaning.stop_and_go import contrary_orders
from balisekit.rules.meaning.stops import stops_without_order
from balisekit.rules.meaning.unlike_speeds import unlike_speeds
from balisekit.rules.rule import Options, Remark, Result, Rule, Urgency
from balisekit.tables.names import quoted

RARE = "aspects with a name that fewer than five signals have"
TOO_MANY = "aspects that lack a packet which at least half of the signals have, as too many others do"
ORDERS = "aspects whose packet 132 or 137 contradicts V_MAIN, as at several signals"
VALUES = "aspects with a value of packet 12 or 80 that differs at several signals"
MAIN = "aspects with an unusual V_MAIN, as of a slow signal or route, or of several signals"
"""Why aspects are not compared."""


def find(line: Line, options: Options) -> Result:
    """Compares the aspects of each name over the table."""
    cases, few, passed_over = namesakes_of(line.decoded)
    known = {name: own for name, own in cases.items() if signals_of(own) >= LEAST}
    rare = sum(len(own) for some in (cases, few) for name, own in some.items() if name not in known)
    unlike = unlike_speeds(known)
    speeds = (each for each in unlike.odd if each.sent * 5 <= options.greatest_speed)
    ordered = stops_without_order(line.decoded).aspects
    packets, orders, values = lacking_packets(known, few, ordered), contrary_orders(cases), odd_values(cases)
    parts = [*packets.parts, *map(_of_value, (*values.odd, *orders.odd, *speeds))]
    reasons = (values.left, VALUES), (packets.left, TOO_MANY), (orders.left, ORDERS), (unlike.left, MAIN)
    left = {id(case): why for some, why in reasons for case in some}
    compared = {id(case) for own in known.values() for case in own}
    counts = Counter(why for each, why in left.items() if each in compared)
    found = [_remark(own, known) for own in _by_remark(parts)]
    looked_at = sum(len(own) + len(few.get(name, ())) for name, own in known.items()) - sum(counts.values())
    lacks = {RARE: rare, **passed_over, **counts}
    doubted = frozenset(row for case in packets.doubted for row in _rows_of(case, case.aspect))
    return Result(found, looked_at, lacks, is_optional=True, usual=frozenset({RARE, INFILL}), doubted=doubted)


def _of_value(odd: Odd) -> Unlike:
    """A value that differs."""
    row, packet = odd.packet.row, odd.packet
    blamed = [(row.number, packet.place, odd.key, None)] if row else []
    values = {odd.key: Decimal(odd.sent), f"usual_{odd.key}": Decimal(odd.usual)}
    return Unlike(odd.case, odd.words, values, blamed)


def _by_remark(parts: Sequence[Unlike]) -> Sequence[Sequence[Unlike]]:
    """What one remark is about: an aspect, or together all aspects of a signal that lack packets."""
    lacking_of: Dict[Tuple[int, str], Set[str]] = {}
    for part in parts:
        if part.lacks:
            lacking_of.setdefault(part.case.signal, set()).add(part.case.aspect)
    found: Dict[Tuple[Tuple[int, str], str], List[Unlike]] = {}
    for part in parts:
        lacks = part.case.aspect in lacking_of.get(part.case.signal, ())
        found.setdefault((part.case.signal, "" if lacks else part.case.aspect), []).append(part)
    return list(found.values())


def _remark(parts: Sequence[Unlike], cases: Cases) -> Remark:
    """One remark on an aspect, or on several of one signal."""
    case = parts[0].case
    order = {each.name: place for place, each in enumerate(case.data.group.group.aspects)}
    names = sorted({part.case.aspect for part in parts}, key=order.__getitem__)
    controlled = tuple(row for name in names for row in _rows_of(case, name))
    words = _words(parts, names)
    where = Location(case.data.group, direction=case.direction)
    values: Dict[str, Decimal] = {}
    for part in parts:
        for key, value in part.values.items():
            values[key if key not in values else f"{key}_{len(values)}"] = value
    others = [each for name in names for each in cases.get(name, ()) if each.signal != case.signal]
    facts = [counted(f"{group_words(each.data.group)} {each.direction}" for each in others)]
    blamed = [field for part in parts for field in part.blamed]
    made = Remark("E24", where, words, values=values, rows=controlled, aspects=names, facts=facts)
    return made._replace(blamed=blamed)


def _rows_of(case: Case, name: str) -> Sequence[int]:
    """The rows of an aspect of the signal of a case."""
    rows = next(each.rows for each in case.data.group.group.aspects if each.name == name)
    return [row.number for row in rows if row.aspect == name]


def _words(parts: Sequence[Unlike], names: Sequence[str]) -> str:
    """What is said of one aspect, or of several: together of those that lack the same."""
    by_name = {name: "; ".join(each.words for each in parts if each.case.aspect == name) for name in names}
    if len(names) == 1:
        return f"the aspect {quoted(names[0])} is unlike {quoted(names[0])} at other signals: {by_name[names[0]]}"
    alike: Dict[str, List[str]] = {}
    for name, words in by_name.items():
        alike.setdefault(words, []).append(quoted(name))
    said = "; ".join(f"{', '.join(own)}: {words}" for words, own in alike.items())
    return f"{len(names)} aspects are unlike the aspects of the same names at other signals: {said}"


RULE = Rule("E24", "aspects of signals", __doc__ or "", find, Urgency.WRONG_INFORMATION)

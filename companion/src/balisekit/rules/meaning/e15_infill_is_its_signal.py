"""E15: infill that is not its signal.

What it says. A packet 12, 21, 27 or 80 after a packet 136 differs from the same packet of the signal, in the aspect of
the same name. The signal is the group that the packet 136 names. The rule rests on SUBSET-026, 3.6.2 and 7.4.2.
- The packets of infill and signal are compared for the direction in which the train passes the signal.
- A remark names the first field of each packet that differs, and counts the other fields that differ.
- Distances are compared in metres. If Q_SCALE differs, they may differ by the greater unit. Sections without timers are
  compared by the sum of their lengths.
- The rule also reports a packet 136 that names a group of the same track in rear of the infill, or at the kilometre of
  the infill.
- The rule also reports an aspect of the infill without a packet 136 under two conditions. All other aspects of its
  group have one, and the signal has a V_MAIN above 0 at this aspect. Several aspects of this kind are counted as not
  compared.
- The rule also reports a packet 136 that names a group which is not in the table. A packet 136 with NID_BG 16,383 is
  not reported.
- A missing signal gets only a note if it might be a group of which no telegram could be read.
- A missing signal also gets only a note if no group ahead of the infill gives an authority in the direction of the
  infill. Then the signal might be beyond the table. The same holds if the place or the direction of the infill is not
  known.
- Some fields are not compared: Q_DIR, Q_SCALE, the Q_GDIR of a G_A 0 or 255, and the Q_FRONT and V_DIFF of a V_STATIC
  127.
- A packet that only the infill or only the signal has is not compared. An aspect of the infill whose name the signal
  does not have is not compared either.
- The proved program does not decode packets 80 and 136. For this, balisekit has layouts of its own.

Why it matters. At worst the train gets wrong information: it releases its brake for an aspect that the signal does not
show.

Example. Before (`examples/meaning/mistakes/E15.csv`): at "yellow" the infill of Signal 4 has L_ENDSECTION 1,350 m, and
Signal 4 (km 14.500) has 1,500 m. After: both have 1,500 m.

When it is a false alarm. The rule assumes that an aspect name means the same at the infill and at its signal. That is
not so if the names are numbers, or if the infill has the names of a distant signal. It assumes that infill repeats its
signal. A project might send less in the infill on purpose, with a lower V_MAIN, shorter or merged profiles, or other
timers. Infill for a signal at danger might also have a V_MAIN above 0 and no length. One aspect might have no infill on
purpose. It assumes that the table has the signal. That is not so if the signal is on a branch line outside the table.
The rule also assumes that infill and signal face the same way, if nothing shows their directions. The kilometres of one
track show them, and so does a packet 5 that names the signal. A signal on another track might face the other way. A
loop between the two groups can mislead the rule. {kilometres} {one way}

Usual cause. The infill was not changed with its signal. Or the infill was copied from the wrong aspect.

How to correct it. If the signal is right, copy its packets after the packet 136, aspect by aspect. If the infill is
right, correct the packets of the signal. The entry says which of the two would remove all entries, or that both would.

How to accept it. State what the infill leaves out or changes on purpose.

How sure. 88 %, by practice and memory of the standard.
"""
from __future__ import annotations

from collections import Counter
from decimal import Decimal
from typing import Dict, Iterator, List, Optional, Set, Tuple

from balisekit.etcs.variables import metres
from balisekit.rules.line import NOWHERE, Line
from balisekit.rules.location import NOT_KNOWN, Identity, Location
from balisekit.rules.meaning.along import Extent, extents_of, lane_of, rear
from balisekit.rules.meaning.fields import fields_apart
from balisekit.rules.meaning.infill_signals import COMPARED, are_others, identity_of, lacks_profiles, signal_of
from balisekit.rules.meaning.lacking_infill import NO_REFERENCE, lacking_infill
from balisekit.rules.meaning.words import merged, source
from balisekit.rules.passages import GroupData, Passage
from balisekit.rules.rule import Field, Options, Remark, Result, Rule, Urgency
from balisekit.rules.telegrams import Packet
from balisekit.tables.names import clean, counted, describe_identity

NO_ASPECT = "no such aspect of the signal"
NO_PACKET = "packets of only one of the two"
"""Why infill is not compared, or not in full."""


def find(line: Line, options: Options) -> Result:
    """Looks at what follows each packet 136."""
    decoded, found, looked_at = line.decoded, [], 0
    skipped: Counter[str] = Counter()
    unknown: List[Tuple[Passage, Packet, Identity]] = []
    doubted: Set[int] = set()
    for passage in decoded.passages:
        reference, identity = passage.reference, identity_of(passage)
        if reference is not None and passage.group is not None and identity is not None:
            target = decoded.by_identity.get(identity)
            if target is not None:
                signal = signal_of(decoded, passage, target)
                looked_at += signal is not None
                skipped[NO_ASPECT] += signal is None
                skipped[NO_PACKET] += signal is not None and are_others(passage, signal)
                if signal is not None and lacks_profiles(passage, signal):
                    doubted.update(each.row.number for each in (reference, *passage.infill) if each.row)
                ahead = list(_ahead(passage, passage.group, reference, target))
                found += ahead or list(_differences(signal, passage, target))
            elif identity[1] != NOT_KNOWN:
                unknown.append((passage, reference, identity))
    extents, notes = extents_of(decoded) if unknown else {}, set()
    for passage, reference, identity in unknown:
        which = "which no telegram that was read has" if line.nameless else "which the table has not"
        words = f"packet 136 names {describe_identity(identity)}, {which}"
        refused = _may_be_refused(line, passage)
        if passage.group and (refused or _is_last(passage, extents.get(lane_of(passage)))):
            why = "be that of a refused telegram" if refused else "be beyond the table"
            notes.add(f"E15: {clean(passage.group.group.group.name)}: {words}: it may {why}")
        else:
            looked_at += 1
            values = {"nid_c": Decimal(identity[0]), "nid_bg": Decimal(identity[1])}
            found.append(Remark("E15", passage.at(reference), words, None, values))
    looked_at -= skipped[NO_PACKET]
    lacking = lacking_infill(decoded)
    found, skipped[NO_REFERENCE] = [*found, *lacking.found], lacking.left
    result = Result.of_places(merged(found), looked_at, {}, +skipped)
    return result._replace(notes=sorted(notes), doubted=doubted)


def _may_be_refused(line: Line, passage: Passage) -> bool:
    """Whether a group without identity is ahead, on another track, or at a place that is not known."""
    place, way = passage.place(0), passage.way
    if place is None or way is None or line.nameless - {passage.track}:
        return bool(line.nameless)
    return line.may_be_refused(passage.track, *rear(place, -way, -NOWHERE), True)


def _is_last(passage: Passage, extent: Optional[Extent]) -> bool:
    """Whether no group ahead gives an authority. Without a place or a way that is not known."""
    place, way = passage.group.place if passage.group else None, passage.way
    return place is None or way is None or extent is None or place * way >= max(each * way for each in extent)


def _ahead(passage: Passage, group: GroupData, reference: Packet, target: GroupData) -> Iterator[Remark]:
    """Whether the named group is ahead."""
    if group.place is None or target.place is None or passage.way is None or group.group.track != target.group.track:
        return
    ahead = (target.place - group.place) * passage.way
    if ahead <= 0:
        sentence = f"packet 136 names {target.group}, which is {metres(-ahead)} in rear of {group.group}"
        yield Remark("E15", passage.at(reference), sentence, target.group, {"ahead_m": Decimal(ahead) / 10})


def _differences(signal: Optional[Passage], passage: Passage, target: GroupData) -> Iterator[Remark]:
    """One remark on all packets of an aspect that differ from those of the signal."""
    words: List[str] = []
    compared: List[Location] = []
    facts: List[str] = []
    values: Dict[str, Decimal] = {}
    first: Optional[Packet] = None
    fields: List[Field] = []
    for number in COMPARED if signal else ():
        own = [each for each in passage.infill if each.number == number]
        for packet, other in zip(own, signal.of(number) if signal else ()):
            differing = list(fields_apart(packet, other))
            if signal and differing:
                apart = differing[0]
                first = first or packet
                of = f"packet {number} of {source(signal, other)}" if not words else f"packet {number} there"
                more = f" (and {counted(len(differing) - 1, 'field')} more of it)" if differing[1:] else ""
                words.append(f"{apart.name} is {apart.own} in the infill, and {apart.other} in {of}{more}")
                values = {**apart.values, **values}
                compared.append(signal.at(other))
                facts += [f"{number} {each.name} {each.own} {each.other}" for each in differing]
                fields += [*apart.field_of(packet), *apart.field_of(other)]
    if first is not None:
        compared += [passage.at(each) for each in [passage.reference] if each and each.row is not first.row]
        made = Remark("E15", passage.at(first), "; ".join(words), target.group, values, beside=fields)
        yield made._replace(compared=compared, facts=facts)


RULE = Rule("E15", "infill", __doc__ or "", find, Urgency.WRONG_INFORMATION)

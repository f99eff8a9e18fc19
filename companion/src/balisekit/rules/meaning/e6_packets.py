"""E6: packets of one message.

What it says. A balise has a packet that only radio or loops send, or a late packet 0. Or a train gets two packets 5 at
once, or two different packets 12, 80, 132 or 137. The rule also reports a message 3 with a second packet 15 or with a
packet 12. The rule rests on SUBSET-026, 7.4, 8.4.4 and 8.7.
- Only radio sends the packets 15, 57, 58, 63 and 140, and only loops send packet 13.
- A packet 0 in a balise is late if another packet of the telegram comes before it.
- A train gets two packets at once if both are in one message and hold in one direction. The message of a group is made
  of all its balises. Packets before and after a packet 136 are counted separately.
- Two packets 5 are reported even if they are equal. Two equal packets 12, 80, 132 or 137 are not reported.
- A message 3 must have exactly one authority, which is a packet 15. The program refuses a message 3 without a packet
  15.
- With `--rules E6` the rule also reports two different packets of other kinds in one direction. These kinds are 2, 3,
  16, 21, 27, 41, 45, 46, 131, 136, 141 and 254.
- With `--rules E6` the rule also reports a packet 64 in a balise. It then also reports these packets in a message 3: 0,
  6, 13, 16, 46, 90, 132 to 137, 145 and 254.

Why it matters. At worst the train gets wrong information. The train might use either of two packets, or reject the
message. So a red aspect with a second packet 12 might not stop the train. A train does not use a packet of a balise
that only radio sends. It looks for a packet 0 only at the beginning of a telegram.

Example. Before (`examples/meaning/mistakes/E6.csv`): at "yellow" of Signal 3 (km 13.003) a train gets 2 packets 5 in
nominal direction, in rows 10 and 12. After: only row 10 has a packet 5.

When it is a false alarm. Never, unless a project sends two packets 5 for one direction on purpose. For example, one
packet 5 is fixed and the other one is switched, or two balises have the same packet 5. With `--rules E6`, packets of
the other kinds might differ on purpose.

Usual cause. Telegrams were put together from parts that both have the packet. Or a packet was copied from a message of
the other kind.

How to correct it. Remove the packet that is not needed, or put packet 0 at the beginning.

How to accept it. Quote the rule of the project by which both packets are sent.

How sure. 96 %, by practice and memory of the standard. What a message 3 has is 95 % sure, and packet 13 is 90 % sure.
What only `--rules E6` reports is 80 % sure, and packet 64 is 75 % sure.
"""
from __future__ import annotations

from decimal import Decimal
from typing import Dict, FrozenSet, Iterator, List, Sequence, Tuple

from balisekit.etcs.packets import packet_name
from balisekit.rules.decoded import Owner
from balisekit.rules.line import Line
from balisekit.rules.location import Location
from balisekit.rules.meaning.sent import Fault, located, remark, sent
from balisekit.rules.passages import Passage
from balisekit.rules.rule import Options, Remark, Result, Rule, Urgency
from balisekit.rules.telegrams import AUTHORITIES, LINKING, Packet
from balisekit.tables.names import ordinal, rows_words

COVER_MARKER = 0
AUTHORITY, AUTHORITY_OF_RADIO = AUTHORITIES
NOT_BY_BALISES = {**dict.fromkeys((15, 57, 58, 63, 140), "radio sends"), 13: "loops send"}
"""Who else sends these packets."""
IF_ASKED = {64: "radio sends"}
"""The same of a packet that is named only if it is asked for."""
TWICE = frozenset({LINKING, AUTHORITY, 80, 132, 137})
"""Those of which a train gets two at once: linking, and orders of which only one can hold."""
ONCE = frozenset({2, 3, 16, 21, 27, 41, 45, 46, 131, 136, 141, 254})
"""Those that are named twice only if it is asked for."""
MOVEMENT_AUTHORITY = 3
NOT_BY_RADIO = (0, 6, 13, 16, 46, 90, 132, 133, 134, 135, 136, 137, 145, 254)


def find(line: Line, options: Options) -> Result:
    """Looks at each packet, and at what is said in each direction."""
    asked = options.asks_for("E6")
    found = [*_of_balises(line, asked), *_authorities(line)]
    found += _twice(line, ONCE | TWICE if asked else TWICE)
    found += _not_by_radio(line, *NOT_BY_RADIO) if asked else ()
    return Result(found, len(line.decoded.passages))


def _of_balises(line: Line, asked: bool) -> Iterator[Remark]:
    """Packets that no balise sends, and a packet 0 that is not the first one."""
    others = {**NOT_BY_BALISES, **(IF_ASKED if asked else {})}
    for owner, packet in sent(line.decoded, *others):
        if packet.row is not None:
            yield _remark(owner, packet, f"a balise has it, and only {others[packet.number]} it")
    for owner, packet in sent(line.decoded, COVER_MARKER):
        if packet.row is not None and packet.place > 0:
            words = (
                f"it is the {ordinal(packet.place)} packet of its telegram, and a train looks for it at the beginning"
            )
            yield _remark(owner, packet, words)


def _authorities(line: Line) -> Iterator[Remark]:
    """Messages 3 with several packets 15, and those with a packet 12."""
    for message, form in line.messages:
        numbers = [packet["nid_packet"] for packet in form["packets"]]
        count = numbers.count(AUTHORITY_OF_RADIO)
        if form["nid_message"] == MOVEMENT_AUTHORITY and count > 1:
            last = len(numbers) - 1 - numbers[::-1].index(AUTHORITY_OF_RADIO)
            words = f"the message has {count} packets 15, and a message 3 has exactly one"
            where = Location(message=message, packet=last, number=AUTHORITY_OF_RADIO)
            yield remark("E6", where, [Fault(words, {"packets": Decimal(count)})])
    yield from _not_by_radio(line, AUTHORITY)


def _not_by_radio(line: Line, *numbers: int) -> Iterator[Remark]:
    """Packets with these numbers that a message 3 does not have."""
    for owner, packet in sent(line.decoded, *numbers):
        if packet.row is None:
            yield _remark(owner, packet, "a message 3 has it, and only balises, loops or radio infill units send it")


def _remark(owner: Owner, packet: Packet, words: str) -> Remark:
    return remark("E6", located(owner, packet), [Fault(words, {"nid_packet": Decimal(packet.number)})])


def _twice(line: Line, numbers: FrozenSet[int]) -> Iterator[Remark]:
    """Packets that are said twice in one direction. Those of several aspects are named once."""
    seen: Dict[Tuple[int, ...], None] = {}
    for passage in line.decoded.passages:
        reference = [passage.reference] if passage.reference else []
        for part in (passage.said, [*reference, *passage.infill]):
            for packets in _several(part, numbers):
                key = tuple(id(packet) for packet in packets)
                if key not in seen:
                    seen[key] = None
                    yield _several_remark(passage, packets)


def _several(part: Sequence[Packet], numbers: FrozenSet[int]) -> List[List[Packet]]:
    own = [packet.number for packet in part if packet.number in numbers]
    if len(own) == len(set(own)):
        return []
    twice = sorted(number for number in set(own) if own.count(number) > 1)
    several = [[packet for packet in part if packet.number == number] for number in twice]
    return [it for it in several if it[0].number == LINKING or any(packet.form != it[0].form for packet in it)]


def _several_remark(passage: Passage, packets: List[Packet]) -> Remark:
    number, last = packets[0].number, packets[-1]
    rows = [packet.row.number for packet in packets if packet.row]
    where = f", in {rows_words(rows)}" if len(set(rows)) > 1 else ""
    words = (
        f"a train gets {len(packets)} packets {number} ({packet_name(number)}) in {passage.direction} "
        f"direction{where}: nobody knows which of them it uses"
    )
    made = remark("E6", passage.at(last), [Fault(words, {"packets": Decimal(len(packets))})])
    return made._replace(compared=[passage.at(packet) for packet in packets[:-1]])


MORE = "two different packets of more kinds in a message, a packet 64 in a balise, and packets that no message 3 has"
RULE = Rule("E6", "passages", __doc__ or "", find, Urgency.WRONG_INFORMATION, optional_part=MORE)

"""E20: one group, several descriptions.

What it says. A packet 5 names its own group, or one group twice. Or a link to a group has another Q_LOCACC or
Q_LINKREACTION than the other links to it. The rule rests on SUBSET-026, 3.4.4 and 7.4.2.
- The most frequent value counts as right. Of equally frequent values, it is the value that more links of the table
  have.
- Q_LINKREACTION is compared only between links for trains that run the same way.
- A different value is reported only if no other link of the table has it, and the table has at least ten links.
- With `--rules E20` each value that is not the most frequent one is reported.

Why it matters. At worst the train brakes without need. It expects one group twice, or the expectation window of a group
depends on which group linked it. A remark about Q_LOCACC or Q_LINKREACTION has the lowest urgency.

Example. Before (`examples/meaning/mistakes/E20.csv`): Signal 4 links Signal 5 (km 16.000) with Q_LOCACC 12 m, and 2 of
3 links to it have 5 m. After: all links to Signal 5 have Q_LOCACC 5 m.

When it is a false alarm. The rule assumes that a train passes each group of a packet 5 once. On a balloon loop it
passes a group twice. It also assumes that Q_LOCACC and Q_LINKREACTION belong to the group. They might depend on the
route, the aspect or the sender, so that even a value of one link only can be right.

Usual cause. A NID_BG was copied from the link before it. Or Q_LOCACC was changed in one packet only.

How to correct it. Correct NID_BG, Q_LOCACC or Q_LINKREACTION.

How to accept it. Name the balloon loop, or state why this link has another value than the others.

How sure. 95 % for the part that is always applied, and 82 % for the part that `--rules E20` adds.
"""
from __future__ import annotations

from collections import Counter
from decimal import Decimal
from typing import Dict, Iterator, List, NamedTuple, Optional, Tuple

from balisekit.etcs.geometry import DIRECTIONS
from balisekit.etcs.variables import Around, value_words
from balisekit.rules.decoded import Owner
from balisekit.rules.facts import counted, origin
from balisekit.rules.line import Line
from balisekit.rules.location import BaliseGroup, Identity, Location
from balisekit.rules.meaning.sent import located, sent
from balisekit.rules.meaning.words import merged
from balisekit.rules.rule import Options, Remark, Result, Rule, Urgency
from balisekit.rules.telegrams import HOLDING, LINKING, Link, Packet
from balisekit.tables.names import describe_identity, ordinal, rows_words

LEAST = 10
"""The fewest links of a table of which a single one stands out by its value."""


class Naming(NamedTuple):
    """A link that names a group, and the packet that has it."""

    owner: Owner
    packet: Packet
    link: Link

    @property
    def identity(self) -> Identity:
        """That of the group."""
        return self.link.identity

    @property
    def location(self) -> Location:
        """Where it is."""
        return located(self.owner, self.packet)._replace(link=self.link.number)

    def value(self, key: str) -> int:
        """Q_LOCACC or Q_LINKREACTION, as it is sent."""
        return self.link.accuracy if key == "q_locacc" else self.link.reaction

    @property
    def sender(self) -> Optional[BaliseGroup]:
        """The group from which its distance counts."""
        data = self.owner.group
        return data if data is None or isinstance(data, BaliseGroup) else data.group

    @property
    def name(self) -> str:
        """The group that it names."""
        return str(self.link.target) if self.link.target else describe_identity(self.identity)

    @property
    def source(self) -> str:
        """Who sends it."""
        row = self.packet.row
        return f"{self.sender}, {rows_words([row.number])}" if row else "a message"


def find(line: Line, options: Options) -> Result:
    """Looks at all links."""
    found: List[Remark] = []
    every: List[Naming] = []
    described: Dict[Tuple[str, Identity, int], List[Naming]] = {}
    is_asked = options.asks_for("E20")
    for owner, packet in sent(line.decoded, LINKING):
        links = [Naming(owner, packet, link) for link in packet.links if link.known]
        every += links
        found += list(_repeated(links))
        for link in links:
            described.setdefault(("q_locacc", link.identity, 0), []).append(link)
            for index in HOLDING[packet.form["q_dir"]]:
                way = link.sender.along(DIRECTIONS[index]) if link.sender else None
                if way is not None:
                    described.setdefault(("q_linkreaction", link.identity, way), []).append(link)
    totals = {key: Counter(link.value(key) for link in every) for key in ("q_locacc", "q_linkreaction")}
    for (key, _, _), links in described.items():
        differing = _differing(key, links, totals[key])
        found += [each for each in differing if is_asked or _is_only(totals[key], each.values[key])]
    return Result(merged(found), len(every))


def _is_only(totals: Counter[int], value: Decimal) -> bool:
    """Whether one link of a table with many has a value."""
    return totals[int(value)] == 1 and sum(totals.values()) >= LEAST


def _repeated(links: List[Naming]) -> Iterator[Remark]:
    """Links to the own group, and second links to one group."""
    own = links[0].sender.identity if links and links[0].sender else None
    first: Dict[Identity, int] = {}
    for link in links:
        if link.identity == own or link.identity in first:
            by = "which sends it" if link.identity == own else f"as its {ordinal(first[link.identity])} link does"
            values = {"nid_c": Decimal(link.identity[0]), "nid_bg": Decimal(link.identity[1])}
            yield Remark("E20", link.location, f"it names {link.name}, {by}", None, values)
        first.setdefault(link.identity, link.link.number)


def _differing(key: str, links: List[Naming], totals: Counter[int]) -> Iterator[Remark]:
    """The links whose value is not the most frequent one, of equally frequent ones that of most links of the table."""
    counts = Counter(link.value(key) for link in links)
    if len(counts) < 2:
        return
    usual = max(links, key=lambda link: (counts[link.value(key)], totals[link.value(key)]))
    facts = [counted(f"{origin(each.location)} {each.value(key)}" for each in links)]
    for link in links:
        if link.value(key) != usual.value(key):
            own, other = (value_words(key, each.value(key), Around()) for each in (link, usual))
            sentence = (
                f"{key.upper()} of {link.name} is {own}, and {other} in {counts[usual.value(key)]} of {len(links)} "
                f"links to it, such as that of {usual.source}"
            )
            values = {key: Decimal(link.value(key)), f"other_{key}": Decimal(usual.value(key))}
            made = Remark("E20", link.location, sentence, None, values, urgency=Urgency.RULE_ONLY)
            yield made._replace(compared=[usual.location], facts=facts)


COMPARED = "each different Q_LOCACC or Q_LINKREACTION of links to one group"
RULE = Rule("E20", "links", __doc__ or "", find, Urgency.BRAKING, optional_part=COMPARED)

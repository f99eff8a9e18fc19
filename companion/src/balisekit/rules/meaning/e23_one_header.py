"""E23: version or country differs from the rest of the line.

What it says. A telegram has another M_VERSION than most telegrams of the table, or a group has another NID_C than its
neighbours on the track. The rule is off unless you ask for it with `--rules E23`. The rule rests on SUBSET-026, 7.5.1
and 8.4.2.
- M_VERSION is compared over the whole table. The most frequent M_VERSION counts as right. If two are equally frequent,
  the version that comes first in the table counts as right.
- NID_C is compared over the groups of a track. The most frequent NID_C counts as right. If two are equally frequent,
  the NID_C that comes first on the track counts as right.
- Only the groups between the first and the last group with the right NID_C are reported.
- The groups of a track are in the order of their kilometres. If the kilometre of a group is missing, all groups of the
  track are in the order of the table.
- Refused telegrams do not count.

Why it matters. To be looked at: a train with the older version ignores what the later version has added. A group with a
wrong NID_C is another group for the train. L1 finds links that name the group by another NID_C.

Example. Before (`examples/meaning/mistakes/E23.csv` with `--rules E23`): a telegram of Signal 4 (km 14.500) has
M_VERSION 2.0, and 23 other telegrams of the table have 2.1. After: the telegram has 2.1 too. Then the program's three
findings F3 at this group are gone as well.

When it is a false alarm. The rule assumes that all telegrams of a table have one version. That is wrong at a border
between versions, or if balises differ on purpose. It also assumes that a track has one NID_C between its ends. That is
wrong if groups of two countries alternate, or if a region has several NID_C.

Usual cause. A telegram was made with another version of a tool, or was copied from another line.

How to correct it. Correct M_VERSION or NID_C in the header.

How to accept it. Name the border of versions or countries, or the reason for the other version.

How sure. 80 %, by practice and memory of the standard.
"""
from __future__ import annotations

from collections import Counter
from decimal import Decimal
from typing import Dict, Iterator, List, Sequence

from balisekit.etcs.variables import Around, value_words
from balisekit.rules.facts import counted, group_words
from balisekit.rules.line import Line
from balisekit.rules.passages import GroupData
from balisekit.rules.rule import Options, Remark, Result, Rule, Urgency


def find(line: Line, options: Options) -> Result:
    """Looks at the header of each telegram, and at the groups of each track."""
    groups = [data for data in line.decoded.groups if data.telegrams]
    tracks: Dict[str, List[GroupData]] = {}
    for data in groups:
        tracks.setdefault(data.group.track, []).append(data)
    found = [*_versions(groups), *(remark for own in tracks.values() for remark in _countries(own))]
    return Result(found, sum(len(data.telegrams) for data in groups))


def _versions(groups: List[GroupData]) -> Iterator[Remark]:
    """The telegrams whose M_VERSION is not the most frequent one."""
    counts = Counter(telegram.header.m_version for data in groups for telegram in data.telegrams.values())
    usual = max(counts, key=lambda version: counts[version], default=0)
    facts = _having(usual, groups) if len(counts) > 1 else []
    for data in groups if len(counts) > 1 else ():
        for telegram in data.telegrams.values():
            if telegram.header.m_version != usual:
                own = telegram.header.m_version
                words = [value_words("m_version", each, Around()) or str(each) for each in (own, usual)]
                others = f"{counts[usual]} other telegram{'s' * (counts[usual] > 1)}"
                sentence = f"M_VERSION is {words[0]}, and {words[1]} in {others} of the table"
                values = {"m_version": Decimal(own), "other_m_version": Decimal(usual)}
                yield Remark("E23", data.location(telegram.row), sentence, None, values, facts=facts)


def _having(version: int, groups: Sequence[GroupData]) -> Sequence[str]:
    """The telegrams that have this M_VERSION."""
    having = ((data, each) for data in groups for each in data.telegrams.values() if each.header.m_version == version)
    return [counted(f"{group_words(data.group)} {each.row.aspect} {each.header.n_pig}" for data, each in having)]


def _countries(groups: List[GroupData]) -> Iterator[Remark]:
    """The groups whose NID_C is not the most frequent one of the track, apart from those at its ends."""
    known = [(data.group.identity[0], data) for data in groups if data.group.identity]
    if all(data.place is not None for _, data in known):
        known.sort(key=lambda each: each[1].place or 0)
    counts = Counter(country for country, _ in known)
    usual = max(counts, key=lambda country: counts[country], default=0)
    places = [place for place, (country, _) in enumerate(known) if country == usual]
    facts = [counted(group_words(known[place][1].group) for place in places)] if len(counts) > 1 else []
    for country, data in known[places[0] : places[-1]] if len(counts) > 1 else ():
        if country != usual:
            sentence = f"NID_C is {country}, and {usual} in {counts[usual]} groups of the track, on both sides of it"
            values = {"nid_c": Decimal(country), "other_nid_c": Decimal(usual)}
            yield Remark("E23", data.location(), sentence, None, values, facts=facts)


RULE = Rule("E23", "headers", __doc__ or "", find, Urgency.RULE_ONLY, is_default=False)

"""What each family of rules has found, as a report lists it."""
from __future__ import annotations

from typing import List, Mapping, NamedTuple, Sequence, Tuple

from balisekit.present import headings
from balisekit.present.accepted_text import accepted_words
from balisekit.present.outcome_text import behind, without_reasons
from balisekit.present.telegram_parts import packet_id
from balisekit.rules.accepted import Acceptance
from balisekit.rules.entries import Entry
from balisekit.rules.families import Outcome, Part
from balisekit.tables.names import clean, rows_words

LINKED = 8
"""How many rows of an entry have a link."""


class PageLink(NamedTuple):
    """A place of the page, and what it is called."""

    target: str
    words: str


class Signature(NamedTuple):
    """Who has accepted an entry."""

    reason: str
    who: str
    date: str
    until: str


class Listed(NamedTuple):
    """An entry, and its places in the page."""

    entry: Entry
    words: str
    block: str
    """The block of its group or message."""
    links: Sequence[PageLink]
    """To the telegrams, packets and rules that it is about."""
    accepted: Sequence[str]
    """Why, by whom and when it was accepted: empty if it is open."""
    signatures: Sequence[Signature]
    heading: str
    """The heading above it, if it is the first entry under that."""
    quoted: Sequence[str]
    """The lines below it: those of the program, where its rule is from, or the entries that are folded below it."""

    @property
    def items(self) -> int:
        """How many findings it has. A remark is one. Those of entries that are folded below it count for these."""
        return 0 if self.entry.folded else len(self.entry.findings) or 1


class ListedPart(NamedTuple):
    """What the rules of one family have found."""

    title: str
    open: Sequence[Listed]
    accepted: Sequence[Listed]
    behind: Sequence[str]
    """The lines after the entries: how many there are, or notes and what was compared."""
    none: str = "None"
    """The text if there are no entries."""
    folded: Sequence[Listed] = ()
    """Those that are folded below one of the open ones: the blocks of their own groups have them."""

    @property
    def all(self) -> Sequence[Listed]:
        """All of them, the open ones first."""
        return [*self.open, *self.folded, *self.accepted]


def listed(outcome: Outcome) -> List[ListedPart]:
    """The entries of each family of rules, then those that correct data can get."""
    ids = {group.name: f"g{index}" for index, group in enumerate(outcome.checked.table.groups)}
    parts = [_listed_part(outcome, part, ids) for part in outcome.parts]
    expected = [_listed(entry, ids, "", outcome.acceptances(entry)) for entry in outcome.expected]
    title = headings.CORRECT[0].upper() + headings.CORRECT[1:-1]
    return [*parts, *([ListedPart(title, expected, (), ())] if expected else [])]


def _listed_part(outcome: Outcome, part: Part, ids: Mapping[str, str]) -> ListedPart:
    still_open, accepted = (
        [
            _listed(entry, ids, heading, outcome.acceptances(entry))
            for entry, heading in zip(some, headings.first_of_each(some))
        ]
        for some in ([entry for entry in part.open if not entry.expected], part.accepted)
    )
    title = part.family.title[0].upper() + part.family.title[1:]
    none = "None" + " but those of correct data" * any(entry.expected for entry in part.open)
    folded = [_listed(each, ids, "", ()) for entry in part.open for each in entry.folded]
    return ListedPart(title, still_open, accepted, list(without_reasons(behind(outcome, part))), none, folded)


def _listed(entry: Entry, ids: Mapping[str, str], heading: str, acceptances: Sequence[Acceptance]) -> Listed:
    message, group = entry.message, entry.group
    block = f"m{message.number}" if message else ids[group.name] if group else ""
    links = [PageLink(f"r{row}", rows_words([row])) for row in entry.rows[:LINKED]]
    links += [PageLink(packet_id(*place), "packet") for place in packets_of(entry)]
    links += [PageLink(rule, rule) for rule in entry.rules]
    signatures = [_signature(each) for each in acceptances]
    quoted = [*entry.quoted, *headings.added(entry), *headings.folded_lines(entry)]
    # (the pictures of their own groups show folded entries)
    shown = entry._replace(findings=(), remark=None) if entry.folded else entry
    reasons = list(map(accepted_words, acceptances))
    return Listed(shown, headings.words(entry), block, links, reasons, signatures, heading, quoted)


def _signature(entry: Acceptance) -> Signature:
    return Signature(clean(entry.reason), clean(entry.who), str(entry.date), str(entry.until or ""))


def packets_of(entry: Entry) -> List[Tuple[str, int]]:
    """The packets that an entry is about: the page's id of the telegram or message, and the index of the packet."""
    where = entry.remark.location if entry.remark else None
    places = [(where.message, where.row, where.packet)] if where else []
    places += [(place.message, place.row, place.finding.packet) for place in entry.findings]
    found = [
        (f"m{message.number}" if message else f"r{row.number}" if row else "", packet)
        for message, row, packet in places
        if packet is not None
    ]
    return list(dict.fromkeys((id, packet) for id, packet in found if id))

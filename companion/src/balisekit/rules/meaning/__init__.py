"""The rules E: what the data mean, as far as the table itself shows that it is unlikely to be meant.

A rule is added so:

1. Write `eN_what_is_wrong.py`, with fewer than 130 lines after its docstring. This is the page of the rule: the title,
   then the paragraphs `What it says`, `Why it matters` (what could happen to a train), `Example` (the stored example
   before and after the correction), `When it is a false alarm`, `Usual cause`, `How to correct it`, `How to accept it`
   and `How sure`. `When it is a false alarm` begins with `Never` if no correct data gets a remark. Otherwise it states
   what the rule assumes, and which data breaks each assumption. `rules/page_sentences.py` has sentences that several
   pages share: a page names one in braces, such as `{kilometres}`. First look in docs/remarks.md for a rule that
   reports the same.
2. Write `find(line, options) -> Result`. `line.decoded` has all packets and passages, `line.groups` the groups, and
   `line.chains` the linking packets with their groups. `options` has what the user states of the line, and
   `options.asks_for("E2")` says whether the part that is off by default is wanted.
3. A `Remark` has the location (`Passage.at`, `GroupData.location`, `GroupData.of_packet`), one sentence with the values
   and their units, and these values by name. It has no reason for which it may be accepted.
4. Call the `Rule` RULE: it is found by the name of its module. State its urgency, `needs_kilometres`, and
   `is_default=False` if it is less than 85 % sure, or `optional_part` if a part of it is. Then run
   `python3 companion/tests/rules_page.py`, which writes its row of docs/remarks.md from the first sentences of its
   page.
5. Give it a mistake in companion/tests/meaning_mistakes.py, and run that file: it writes the example and its answer in
   examples/meaning/mistakes. So three files are written by hand, and a line of CHANGELOG.
6. Test in test_meaning_packets.py if it is about one packet, in test_meaning_aspects.py if about aspects, and else in
   test_meaning_along.py: a hit, no hit, and the correct data that the page names, by one change of `meaning_line.py`.

`Result.not_looked_at` counts what a rule passes over, by the reason. A rule that has looked at nothing but has such a
count makes the answer incomplete. `Result.of_places` has counts beside it of what the user could not supply.
"""
from __future__ import annotations

from typing import Iterator

from balisekit.rules.discovery import rules_of
from balisekit.rules.line import Line
from balisekit.rules.meaning.infill_signals import COMPARED
from balisekit.rules.passed_over import PassedOver, Rules, behind_infill, notes_of, unlinked
from balisekit.rules.telegrams import LINKING, SAYS_NOTHING

RULES = rules_of(__name__, __path__)
OF_PLACES = Rules("E12 to E19 and E22", "E12, E13, E15, E17 to E19 and E22", "E12 to E19 and E22")
"""What needs the kilometre of a group, its direction and other groups of its track."""
NOT_OF_INFILL = frozenset({*SAYS_NOTHING, 132, 137, LINKING, *COMPARED})
"""The packets after a packet 136 that have no place, that rules L name, and that E15 compares."""


def passed_over(line: Line) -> Iterator[PassedOver]:
    """The groups and messages that some of these rules do not look at."""
    yield from OF_PLACES.find(line)
    yield from behind_infill(line, lambda number: number not in NOT_OF_INFILL, "rules E")
    yield from unlinked(line)


def notes_on(line: Line) -> Iterator[str]:
    """A note for each reason. All groups without a track are named, also those that are compared with each other."""
    others = (each for each in passed_over(line) if not OF_PLACES.is_of_track(each))
    return notes_of([*others, *OF_PLACES.without_track(line)])


__all__ = ["OF_PLACES", "RULES", "notes_on", "passed_over"]

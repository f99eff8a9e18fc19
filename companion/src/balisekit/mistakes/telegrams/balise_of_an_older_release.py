"""A balise has the telegrams of an older release.

In real life. The data were changed to another system version, and one balise was not programmed again.

Here. M_VERSION of one balise of several is 2.0 instead of 2.1, or 2.1 instead of 2.0, in all aspects.

For a train. It reads the packets of the group by two versions, and what the release has changed is not in all of them.
"""
from __future__ import annotations

from typing import Optional, Sequence, Tuple

from balisekit.mistakes.mistake import Change
from balisekit.mistakes.of_rows import groups_of, mistake_of, named, of_headers
from balisekit.mistakes.original import Original
from balisekit.tables.model import Group

VERSIONS = {32: 33, 33: 32}
"""2.0 and 2.1 as M_VERSION has them."""


def balises_of(original: Original) -> Sequence[Tuple[Group, int]]:
    """Each balise of a group of several, by its place."""
    return [
        (group, place)
        for group in groups_of(original)
        for place in sorted(set(group.places.values()))
        if len(group.aspects[0].rows) > 1
    ]


def altered(original: Original, thing: Tuple[Group, int]) -> Optional[Change]:
    """A balise with the version of the release before."""
    group, place = thing
    rows = [row for row in group.each_row if group.places[row.number] == place]
    version = VERSIONS.get(original.forms[rows[0].number]["m_version"])
    words = f"balise {place + 1} of {named(group)} has M_VERSION {version}"
    return None if version is None else of_headers(original, words, rows, m_version=version)


MISTAKE = mistake_of(__name__, __doc__, balises_of, altered)

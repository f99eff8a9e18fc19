"""A group has the packets of the next one.

In real life. The packets were copied from the neighbouring signal as a beginning, and only the header was adapted.

Here. All telegrams of a group keep their headers and get the packets that the next group has.

For a train. It gets an authority, links and profiles that begin at another place.
"""
from __future__ import annotations

from typing import Dict, Optional

from balisekit.engine.records import Form
from balisekit.mistakes.mistake import Change
from balisekit.mistakes.of_rows import mistake_of, named, of_forms, rows_of
from balisekit.mistakes.original import Original, with_packets
from balisekit.tables.model import Row


def altered(original: Original, row: Row) -> Optional[Change]:
    """The packets of all telegrams of a group as in the next group."""
    group = original.group_of[row.number]
    forms: Dict[int, Form] = {}
    for each in group.each_row:
        other = original.of_next_group(each.number)
        if other is not None:
            forms[each.number] = with_packets(original.forms[each.number], original.forms[other]["packets"])
    return of_forms(f"{named(group)} has the packets of the next group", forms)


MISTAKE = mistake_of(__name__, __doc__, rows_of, altered)

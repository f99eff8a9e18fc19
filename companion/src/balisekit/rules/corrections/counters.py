"""A balise that sends one telegram in every aspect, with a counter that is not 255."""
from __future__ import annotations

from typing import Iterator

from balisekit.rules.corrections.correction import Correction, Evidence, with_values
from balisekit.tables.grouping import EVERY

FITS_ALL = 255
"""The M_MCOUNT of a telegram that fits all messages of the group (SUBSET-026, 3.16.2)."""


def suggest(evidence: Evidence) -> Iterator[Correction]:
    """Each fixed balise of a group with findings F7 or F16, with the counter 255."""
    for group in evidence.most_named("F7", "F16"):
        for row in group.each_row:
            counter = evidence.forms[row.number]["m_mcount"]
            if row.aspect == EVERY and counter != FITS_ALL:
                form = with_values(evidence.forms[row.number], m_mcount=FITS_ALL)
                sentence = (
                    f"M_MCOUNT is {counter}, and the balise sends this telegram in every aspect: a fixed balise has "
                    f"{FITS_ALL}"
                )
                values = {"M_MCOUNT": str(counter)}
                yield Correction(group, (row.number,), sentence, forms={row.number: form}, values=values)

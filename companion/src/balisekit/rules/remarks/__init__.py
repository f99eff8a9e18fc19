"""Remarks on a table, from its names and kilometres alone. They are no findings, and change no verdict or status."""
from __future__ import annotations

from typing import Iterator

from balisekit.rules.line import Line
from balisekit.rules.remarks import (
    aspect_spellings,
    balises_far_apart,
    fewer_aspects,
    kilometres_in_metres,
    names_alike,
)
from balisekit.rules.rule import Options
from balisekit.tables.model import Table

RULES = (fewer_aspects.RULE, aspect_spellings.RULE, balises_far_apart.RULE, names_alike.RULE, kilometres_in_metres.RULE)


def remarks(table: Table) -> Iterator[str]:
    """The lines `look: ..`."""
    line = Line(table.groups)
    for rule in RULES:
        yield from (f"look: {remark.sentence}" for remark in rule.find(line, Options()).found)

"""A workbook of entries, for a team."""
from __future__ import annotations

from balisekit.io.outputs import Output
from balisekit.present.formats import Format
from balisekit.rules.families import Outcome


def write(output: Output, outcome: Outcome) -> None:
    """Writes the file."""
    from balisekit.present import sheets

    output.write(sheets.entries_pieces(outcome))


FORMAT = Format("xlsx", "write a sheet with a row for each entry", write)

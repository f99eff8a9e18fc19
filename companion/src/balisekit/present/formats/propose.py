"""Entries for what is open, to be signed."""
from __future__ import annotations

from balisekit.io.outputs import Output
from balisekit.present import accepted_text
from balisekit.present.formats import Format
from balisekit.rules.families import Outcome


def write(output: Output, outcome: Outcome) -> None:
    """Writes the file."""
    output.write([accepted_text.proposal(outcome)])


FORMAT = Format("propose", "write entries for what is open, to be signed, into a new file", write, always_new=True)

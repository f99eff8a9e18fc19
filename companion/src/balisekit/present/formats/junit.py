"""JUnit, as tools for tests show it."""
from __future__ import annotations

from balisekit.io.outputs import Output
from balisekit.present.formats import Format
from balisekit.rules.families import Outcome


def write(output: Output, outcome: Outcome) -> None:
    """Writes the file."""
    from balisekit.present import junit

    output.write([junit.document(outcome)])


FORMAT = Format("junit", "write JUnit, with a case for each group and message", write)

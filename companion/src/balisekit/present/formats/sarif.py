"""SARIF, as code hosts show it."""
from __future__ import annotations

from balisekit.io.outputs import Output, encode
from balisekit.present.formats import Format
from balisekit.rules.families import Outcome


def write(output: Output, outcome: Outcome) -> None:
    """Writes the file."""
    from balisekit.present import sarif

    output.write([encode(sarif.document(outcome)), "\n"])


FORMAT = Format("sarif", "write SARIF 2.1.0, so that code hosts show what was found", write)

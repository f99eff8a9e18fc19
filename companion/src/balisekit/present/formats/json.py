"""The complete answer as JSON, for other tools."""
from __future__ import annotations

from balisekit.io.outputs import Output, write_json
from balisekit.present.formats import Format
from balisekit.rules.families import Outcome


def write(output: Output, outcome: Outcome) -> None:
    """Writes the file."""
    from balisekit.present.check_json import as_json

    write_json(output, as_json(outcome))


FORMAT = Format("json", "write the complete result as JSON", write)

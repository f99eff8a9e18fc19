"""The document that was handed to the program."""
from __future__ import annotations

from balisekit.io.outputs import Output
from balisekit.present.formats import Format
from balisekit.rules.checking import document
from balisekit.rules.families import Outcome

LACKING = "note: the document lacks what was refused or left out: a yes for it is no yes for the table"


def write(output: Output, outcome: Outcome) -> None:
    """Writes the file."""
    checked = outcome.checked
    output.write(document(checked.kept, [one.message for one in checked.accepted_messages]))


FORMAT = Format("document", "write the document that the program has checked", write, lacking=LACKING)

"""A radio message is missing.

In real life. The list of messages was cut at a page.

Here. One message is taken out of the file.

For a train. The message is not checked, and may be sent as an older release has it.
"""
from __future__ import annotations

from typing import Optional

from balisekit.mistakes.mistake import Change
from balisekit.mistakes.of_rows import messages_of, mistake_of
from balisekit.mistakes.original import Original, named


def altered(original: Original, message: int) -> Optional[Change]:
    """The messages without one. The messages to correct are those beside it."""
    others = frozenset(original.messages) - {message}
    return Change(f"{named(message)} is missing", others, lost=frozenset({message})) if others else None


MISTAKE = mistake_of(__name__, __doc__, messages_of, altered)

"""Two radio messages are exchanged.

In real life. The messages of two signals were given each other's names.

Here. A message is where the next one of the file should be, and the reverse.

For a train. It gets the authority of another signal.
"""
from __future__ import annotations

from typing import Optional

from balisekit.mistakes.mistake import Change
from balisekit.mistakes.of_rows import messages_of, mistake_of, of_forms
from balisekit.mistakes.original import Original, named


def altered(original: Original, message: int) -> Optional[Change]:
    """Two messages at each other's places."""
    following = next((each for each in sorted(original.messages, reverse=True) if each < message), None)
    if following is None:
        return None
    forms = {message: original.messages[following], following: original.messages[message]}
    return of_forms(f"{named(message)} and {named(following)} are exchanged", forms)


MISTAKE = mistake_of(__name__, __doc__, messages_of, altered)

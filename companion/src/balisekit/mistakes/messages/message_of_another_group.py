"""A radio message refers to another group.

In real life. The message was copied from that of another signal, and NID_LRBG was not adapted.

Here. NID_LRBG of a message 3 is the identity of another group of the table.

For a train. It counts all distances of the message from another group.
"""
from __future__ import annotations

from typing import Optional

from balisekit.mistakes.mistake import Change
from balisekit.mistakes.of_rows import messages_of, mistake_of, of_forms, with_header
from balisekit.mistakes.original import Original, named


def altered(original: Original, message: int) -> Optional[Change]:
    """A message that refers to another group."""
    form = original.messages[message]
    numbers = (each["nid_bg"] for each in original.telegrams.values())
    other = next((number for number in numbers if number != form.get("nid_bg")), None)
    if other is None or "nid_bg" not in form:
        return None
    return of_forms(f"{named(message)} refers to group {other}", {message: with_header(form, nid_bg=other)})


MISTAKE = mistake_of(__name__, __doc__, messages_of, altered)

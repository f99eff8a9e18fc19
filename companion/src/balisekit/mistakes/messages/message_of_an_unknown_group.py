"""A radio message refers to a group that does not exist.

In real life. NID_LRBG was typed wrongly, or the group got another number later.

Here. NID_LRBG of a message 3 is a number that no group of the table has.

For a train. It does not know the group, and ignores the message.
"""
from __future__ import annotations

from typing import Optional

from balisekit.mistakes.mistake import Change
from balisekit.mistakes.of_rows import messages_of, mistake_of, of_forms, with_header
from balisekit.mistakes.original import Original, named


def altered(original: Original, message: int) -> Optional[Change]:
    """A message that refers to no group of the table."""
    form = original.messages[message]
    used = {each["nid_bg"] for each in original.telegrams.values()}
    number = next((each for each in range(1, 16_383) if each not in used), None)
    if number is None or "nid_bg" not in form:
        return None
    return of_forms(f"{named(message)} refers to group {number}", {message: with_header(form, nid_bg=number)})


MISTAKE = mistake_of(__name__, __doc__, messages_of, altered)

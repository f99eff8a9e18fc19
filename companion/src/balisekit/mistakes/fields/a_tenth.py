"""A number is a tenth of what it should be.

In real life. A decimal comma was lost on the way through a spreadsheet, or the last digit was cut off.

Here. The variable gets a tenth of its number, without the rest.

For a train. An authority ends far too early, so the train brakes, or a restriction ends before its place.
"""
from __future__ import annotations

from balisekit.mistakes.of_fields import mistake_of

MISTAKE = mistake_of(__name__, __doc__, lambda original, value: [value.number // 10 if value.number > 9 else None])

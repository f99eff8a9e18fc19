"""A number is half of what it should be.

In real life. A length was shared between two packets, and one of them was lost later.

Here. The variable gets half of its number, without the rest.

For a train. A profile or an authority ends too early, so the train brakes, or a restriction is too short.
"""
from __future__ import annotations

from balisekit.mistakes.of_fields import mistake_of

MISTAKE = mistake_of(__name__, __doc__, lambda original, value: [value.number // 2])

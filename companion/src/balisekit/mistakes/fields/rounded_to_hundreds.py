"""A number is rounded to hundreds.

In real life. A list for an overview was used as the source.

Here. The variable gets the nearest multiple of 100.

For a train. Places are wrong by up to 50 units of Q_SCALE.
"""
from __future__ import annotations

from balisekit.mistakes.of_fields import mistake_of

MISTAKE = mistake_of(__name__, __doc__, lambda original, value: [100 * ((value.number + 50) // 100)])

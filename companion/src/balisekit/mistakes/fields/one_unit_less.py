"""A number is one unit too small.

In real life. A value was rounded down or cut off, counted from 0 and not from 1, or read from the row above.

Here. The variable gets the next smaller number, if that is not spare.

For a train. A profile or an authority ends one unit of Q_SCALE too early, or a speed is 5 km/h too low.
"""
from __future__ import annotations

from balisekit.mistakes.of_fields import mistake_of

MISTAKE = mistake_of(__name__, __doc__, lambda original, value: [value.number - 1])

"""A number is one unit too large.

In real life. A value was rounded up, counted from 1 and not from 0, or read from the row below in a list of values.

Here. The variable gets the next greater number, if that is not spare.

For a train. Distances are wrong by one unit of Q_SCALE, speeds by 5 km/h, and names such as NID_BG mean another
thing.
"""
from __future__ import annotations

from balisekit.mistakes.of_fields import mistake_of

MISTAKE = mistake_of(__name__, __doc__, lambda original, value: [value.number + 1])

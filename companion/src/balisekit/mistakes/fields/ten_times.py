"""A number is ten times too large.

In real life. A distance in metres was written into a packet whose Q_SCALE counts in units of 10 cm, or a zero was
added.

Here. The variable gets ten times its number, if that fits its bits and is not spare.

For a train. A profile or an authority reaches ten times as far as the track does, or a speed is far too high.
"""
from __future__ import annotations

from balisekit.mistakes.of_fields import mistake_of

MISTAKE = mistake_of(__name__, __doc__, lambda original, value: [10 * value.number])

"""A number is 0.

In real life. A field was left empty, and the tool wrote 0 for it.

Here. The variable gets 0, if that is not spare.

For a train. A speed of 0 stops it, a timer of 0 ends at once, and a section of 0 m does not exist.
"""
from __future__ import annotations

from balisekit.mistakes.of_fields import mistake_of

MISTAKE = mistake_of(__name__, __doc__, lambda original, value: [0])

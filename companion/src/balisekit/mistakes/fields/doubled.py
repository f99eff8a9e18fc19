"""A number is twice what it should be.

In real life. Both directions or both tracks were counted, or a length was added to itself.

Here. The variable gets twice its number, if that fits its bits and is not spare.

For a train. A profile or an authority reaches twice as far, or a speed is twice as high.
"""
from __future__ import annotations

from balisekit.mistakes.of_fields import mistake_of

MISTAKE = mistake_of(__name__, __doc__, lambda original, value: [2 * value.number])

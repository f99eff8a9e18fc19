"""A number is the special value of its variable.

In real life. A field was left at the default of the tool: T_OL 1023 for "no limit", a distance 32767 for "endless", or
V_RELEASEOL 127 for "computed on board".

Here. The variable gets the greatest number that is not spare.

For a train. A timer never ends, a distance is endless, or it computes a speed that the design has fixed.
"""
from __future__ import annotations

from balisekit.mistakes.of_fields import mistake_of

MISTAKE = mistake_of(__name__, __doc__, lambda original, value: [max(last for _, last in value.spans)])

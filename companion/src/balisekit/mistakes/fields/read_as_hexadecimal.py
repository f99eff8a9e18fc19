"""A decimal number was taken for a hexadecimal one.

In real life. A value was typed into a field of a tool that reads hexadecimal digits.

Here. The variable gets the number that its decimal digits mean in hexadecimal.

For a train. The distance, the speed or the name is half as large again, or more.
"""
from __future__ import annotations

from balisekit.mistakes.of_fields import mistake_of

MISTAKE = mistake_of(__name__, __doc__, lambda original, value: [int(str(value.number), 16)])

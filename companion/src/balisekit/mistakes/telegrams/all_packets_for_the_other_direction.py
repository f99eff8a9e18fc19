"""All packets of a telegram are for the other running direction.

In real life. The group was designed for falling kilometres, and built for rising ones.

Here. Q_DIR of all packets of a telegram is reverse instead of nominal, or nominal instead of reverse.

For a train. The trains that need the packets do not use them, and those of the other direction do.
"""
from __future__ import annotations

from typing import Any, Optional

from balisekit.mistakes.mistake import Change
from balisekit.mistakes.of_rows import mistake_of, of_forms, rows_of
from balisekit.mistakes.original import Original, with_packets
from balisekit.tables.model import Row


def altered(original: Original, row: Row) -> Optional[Change]:
    """A telegram whose packets are turned."""
    form = original.forms[row.number]
    packets: Any = [
        {**each, "q_dir": 1 - each["q_dir"]} if each.get("q_dir") in (0, 1) else each for each in form["packets"]
    ]
    return of_forms(
        f"row {row.number}: all packets are for the other direction", {row.number: with_packets(form, packets)}
    )


MISTAKE = mistake_of(__name__, __doc__, rows_of, altered)

"""A movement authority lacks the timers of its sections.

In real life. The times after which the interlocking takes a route back were not filled in.

Here. The timers of all sections are taken out of packet 12 or 15, and that of the end section too.

For a train. It keeps an authority over a route that the interlocking has already released.
"""
from __future__ import annotations

from typing import Any, Optional, Sequence

from balisekit.mistakes.of_packets import Place, mistake_of


def altered(place: Place) -> Optional[Sequence[Any]]:
    """The packets with an authority without timers of its sections."""
    made = {key: value for key, value in place.packet.items() if key != "end_timer"}
    sections = [{"l_section": section["l_section"]} for section in place.packet["sections"]]
    return place.replaced_by({**made, "sections": sections})


MISTAKE = mistake_of(__name__, __doc__, "lacks the timers of its sections", altered, (12, 15))

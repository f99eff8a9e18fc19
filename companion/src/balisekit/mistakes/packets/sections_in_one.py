"""An authority has one section instead of several.

In real life. The sections of a route were added up, because only the end seemed to matter.

Here. The lengths of all sections of packet 12 or 15 are added to L_ENDSECTION, and the sections are gone.

For a train. Its authority ends at the same place, but no section can be taken back by its timer.
"""
from __future__ import annotations

from typing import Any, Optional, Sequence

from balisekit.mistakes.of_packets import Place, mistake_of


def altered(place: Place) -> Optional[Sequence[Any]]:
    """The packets with an authority of one section."""
    packet = place.packet
    total = sum(each["l_section"] for each in packet["sections"])
    return (
        place.replaced_by({**packet, "sections": [], "l_endsection": packet["l_endsection"] + total}) if total else None
    )


MISTAKE = mistake_of(__name__, __doc__, "has all its sections in one", altered, (12, 15))

"""One cause, one entry: a correction of one thing that would remove several entries is the entry for them.

Each module suggests corrections of one kind. What it suggests may be wrong: a correction counts only if it was tried
out (`trying`). Corrections are balisekit's own, and not proved.
"""
from __future__ import annotations

from typing import Sequence

from balisekit.rules.corrections import (
    balises,
    counters,
    ends,
    headers,
    identities,
    kilometres,
    links,
    packets,
    places,
    telegrams,
)
from balisekit.rules.corrections.correction import Stage

SUGGESTIONS: Sequence[Stage] = (
    Stage((headers.suggest,), 1),
    Stage(
        (
            kilometres.suggest,
            balises.suggest,
            counters.suggest,
            telegrams.suggest,
            identities.suggest,
            ends.suggest,
            packets.suggest,
            links.suggest,
        )
    ),
    Stage((packets.suggest_infill,), 1),
    Stage((places.suggest,)),
)
"""In the order in which they are tried: what the rest of the table shows, what would be right, where the mistake is.

Infill comes after what would be right at its signal. A single entry may be due to either of the two.
"""

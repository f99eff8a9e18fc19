"""Telegrams and messages that tests use."""
from __future__ import annotations

import hashlib
from typing import Sequence, cast

from balisekit.etcs.raw_packets import with_content
from balisekit.etcs.variables import Form

ONES = "f" * 38
ALONE = f"a1007f802000ff{ONES}c0"
"""Group 1 of country 1, a single balise."""
OTHER = f"a1007f802001ff{ONES}c0"
"""Group 2."""
DEFAULT = f"a1007f002001ff{ONES}c0"
"""Group 2, with counter 254."""
FIRST, SECOND = f"a102ff802000ff{ONES}c0", f"a1137f802000ff{ONES}c0"
"""A pair of duplicates."""
SPARE = f"a101ff802000ff{ONES}c0"
FAULTY = "a1007f802000c15022a0d4800151402b80d9000105083e87ffffc0"
"""Q_DIR of its second packet is 3."""
MESSAGE = "03048000001900080021e810901ff801f400"


def account(count: int, last: int = 0, columns: str = "") -> str:
    """The account of a table whose rows 2 to `last` are read, with all of its telegrams judged."""
    end = last or count + 1
    rows = f"rows 2 to {end}" if end > 2 else "row 2"
    said = f"account: {count} telegram{'s' * (count > 1)} in the file; {count} judged, 0 refused, 0 not judged; {rows}"
    return said + (f"; columns not read: {columns}" if columns else "")


def digest(*findings: Sequence[str]) -> str:
    """The checksum of an entry: for each of its findings, the telegrams that it is about."""
    blocks = sorted("".join(f"{text.lower()}\n" for text in texts) for texts in findings)
    return hashlib.sha256("".join(blocks).encode()).hexdigest()


def with_contents(form: Form) -> Form:
    """A telegram or message in which each packet whose layout is known has its variables."""
    from_track = form.get("nid_message") != 136
    return cast(Form, {**form, "packets": [with_content(packet, from_track) for packet in form["packets"]]})

"""Where trains say that they are, by the position reports of radio messages: for E31."""
from __future__ import annotations

from typing import Any, NamedTuple

from balisekit.etcs.variables import UNITS, metres
from balisekit.rules.decoded import Decoded
from balisekit.rules.location import NOT_KNOWN, Identity
from balisekit.tables.names import describe_identity

NOT_KNOWN_DISTANCE = 32_767
NO_POSITION = "no group, side or distance"
NO_PLACE = "of a group without a kilometre or direction"
NO_DOUBT = "L_DOUBTOVER is not known"
"""Why nobody knows which groups a train has passed."""


class Place(NamedTuple):
    """Where a train says that it is."""

    identity: Identity
    side: int
    distance: int
    """In decimetres."""
    unit: int

    @classmethod
    def of(cls, report: Any) -> Place:
        """The place of a position report."""
        unit = UNITS[report["q_scale"]]
        return cls((report["nid_c"], report["nid_bg"]), report["q_dlrbg"], report["d_lrbg"] * unit, unit)

    def differs(self, other: Place) -> bool:
        """Whether this is another place. A distance in another unit may be rounded."""
        allowed = 0 if self.unit == other.unit else max(self.unit, other.unit)
        return self[:2] != other[:2] or abs(self.distance - other.distance) > allowed

    def __str__(self) -> str:
        return f"{metres(self.distance)} from {describe_identity(self.identity)}"


def lacks(decoded: Decoded, report: Any) -> str:
    """Why nobody knows where a train is along the track, or nothing. A group that is not there is reported."""
    data = decoded.by_identity.get((report["nid_c"], report["nid_bg"]))
    if report["nid_bg"] == NOT_KNOWN or report["q_dlrbg"] > 1 or report["d_lrbg"] == NOT_KNOWN_DISTANCE:
        return NO_POSITION
    if data is None:
        return ""
    if data.place is None or data.group.rising is None:
        return NO_PLACE
    return NO_DOUBT if report["l_doubtover"] == NOT_KNOWN_DISTANCE else ""

"""What packets say of level and RBC borders: packets 41 and 46, 42 and 131."""
from __future__ import annotations

from decimal import Decimal
from typing import Any, Dict, Iterator, NamedTuple, Optional

from balisekit.rules.telegrams import Packet
from balisekit.rules.track_plan.confirmed import Path
from balisekit.rules.track_plan.placed import Saying
from balisekit.tables.plan_values import LEVEL_WORDS, level_word

NOW = 32_767
LAST_KNOWN = 16_383
"""The NID_RBC of the RBC that the train had before."""
NOT_DECODED = "not decoded"
NUMBERS = (41, 46, 131, 42)
WITH_PLACE = (41, 131)
"""The packets that say where a border is."""


class Border(NamedTuple):
    """What a packet says of a border."""

    saying: Saying
    kind: str
    distance: int
    text: str
    """The levels or the RBC behind it, as a plan writes them. It is empty if the packet is not decoded."""

    @property
    def has_place(self) -> bool:
        """Whether the packet says where the border is."""
        return self.saying.packet.number in WITH_PLACE


def border_of(saying: Saying) -> Optional[Border]:
    """The border that a packet is about, if it is about one."""
    packet = saying.packet
    form: Any = packet.form
    kind = "level" if packet.number in (41, 46) else "rbc"
    if not form.keys() & {"transitions", "nid_rbc"}:
        return Border(saying, kind, 0, "")
    if kind == "level":
        levels = " ".join(level_word(each["m_leveltr"], each.get("nid_ntc")) for each in form["transitions"])
        distance = form.get("d_leveltr", NOW)
        return Border(saying, kind, 0 if distance == NOW else distance * packet.unit, levels)
    if form["nid_rbc"] == LAST_KNOWN or not form.get("q_rbc", 1):
        return None
    distance = form.get("d_rbctr", NOW)
    return Border(saying, kind, 0 if distance == NOW else distance * packet.unit, f"{form['nid_c']}/{form['nid_rbc']}")


def variables_of(packet: Packet) -> Iterator[Path]:
    """The variables of a packet about a border that a design states."""
    yield from ((key,) for key in ("d_leveltr", "d_rbctr", "q_rbc", "nid_c", "nid_rbc"))
    for place, _ in enumerate(packet.form.get("transitions", ())):
        yield from (("transitions", place, key) for key in ("m_leveltr", "nid_ntc"))


def numbers(kind: str, text: str, prefix: str = "") -> Dict[str, Decimal]:
    """The numbers of levels, in their order, or of an RBC, by the names of the variables."""
    found: Dict[str, str] = {}
    if kind == "rbc":
        found["nid_c"], found["nid_rbc"] = text.split("/")
    else:
        for place, word in enumerate(text.split(" "), 1):
            level, _, ntc = word.partition(":")
            found[f"m_leveltr_{place}"] = str(LEVEL_WORDS.index(level))
            found.update({f"nid_ntc_{place}": ntc} if ntc else {})
    return {f"{prefix}{name}": Decimal(number) for name, number in found.items()}

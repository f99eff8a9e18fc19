"""What a remark rests on beside its sentence, as texts for the checksum of an accepted entry.

Groups are named by identity, and packets by aspect and balise. So rows that are put in elsewhere change no text.
"""
from __future__ import annotations

import hashlib
from typing import Iterable, Optional

from balisekit.rules.location import BaliseGroup, Location
from balisekit.rules.passages import Passage
from balisekit.rules.telegrams import Packet


def sender(passage: Passage, packet: Optional[Packet] = None) -> str:
    """Who says a packet, or all of a passage."""
    return origin(passage.at(packet), passage.aspect)


def origin(where: Location, aspect: str = "") -> str:
    """Whose telegram a place is in, by group, aspect and balise; or the text of its message."""
    group, row = where.group, where.row
    if where.message is not None:
        return f"message {where.message.text.lower()} {where.direction}"
    balise = group.group.places[row.number] if group and row else ""
    return f"{group_words(group)} {row.aspect if row else aspect} {balise} {where.direction}"


def place(where: Location) -> str:
    """A place with its telegram or message."""
    return f"{origin(where)} {where.packet} {where.link} {where.row.telegram.lower() if where.row else ''}"


def group_words(group: Optional[BaliseGroup]) -> str:
    """A group by NID_C and NID_BG, or by its name if no telegram of it could be read."""
    if group is None:
        return "none"
    return f"{group.identity[0]} {group.identity[1]}" if group.identity else group.group.name


def counted(facts: Iterable[object]) -> str:
    """Many facts, in any order, as one text of fixed length."""
    lines = sorted(map(str, facts))
    return hashlib.sha256("\n".join(lines).encode("utf-8", "surrogatepass")).hexdigest()

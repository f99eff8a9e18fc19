"""What the mistakes with whole packets have in common."""
from __future__ import annotations

from functools import partial
from random import Random
from typing import Any, Callable, Collection, Dict, Iterator, List, Mapping, NamedTuple, Optional, Sequence, Tuple, cast

from balisekit.engine.records import Form
from balisekit.mistakes.mistake import Change, Mistake
from balisekit.mistakes.original import Original, named, telegram_or_message, with_packets


class Place(NamedTuple):
    """A packet of the line."""

    original: Original
    row: int
    at: int
    """Its place in the telegram, counted from 0."""

    @property
    def packets(self) -> List[Dict[str, Any]]:
        """All packets of its telegram or message. Nobody changes them."""
        return cast(List[Dict[str, Any]], self.original.forms[self.row]["packets"])

    @property
    def packet(self) -> Dict[str, Any]:
        """The packet itself."""
        return self.packets[self.at]

    def replaced_by(self, *packets: Mapping[str, Any]) -> List[Any]:
        """The packets of the telegram with these ones in its place."""
        return [*self.packets[: self.at], *packets, *self.packets[self.at + 1 :]]

    def same_in(self, row: int) -> Optional[Form]:
        """The packet with the same number and direction in another telegram. None if it has none, or several."""
        key = self.packet["nid_packet"], self.packet.get("q_dir")
        same = [each for each in self.original.forms[row]["packets"] if (each["nid_packet"], each.get("q_dir")) == key]
        return same[0] if len(same) == 1 else None


Alter = Callable[[Place], Optional[Sequence[Any]]]
"""The packets of the telegram after the mistake with a packet. None if it is not possible there."""


def mistake_of(module: str, page: Optional[str], words: str, alter: Alter, only: Collection[int] = ()) -> Mistake:
    """The mistake of a module with single packets of a telegram. `words` follow the name of the packet.

    With `only` it is made with packets of these numbers.
    """
    return Mistake.of(module, page, partial(of_each_packet, words=words, alter=alter, only=only))


def packets_of(original: Original) -> Dict[int, List[Tuple[int, int]]]:
    """The packets of the line by NID_PACKET: the row of each, and its place in the telegram."""
    found: Dict[int, List[Tuple[int, int]]] = {}
    for row, form in original.forms.items():
        for index, packet in enumerate(form["packets"]):
            found.setdefault(packet["nid_packet"], []).append((row, index))
    return found


def of_each_packet(
    original: Original, random: Random, most: int, words: str, alter: Alter, only: Collection[int] = ()
) -> Iterator[Change]:
    """Makes a mistake with packets of each number, at `most` random places."""
    for number, places in sorted(packets_of(original).items()):
        made = 0
        for row, index in random.sample(places, len(places)) if not only or number in only else ():
            form = original.forms[row]
            packets = alter(Place(original, row, index))
            if packets is None or packets == form["packets"]:
                continue
            made += 1
            whose = telegram_or_message(row)
            said = f"{named(row)}: packet {number}, at place {index + 1} of the {whose}, {words}"
            yield Change(said, frozenset({row}), f"packet {number}", {row: with_packets(form, packets)})
            if made == most:
                break


def lists_of(packet: Mapping[str, Any], least: int) -> List[str]:
    """The keys of the lists of a packet with at least `least` items."""
    return [key for key, value in packet.items() if isinstance(value, list) and len(value) >= least]

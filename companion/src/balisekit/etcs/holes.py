"""What is the same for many groups is made once, with holes for the kilometres of each of them.

A hole has as many letters as its kilometre, so that a text is laid out as with that. Its letters are of the private use
area of Unicode. No other text that is shown has them, because `clean` escapes them.
"""
from __future__ import annotations

import re
from dataclasses import dataclass, field
from typing import Callable, Dict, Generic, Hashable, List, Match, Optional, Sequence, Set, Tuple, TypeVar

from balisekit.etcs.geometry import Kilometres, kilometre_of

FIRST, MOST = 0xF0000, 0x8000
"""The letter of the first hole, and how many there are. The letters after them are for other words of a group."""
ASKED = 1 << 16
"""How many keys that were asked for are remembered."""
HOLE, OF_PLACE = (re.compile(f"([\U000f0000-{last}])\\1*") for last in ("\U000ffffd", "\U000f7fff"))
Made = TypeVar("Made")


def as_kilometre(hole: Match[str]) -> str:
    """Digits and a dot that are as wide as the kilometre of a hole: all digits have one width."""
    return "." + "0" * (len(hole[0]) - 1)


@dataclass(frozen=True)
class Holes(Kilometres):
    """The kilometres of a group, a hole for each. Equal kilometres have equal holes."""

    places: Dict[int, int] = field(default_factory=dict)
    """The number of the hole of each place, which is counted up the kilometres from the group."""

    def at(self, along: int) -> str:
        """A hole."""
        return chr(FIRST + self.places.setdefault(along, len(self.places))) * len(super().at(along))


def own_hole(number: int) -> str:
    """A hole for the own words of a group that have this number."""
    return chr(FIRST + MOST + number)


class Pattern:
    """A text with holes. Unless `has_own` is true, those for own words of a group stay as they are."""

    def __init__(self, text: str, has_own: bool = False) -> None:
        self._parts = [text] if text.isascii() else (HOLE if has_own else OF_PLACE).split(text)
        numbers = [ord(letter) - FIRST for letter in self._parts[1::2]]
        self._numbers = [number - MOST if number >= MOST else ~number for number in numbers]
        """Those of kilometres are counted from the end."""

    def filled(self, kilometres: Sequence[str], own: Sequence[str] = ()) -> str:
        """The text with these kilometres, and with the own words of a group."""
        if not self._numbers:
            return self._parts[0]
        parts, words = self._parts.copy(), [*own, *reversed(kilometres)]
        parts[1::2] = [words[number] for number in self._numbers]
        return "".join(parts)


class _Known(Generic[Made]):
    """What was made of one key."""

    def __init__(self, places: Sequence[int], held: object) -> None:
        self.places, self.held = places, held
        self.made: Dict[Tuple[int, ...], Tuple[Made, Sequence[int]]] = {}
        """By how long the kilometres of these places are: what was made, and the places of its holes."""


class Kept(Generic[Made]):
    """What was made for groups, by what it depends on: a key, and the length of each of its kilometres.

    It is kept from the second request for a key on, because on some lines no key is repeated.
    """

    def __init__(self, most: int) -> None:
        self._most = most
        self._once: Set[int] = set()
        """The hashes of keys that were asked for: if two are equal by chance, one is kept too early."""
        self._known: Dict[Hashable, _Known[Made]] = {}

    def forget(self) -> None:
        """Empties it."""
        self._known.clear()

    def of(
        self, key: Hashable, held: object, where: Kilometres, make: Callable[[Kilometres], Made]
    ) -> Tuple[Made, Sequence[str]]:
        """What is made of kilometres, and those that its holes have here.

        The key can have the `id` of objects that `held` keeps alive. It decides all but the kilometre of the group.
        """
        whole = where.whole
        if whole is None and where.group is not None:
            return make(where), ()
        key = key, whole is None, where.rising
        known = self._known.get(key)
        if known is None and self._is_first(hash(key)):
            return make(where), ()
        if known is None:
            return self._new(key, held, where, make)
        texts = _texts(whole, known.places)
        found = known.made.get(tuple(map(len, texts)))
        if found is None or texts and min(texts)[0] == "-":
            return self._new(key, held, where, make)
        made, places = found
        return made, texts if places is known.places else _texts(whole, places)

    def _is_first(self, number: int) -> bool:
        """Whether a key of this hash is asked for the first time."""
        if number in self._once:
            return False
        if len(self._once) >= ASKED:
            self._once.clear()
        self._once.add(number)
        return True

    def _new(
        self, key: Hashable, held: object, where: Kilometres, make: Callable[[Kilometres], Made]
    ) -> Tuple[Made, Sequence[str]]:
        """What is made, and kept. With a kilometre below 0 there are no holes: its sign is no digit."""
        holes = Holes(where.group, where.rising)
        made, places = make(holes), list(holes.places)
        texts = _texts(where.whole, places)
        if len(places) > MOST or texts and min(texts)[0] == "-":
            return make(where), ()
        if len(self._known) >= self._most:
            self._known.clear()
        known = self._known.setdefault(key, _Known(places, held))
        known.made[tuple(map(len, _texts(where.whole, known.places)))] = made, places
        return made, texts


def _texts(whole: Optional[int], places: Sequence[int]) -> List[str]:
    return [] if whole is None else [kilometre_of(whole + place) for place in places]

"""Profiles that end elsewhere beside their authority than those of all other signals. For E4."""
from __future__ import annotations

from collections import Counter
from typing import Any, Dict, Iterator, List, NamedTuple, Optional, Sequence, Set, Tuple

from balisekit.etcs.variables import metres
from balisekit.rules.decoded import Decoded, tolerance_of_lengths
from balisekit.rules.facts import counted, sender
from balisekit.rules.meaning.along import ends_of
from balisekit.rules.meaning.sent import Fault, distance, remark
from balisekit.rules.meaning.words import source
from balisekit.rules.passages import Passage
from balisekit.rules.rule import Options, Remark
from balisekit.rules.telegrams import GRADIENTS, SPEEDS, Packet, allowance

AUTHORITY, MODES, LEAST = 12, 80, 5
"""NID_PACKET of authorities and mode profiles, and how many other signals must agree."""
PLACES = ("the end of the authority", "the supervised location")
"""From where the end of a profile is counted."""
Key = Tuple[int, bool, bool, bool]
"""NID_PACKET, and whether there are an overlap, a danger point and a mode profile: projects treat these otherwise."""


class Case(NamedTuple):
    """A profile beside the authority of its message."""

    passage: Passage
    profile: Packet
    authority: Packet
    margins: Tuple[int, int]
    """How many decimetres it ends beyond each of PLACES."""

    @property
    def rounding(self) -> int:
        """By how many decimetres that may differ by rounding."""
        lengths = allowance(self.authority, self.authority.lengths)
        return allowance(self.profile, len(self.profile.stretches)) + lengths

    @property
    def signal(self) -> Tuple[int, str]:
        """The group, and the direction of its trains."""
        return id(self.passage.group), self.passage.direction


class Unlike(NamedTuple):
    """The profiles of one signal that end elsewhere."""

    odd: Sequence[Case]
    others: Sequence[Case]
    place: int
    """From which of PLACES it counts."""
    usual: int


def profile_ends(decoded: Decoded, options: Options) -> Iterator[Remark]:
    """Compares each profile with the authority of its message, as all other signals of the table have it."""
    by_key: Dict[Key, List[Case]] = {}
    for data in decoded.speaking:
        for passage in data.passages:
            for key, case in _cases(passage):
                by_key.setdefault(key, []).append(case)
    found = [unlike for some in by_key.values() for unlike in _unlike(options, some)]
    wrong = Counter(id(case.passage) for unlike in found for case in unlike.odd)
    covering = [(case, unlike) for unlike in found for case in unlike.odd if case.margins[1] >= 0]
    confirmed = _confirmed(decoded) if covering else set()
    for case, unlike in covering:  # (the program reports the others)
        if wrong[id(case.passage)] == 1 or id(case.passage) in confirmed:
            yield _remark(case, unlike)


def _cases(passage: Passage) -> Iterator[Tuple[Key, Case]]:
    """The profiles of a message with one authority, which stops trains at its end."""
    said = passage.said
    numbers = [packet.number for packet in said]
    packet = said[numbers.index(AUTHORITY)] if numbers.count(AUTHORITY) == 1 else None
    if packet is None or not packet.form["v_main"] or packet.form["end_speed"]:
        return
    form: Any = packet.form
    end = packet.end
    lengths = [form[part][key] for part, key in (("overlap", "d_ol"), ("danger_point", "d_dp")) if part in form]
    supervised = end + (lengths[0] * packet.unit if lengths else 0)
    for number in (GRADIENTS, SPEEDS):
        profile = said[numbers.index(number)] if numbers.count(number) == 1 else None
        mark = profile.stretches[-1].end if profile and profile.stretches else None
        if profile is not None and mark is not None:
            key = number, "overlap" in form, "danger_point" in form, MODES in numbers
            yield key, Case(passage, profile, packet, (mark - end, mark - supervised))


def _unlike(options: Options, some: Sequence[Case]) -> Iterator[Unlike]:
    """The profiles of the one signal that does not end where all others do."""
    if any(len({each.margins[place] for each in some}) == 1 for place in range(len(PLACES))):
        return
    best: Optional[Unlike] = None
    allowed = tolerance_of_lengths(options.tolerance_of_places, 2 * max(each.rounding for each in some))
    for place in range(len(PLACES)):
        counts = Counter(each.margins[place] for each in some)
        usual = counts.most_common(1)[0][0]
        odd = [each for each in some if abs(each.margins[place] - usual) > allowed]
        signals = {each.signal for each in odd}
        others = [each for each in some if each.signal not in signals]
        if best is None or len(odd) < len(best.odd):
            best = Unlike(odd, others, place, usual)
    if best and len({each.signal for each in best.odd}) == 1 and len({each.signal for each in best.others}) >= LEAST:
        yield best


def _confirmed(decoded: Decoded) -> Set[int]:
    """The passages whose authority ends where that of another group ends: then the profiles are wrong, and not it."""
    ends = [end for end in ends_of(decoded) if end.packet.number == AUTHORITY]
    places: Dict[Tuple[str, int], Set[int]] = {}
    for end in ends:
        places.setdefault((end.passage.track, end.place), set()).add(id(end.passage.group))
    return {id(end.passage) for end in ends if len(places[end.passage.track, end.place]) > 1 or not end.passage.group}


def _remark(case: Case, unlike: Unlike) -> Remark:
    """A remark on a profile."""
    own, first, place = case.margins[unlike.place], unlike.others[0], PLACES[unlike.place]
    count = len({each.signal for each in unlike.others})
    words = (
        f"it ends {_beyond(own, place)}, and those of all {count} other signals with such authorities end "
        f"{_beyond(unlike.usual, place)}, such as that of {source(first.passage, first.profile)}"
    )
    values = {"beyond_m": distance(own), "others_beyond_m": distance(unlike.usual)}
    made = remark("E4", case.passage.at(case.profile), [Fault(words, values)])
    facts = [counted(sender(each.passage, each.profile) for each in unlike.others)]
    return made._replace(compared=[first.passage.at(first.profile)], facts=facts)


def _beyond(margin: int, place: str) -> str:
    """How far a profile ends beyond a place."""
    return f"at {place}" if not margin else f"{metres(abs(margin))} {'beyond' if margin > 0 else 'in rear of'} {place}"

"""The values in a track plan: how each kind of row writes them, and what they are as the telegrams have them."""
from __future__ import annotations

import re
from decimal import Decimal
from typing import Any, Callable, Dict, List, Mapping, NamedTuple, Optional, Tuple, Union

from balisekit.errors import TableError
from balisekit.expressions import expression
from balisekit.tables.names import clean, kilometre

Term = Union[int, str, Tuple[Optional[int], ...], None]
"""The value of a key of an aspect. None is `none`."""
Terms = Mapping[str, Term]
"""What an aspect gives, by the keys of ASPECT_KEYS."""


class GroupTerms(NamedTuple):
    """What a balise group is. What is None, or empty, is not compared."""

    identity: Optional[Tuple[int, int]] = None
    """NID_C and NID_BG."""
    balises: Optional[int] = None
    is_linked: Optional[bool] = None
    """Whether Q_LINK is 1."""
    kilometres: Tuple[Decimal, ...] = ()
    """Those of its balises, in the order of N_PIG."""


Value = Union[int, str, Terms, GroupTerms, None]
STEP = 5
"""Speeds are sent in steps of 5 km/h."""
GREATEST_SPEED = 600
GREATEST_TIME = 1022
"""1023 is sent if there is no time-out."""
GREATEST_GRADIENT = 254
"""G_A 255 is the end mark."""
NO_END = "none"
RELEASE = {"onboard": 126, "national": 127}
"""V_RELEASEOL and V_RELEASEDP that are no speeds: calculated on board, and the national value."""
LEVEL_WORDS = ("0", "NTC", "1", "2", "3")
"""The levels by M_LEVELTR (SUBSET-026, 7.5.1)."""
LEVEL = expression("[0-3]|NTC:[0-9]{1,3}", re.IGNORECASE)
RBC = expression("([0-9]{1,4})/([0-9]{1,5})")
GREATEST_NTC, GREATEST_COUNTRY, GREATEST_RBC = 255, 1023, 16_383
GREATEST_GROUP, GREATEST_BALISES = 16_382, 8
LINKED = {"yes": True, "no": False}
GROUP_KEYS = "id=.., balises=.., linked=.. and at=.."


def speed(text: str) -> int:
    """A speed in km/h as the number that is sent."""
    if not re.fullmatch("[0-9]{1,3}", text) or int(text) > GREATEST_SPEED or int(text) % STEP:
        raise TableError(f"{_shown(text)} is no speed: write km/h in steps of {STEP}, at most {GREATEST_SPEED}")
    return int(text) // STEP


def gradient(text: str) -> int:
    """A gradient in whole per mille, uphill positive."""
    found = re.fullmatch("[+-]?[0-9]{1,3}", text.replace("\u2212", "-"))
    if not found or abs(int(found[0])) > GREATEST_GRADIENT:
        raise TableError(f"{_shown(text)} is no gradient: write whole per mille with sign, such as -5")
    return int(found[0])


def length(text: str) -> int:
    """A length that is written in metres, in decimetres."""
    if not re.fullmatch("[0-9]{1,6}([.,][0-9])?", text):
        raise TableError(f"{_shown(text)} is no length: write metres, such as 1400 or 1400.5")
    return int(Decimal(text.replace(",", ".")) * 10)


def length_or_none(text: str) -> Optional[int]:
    """The same, or `none`."""
    return None if text.lower() == NO_END else length(text)


def seconds_or_none(text: str) -> Optional[int]:
    """A time in seconds, or `none` for no time-out."""
    if text.lower() == NO_END:
        return None
    if not re.fullmatch("[0-9]{1,4}", text) or int(text) > GREATEST_TIME:
        raise TableError(f"{_shown(text)} is no time: write seconds, at most {GREATEST_TIME}, or none")
    return int(text)


def release(text: str) -> int:
    """A release speed."""
    word = text.lower()
    return RELEASE[word] if word in RELEASE else speed(text)


def no_authority(text: str) -> None:
    """`none`, which says that an aspect has no packet 12. All other keys say what it has."""
    if text.lower() != NO_END:
        raise TableError(f"{_shown(text)}: write none, or what the authority gives")


def sections(text: str) -> Tuple[Optional[int], ...]:
    """The lengths of the sections of an authority in the order of passing, the end section last."""
    return tuple(map(length, text.split(",")))


def mode(text: str) -> Optional[Tuple[Optional[int], ...]]:
    """The one mode of a mode profile as `OS:0:300:40:100`, or `none` for no packet 80.

    They are M_MAMODE, where it begins and how long it is in metres, V_MAMODE in km/h, and L_ACKMAMODE. What is missing
    at the end is not compared.
    """
    if text.lower() == NO_END:
        return None
    name, *others = text.split(":")
    if name.upper() not in MODES or len(others) > 4 or len(others) == 1:
        raise TableError(f"{_shown(text)} is no mode: write OS:0:300, SH or LS with begin and length, or none")
    readers = (length, mode_length, mode_speed, length)
    found = [read(word) for read, word in zip(readers, others)]
    return (MODES.index(name.upper()), *found, *[None] * (4 - len(found)))


def mode_length(text: str) -> int:
    """A length, or `infinite`."""
    return INFINITE if text.lower() == INFINITE_WORD else length(text)


def mode_speed(text: str) -> int:
    """A speed, or `national`."""
    return RELEASE["national"] if text.lower() == "national" else speed(text)


def stops(text: str) -> Optional[str]:
    """Which trains an aspect stops by packets of its own: `sr`, `sh`, `sr,sh` or `none`."""
    words = text.lower().split(",")
    if words == [NO_END]:
        return None
    if not all(word in STOPS for word in words) or len(set(words)) < len(words):
        raise TableError(f"{_shown(text)} is no stop: write {', '.join(STOPS)}, {','.join(STOPS)} or none")
    return ",".join(word for word in STOPS if word in words)


def links(text: str) -> Union[int, str]:
    """How many groups packet 5 names, or which ones in its order, as `352/17,352/18`."""
    if re.fullmatch("[0-9]{1,2}", text):
        return int(text)
    return ",".join(map(identity_text, text.split(",")))


def identity_text(text: str) -> str:
    """The identity of a balise group as `NID_C/NID_BG`."""
    nid_c, nid_bg = _identity(text)
    return f"{nid_c}/{nid_bg}"


def signal_name(text: str) -> str:
    """The name of the signal at which an authority ends."""
    return clean(text)


MODES = ("OS", "SH", "LS")
"""By M_MAMODE."""
INFINITE, INFINITE_WORD = -1, "infinite"
"""The length of a mode that does not end: L_MAMODE is 32,767."""
STOPS = ("sr", "sh")
"""Trains in staff responsible mode, by packet 137, and in shunting mode, by packet 132."""
ASPECT_KEYS: Dict[str, Callable[[str], Term]] = {
    "authority": no_authority,
    "v": speed,
    "end": length,
    "overlap": length_or_none,
    "release": release,
    "danger": length_or_none,
    "loa": speed,
    "loa_time": seconds_or_none,
    "end_time": seconds_or_none,
    "end_start": length_or_none,
    "overlap_time": seconds_or_none,
    "overlap_start": length_or_none,
    "sections": sections,
    "to": signal_name,
    "mode": mode,
    "stop": stops,
    "links": links,
}
"""The keys of an aspect's value, and how the value of each is read."""
LENGTHS = ("end", "overlap", "danger", "end_start", "overlap_start")
TIMES = ("loa_time", "end_time", "overlap_time")
OTHER_KEYS = ("authority", "mode", "stop", "links")
"""The keys of which another packet than 12 has the value, or none."""


def terms(text: str) -> Terms:
    """What an aspect gives, written as `v=120 end=1400 overlap=100 release=20`. A missing key is not compared."""
    found = keyed(text, ASPECT_KEYS, "empty: an aspect needs a value such as v=120 end=1400 overlap=100 release=20")
    if "authority" in found and not found.keys() <= {*OTHER_KEYS}:
        raise TableError("authority: with authority=none there is no other key of a packet 12")
    return found


def keyed(text: str, keys: Mapping[str, Callable[[str], Term]], if_empty: str) -> Dict[str, Term]:
    """The values of these keys in a text. TableError is raised for any other key, and for none."""
    found: Dict[str, Term] = {}
    for part in _parts(text):
        key, equals, value = part.partition("=")
        key = key.lower()
        if key not in keys or not equals:
            raise TableError(f"{_shown(part)} is none of {', '.join(f'{name}=..' for name in keys)}")
        if key in found:
            raise TableError(f"{key} is given twice")
        try:
            found[key] = keys[key](value)
        except TableError as fault:
            raise TableError(f"{key}: {fault.why}") from fault
    if not found:
        raise TableError(if_empty)
    return found


def _parts(text: str) -> List[str]:
    """The keys with their values. Only the name of a signal may have spaces."""
    parts: List[str] = []
    for word in text.split():
        if parts and "=" not in word and parts[-1].lower().startswith("to="):
            parts[-1] += f" {word}"
        else:
            parts.append(word)
    return parts


def levels(text: str) -> str:
    """The levels from a border on, in the order of priority, as `2 NTC:7 0` (SUBSET-026, 7.4.2.9)."""
    words = text.upper().replace(",", " ").split()
    if not words or not all(LEVEL.fullmatch(word) for word in words):
        why = f"{_shown(text)} is no list of levels: write 0, 1, 2, 3 or NTC:7, in the order of priority"
        raise TableError(why)
    for word in words:
        if word.startswith("NTC:") and int(word[4:]) > GREATEST_NTC:
            raise TableError(f"{word} is no national system: NID_NTC is at most {GREATEST_NTC}")
    return " ".join(level_word(1, int(word[4:])) if ":" in word else word for word in words)


def level_word(m_leveltr: int, nid_ntc: Optional[int] = None) -> str:
    """A level as a plan writes it."""
    return LEVEL_WORDS[m_leveltr] if nid_ntc is None else f"{LEVEL_WORDS[m_leveltr]}:{nid_ntc}"


def rbc(text: str) -> str:
    """A radio block centre as `NID_C/NID_RBC`."""
    found = RBC.fullmatch(text)
    if not found or int(found[1]) > GREATEST_COUNTRY or int(found[2]) > GREATEST_RBC:
        raise TableError(f"{_shown(text)} is no RBC: write NID_C/NID_RBC, such as 352/17")
    return f"{int(found[1])}/{int(found[2])}"


def group(text: str) -> GroupTerms:
    """What a group is, written as `id=352/17 balises=2 linked=yes at=12.300,12.303`."""
    found: Dict[str, str] = {}
    for part in text.split():
        key, equals, value = part.partition("=")
        if key.lower() not in ("id", "balises", "linked", "at") or not equals:
            raise TableError(f"{_shown(part)} is none of {GROUP_KEYS}")
        if key.lower() in found:
            raise TableError(f"{key.lower()} is given twice")
        found[key.lower()] = value.lower()
    if not found:
        raise TableError("empty: a group needs a value such as id=352/17 balises=2 linked=yes")
    terms = GroupTerms(*(reader(found[key]) if key in found else empty for key, reader, empty in GROUP_READERS))
    if terms.balises and terms.kilometres and len(terms.kilometres) != terms.balises:
        raise TableError(f"at: {len(terms.kilometres)} kilometres for {terms.balises} balises")
    return terms


def _identity(text: str) -> Tuple[int, int]:
    found = RBC.fullmatch(text)
    if not found or int(found[1]) > GREATEST_COUNTRY or int(found[2]) > GREATEST_GROUP:
        raise TableError(f"id: {_shown(text)} is no identity: write NID_C/NID_BG, such as 352/17")
    return int(found[1]), int(found[2])


def _balises(text: str) -> int:
    if not re.fullmatch("[1-8]", text):
        raise TableError(f"balises: {_shown(text)} is no number from 1 to {GREATEST_BALISES}")
    return int(text)


def _linked(text: str) -> bool:
    if text not in LINKED:
        raise TableError(f"linked: {_shown(text)} is neither yes nor no")
    return LINKED[text]


def _kilometres(text: str) -> Tuple[Decimal, ...]:
    words = text.split(",")
    if not all(re.fullmatch(r"[0-9]{1,5}\.[0-9]{1,6}", word) for word in words):
        raise TableError(f"at: {_shown(text)} is no list of kilometres: write 12.300,12.303")
    return tuple(map(Decimal, words))


GROUP_READERS: List[Tuple[str, Callable[[str], Any], Any]] = [
    ("id", _identity, None),
    ("balises", _balises, None),
    ("linked", _linked, None),
    ("at", _kilometres, ()),
]
"""The keys of a group's value, how the value of each is read, and what it is without the key."""


def group_text(terms: GroupTerms) -> str:
    """What a group is, as a plan writes it."""
    parts = [f"id={terms.identity[0]}/{terms.identity[1]}"] if terms.identity else []
    parts += [f"balises={terms.balises}"] if terms.balises else []
    parts += [] if terms.is_linked is None else [f"linked={'yes' if terms.is_linked else 'no'}"]
    parts += [f"at={','.join(map(kilometre, terms.kilometres))}"] if terms.kilometres else []
    return " ".join(parts)


def speed_word(value: int) -> str:
    """A speed, or a release speed, as a plan writes it."""
    return next((word for word, number in RELEASE.items() if number == value), str(value * STEP))


def terms_text(found: Terms) -> str:
    """What an aspect gives, as a plan writes it."""
    return " ".join(f"{key}={term_word(key, value)}" for key, value in found.items())


def term_words(key: str, value: Term) -> str:
    """The value of a key of an aspect in a sentence."""
    is_word = value is None or key == "release" and value in RELEASE.values() or key in ("to", *OTHER_KEYS)
    unit = "" if is_word else "m" if key in (*LENGTHS, "sections") else "s" if key in TIMES else "km/h"
    return f"{term_word(key, value)} {unit}".strip()


def term_word(key: str, value: Term) -> str:
    """The value of a key of an aspect."""
    if value is None:
        return NO_END
    if isinstance(value, str):
        return value
    if isinstance(value, tuple):
        return _mode_word(*value) if key == "mode" else ",".join(metres(each) for each in value if each is not None)
    return metres(value) if key in LENGTHS else str(value) if key in (*TIMES, "links") else speed_word(value)


def _mode_word(kind: Optional[int], *others: Optional[int]) -> str:
    """A mode as a plan writes it."""
    writers = (metres, lambda each: INFINITE_WORD if each == INFINITE else metres(each), speed_word, metres)
    words = [write(each) for write, each in zip(writers, others) if each is not None]
    return ":".join([MODES[kind or 0], *words])


def metres(length_dm: int) -> str:
    """A length in metres without its unit."""
    whole, tenth = divmod(length_dm, 10)
    return f"{whole}.{tenth}" if tenth else str(whole)


def _shown(text: str) -> str:
    return text[:40] or "nothing"

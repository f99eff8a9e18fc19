"""The records of telegrams and radio messages, as `decode` writes them: the types of their keys, and their form.

`decode` writes a record as one line of JSON without blanks, its keys in byte order (docs/formats.md). So one expression
describes each form completely. `schemas/*.json` describes the same forms for other tools.
"""
from __future__ import annotations

import json
import re
from functools import lru_cache
from typing import (
    Annotated,
    Any,
    Dict,
    Iterator,
    List,
    NamedTuple,
    Optional,
    Pattern,
    Set,
    Tuple,
    TypedDict,
    Union,
    cast,
    get_type_hints,
)

from balisekit.expressions import expression

Bit = Annotated[int, range(2)]
UpToTwo = Annotated[int, range(3)]
Byte = Annotated[int, range(256)]
Distance = Annotated[int, range(32_768)]
Seconds = Annotated[int, range(1024)]
Speed = Annotated[int, range(121)]
ReleaseSpeed = Annotated[int, range(121), 126, 127]
Level = Annotated[int, range(5)]
Country = Annotated[int, range(1024)]
GroupNumber = Annotated[int, range(16_384)]


class Inner(TypedDict, total=False):
    """An object within an authority. (mypy compares a key of type `Form` at length; lists of `Form` only once.)"""

    t_sectiontimer: Seconds
    d_sectiontimerstoploc: Distance
    t_endtimer: Seconds
    d_endtimerstartloc: Distance
    d_dp: Distance
    v_releasedp: ReleaseSpeed
    d_startol: Distance
    t_ol: Seconds
    d_ol: Distance
    v_releaseol: ReleaseSpeed


class Form(Inner, total=False):
    """An object of a record. Its kind decides which of these keys it has: see `KEYS`. They are in the standard's order.

    A number is annotated with the values that it may have, and a list with its least and greatest length.
    """

    nid_message: Annotated[int, 3, 136]
    user_bits: Annotated[int, 210, 830]
    m_version: Annotated[int, 32, 33]
    n_pig: Annotated[int, range(8)]
    n_total: Annotated[int, range(8)]
    m_dup: UpToTwo
    m_mcount: Byte
    t_train: Annotated[int, range(2**32)]
    m_ack: Bit
    nid_engine: Annotated[int, range(2**24)]
    nid_packet: Annotated[int, range(255)]
    q_dir: UpToTwo
    l_packet: Annotated[int, range(8192)]
    body: str
    nid_vbcmk: Annotated[int, range(64)]
    q_scale: UpToTwo
    v_main: Speed
    end_speed: Speed
    end_timeout: Seconds
    d_link: Distance
    nid_c: Country
    nid_bg: GroupNumber
    q_link: Bit
    prv_nid_c: Country
    prv_nid_bg: GroupNumber
    q_linkorientation: Bit
    q_linkreaction: UpToTwo
    q_locacc: Annotated[int, range(64)]
    links: Annotated[List[Form], 1, 32]
    sections: Annotated[List[Form], 0, 31]
    l_section: Distance
    l_endsection: Distance
    section_timer: Inner
    end_timer: Inner
    danger_point: Inner
    overlap: Inner
    d_gradient: Distance
    q_gdir: Bit
    g_a: Byte
    d_static: Distance
    v_static: Annotated[int, range(121), 127]
    q_front: Bit
    q_diff: UpToTwo
    nc: Annotated[int, range(16)]
    v_diff: Speed
    differences: Annotated[List[Form], 0, 31]
    elements: Annotated[List[Form], 1, 32]
    d_lrbg: Distance
    q_dirlrbg: UpToTwo
    q_dlrbg: UpToTwo
    l_doubtover: Distance
    l_doubtunder: Distance
    q_length: Annotated[int, range(4)]
    l_trainint: Distance
    v_train: Annotated[int, range(128)]
    q_dirtrain: UpToTwo
    m_mode: Annotated[int, range(16)]
    m_level: Level
    d_leveltr: Distance
    m_leveltr: Level
    nid_ntc: Byte
    l_ackleveltr: Distance
    transitions: Annotated[List[Form], 1, 32]
    packets: List[Form]


KEYS: Dict[str, str] = {
    "telegram": "user_bits m_version n_pig n_total m_dup m_mcount nid_c nid_bg q_link packets",
    "message 3": "nid_message t_train m_ack nid_c nid_bg packets",
    "message 136": "nid_message t_train nid_engine packets",
    "links": "d_link nid_c? nid_bg q_linkorientation q_linkreaction q_locacc",
    "sections": "l_section section_timer?",
    "section_timer": "t_sectiontimer d_sectiontimerstoploc",
    "end_timer": "t_endtimer d_endtimerstartloc",
    "danger_point": "d_dp v_releasedp",
    "overlap": "d_startol t_ol d_ol v_releaseol",
    "elements of 21": "d_gradient q_gdir g_a",
    "elements of 27": "d_static v_static q_front differences",
    "differences": "q_diff nc v_diff",
    "transitions": "m_leveltr nid_ntc? l_ackleveltr",
}
"""The keys of each kind of object but packets, in the order of the bits. A key with a question mark may be absent."""
AUTHORITY = "end_speed end_timeout sections l_endsection section_timer? end_timer? danger_point? overlap?"
REPORT = (
    "d_lrbg q_dirlrbg q_dlrbg l_doubtover l_doubtunder q_length l_trainint? v_train q_dirtrain m_mode m_level nid_ntc?"
)
FROM_TRACK: Dict[int, str] = {
    0: "nid_vbcmk",
    5: "q_dir q_scale links",
    12: f"q_dir q_scale v_main {AUTHORITY}",
    15: f"q_dir q_scale {AUTHORITY}",
    21: "q_dir q_scale elements",
    27: "q_dir q_scale elements",
    41: "q_dir q_scale d_leveltr transitions",
}
"""The keys of each packet from track to train that is decoded, without its number."""
FROM_TRAIN: Dict[int, str] = {
    0: f"q_scale nid_c nid_bg {REPORT}",
    1: f"q_scale nid_c nid_bg prv_nid_c prv_nid_bg {REPORT}",
}
"""The same for packets from train to track."""
ONLY_WITH: Dict[str, Tuple[Tuple[str, str], ...]] = {
    "nid_ntc": (("m_leveltr", "1"), ("m_level", "1")),
    "l_trainint": (("q_length", "[12]"),),
}
"""A key is present if and only if another key of its object has one of these values."""
BODIES = {True: (23, 1021), False: (21, 1022)}
"""Of a packet that is not decoded: the bits before its body, and the most bytes of the body, by who sends it."""
DIGITS = expression("(?:[0-9a-f]{2})+")
"""What `encode` writes."""


def _up_to(digits: str) -> Iterator[str]:
    """Expressions for the numbers of this many digits up to these. Flat ones are compiled faster than nested ones."""
    for place, digit in enumerate(digits):
        rest = len(digits) - place - 1
        is_last = digits[place + 1 :] == "9" * rest
        least, most = int(place == 0), int(digit) - (not is_last)
        if least <= most:
            yield f"{digits[:place]}[{least}-{most}]" + (f"[0-9]{{{rest}}}" if rest else "")
        if is_last:
            return


def _number(allowed: Union[int, range]) -> str:
    """An expression for the numbers that are allowed, the most usual ones first. What follows is no digit."""
    if isinstance(allowed, int):
        return str(allowed)
    digits = str(allowed[-1])
    least = "|".join(map(str, range(allowed[0])))
    several = f"(?:{'|'.join([f'[1-9][0-9]{{0,{len(digits) - 2}}}', '0', *_up_to(digits)])})"
    return (f"(?!(?:{least})(?![0-9]))" if least else "") + (several if digits[1:] else f"[0-{digits}]")


@lru_cache(maxsize=None)
def _types() -> Dict[str, Any]:
    return get_type_hints(Form, include_extras=True)


def allowed(key: str) -> Tuple[Any, ...]:
    """The numbers and ranges that a key allows, or the least and greatest length of its list; nothing for an object."""
    numbers: Tuple[Any, ...] = getattr(_types()[key], "__metadata__", ())
    return numbers


@lru_cache(maxsize=None)
def width(key: str) -> int:
    """How many bits the greatest number of a key has."""
    greatest: int = max(part if isinstance(part, int) else part[-1] for part in allowed(key))
    return greatest.bit_length()


def _value(key: str) -> str:
    """An expression for the values of a key."""
    numbers = allowed(key)
    if not numbers:
        return _object(KEYS[key])
    if _types()[key].__origin__ is not int:
        return _list(_object(KEYS[key]), *numbers)
    return _number(numbers[0]) if len(numbers) == 1 else f"(?:{'|'.join(map(_number, numbers))})"


def _list(item: str, least: int, most: Optional[int] = None) -> str:
    """An expression for a list of this many objects. It contains `item` only once, because that is long."""
    return rf"\[(?:{item}(?:,(?={{)|(?=\]))){{{least},{'' if most is None else most}}}\]"


def _object(keys: str, **values: str) -> str:
    """An expression for an object with these keys, one of which is always present. Some values can be given."""
    names = sorted(keys.split())
    text, conditions, comma = "", "", ""
    for name in names:
        key = name.rstrip("?")
        part = f'"{key}":{values.get(key) or _value(key)}'
        for other, value in ONLY_WITH.get(key, ()):
            if other in names:
                there, holds = f'[^{{}}]*"{key}":', f'[^{{}}]*"{other}":{value}(?![0-9])'
                conditions += f"(?:(?={there})(?={holds})|(?!{there})(?!{holds}))"
        if name == key:
            text, comma = f"{text}{comma}{part}", ","
        else:  # (before the first key that is always present, the comma is after it)
            text += f"(?:,{part})?" if comma else f"(?:{part},)?"
    return rf"\{{{conditions}{text}\}}"


def _packets(from_track: bool, one_of: str = "") -> str:
    """An expression for the packets of a telegram or message, one of which must have one of these numbers."""
    kinds = FROM_TRACK if from_track else FROM_TRAIN
    packets = []
    for number, keys in kinds.items():
        own = {"nid_packet": str(number)}
        if "elements" in keys:
            own["elements"] = _list(_object(KEYS[f"elements of {number}"]), *allowed("elements"))
        packets.append(_object(f"nid_packet {keys}", **own))
    head, most = BODIES[from_track]
    others = f"(?!(?:{'|'.join(map(str, kinds))})(?![0-9])){_number(range(255))}"
    body = f'"(?:[0-9A-Fa-f]{{2}}){{0,{most}}}"'
    raw = "nid_packet l_packet body" + " q_dir" * from_track
    packets.append(_object(raw, nid_packet=others, l_packet=_number(range(head, 8192)), body=body))
    needed = f'(?=.*"nid_packet":{one_of}(?![0-9]))' if one_of else ""
    return needed + _list(f"(?:{'|'.join(packets)})", 0)


@lru_cache(maxsize=None)
def telegram_expression() -> Pattern[str]:
    """What a line with a telegram matches."""
    return re.compile(_object(KEYS["telegram"], packets=_packets(True)))


@lru_cache(maxsize=None)
def message_expression() -> Pattern[str]:
    """What a line with a radio message matches."""
    authority = _object(KEYS["message 3"], nid_message="3", packets=_packets(True, "15"))
    report = _object(KEYS["message 136"], nid_message="136", packets=_packets(False, "[01]"))
    return re.compile(f"{authority}|{report}")


RAW = "q_dir l_packet body"
"""The keys of a packet that the program keeps as bits, without its number."""
KEPT = 1 << 12
"""How many packets are kept with their objects."""


def _first_keys() -> Iterator[str]:
    """The keys with which a packet can begin: `decode` writes keys in byte order."""
    for keys in (*FROM_TRACK.values(), *FROM_TRAIN.values(), RAW):
        for key in sorted(f"nid_packet {keys}".split()):
            yield key.rstrip("?")
            if not key.endswith("?"):
                break


BETWEEN = expression(rf',(?={{"(?:{"|".join(sorted(set(_first_keys())))})":)')
"""What is between two packets. No other object of a record begins with one of these keys."""
VALUES = expression(":([0-9]+)")
KEPT_AS_BITS = expression('"body":"[^"]*","l_packet":[0-9]+,"nid_packet":([0-9]+)')
DECODER = json.JSONDecoder()


class Header(NamedTuple):
    """The header of a telegram, and its number of user bits."""

    m_dup: int
    m_mcount: int
    m_version: int
    n_pig: int
    n_total: int
    nid_bg: int
    nid_c: int
    q_link: int
    user_bits: int


@lru_cache(maxsize=KEPT)
def _values(text: str) -> Tuple[int, ...]:
    """The numbers of a part of a header. All but those of the identity are the same in most telegrams of a table."""
    return tuple(map(int, VALUES.findall(text)))


def parts(line: str) -> Tuple[Header, str]:
    """The header of a telegram's record that the program has written, and the text of its packets."""
    before, _, rest = line.partition('"nid_bg":')
    identity, _, rest = rest.partition(',"packets":[')
    packets, _, after = rest.rpartition("]")
    nid_bg, _, nid_c = identity.partition(',"nid_c":')
    return Header._make((*_values(before), int(nid_bg), int(nid_c), *_values(after))), packets


def packet_texts(packets: str) -> List[str]:
    """The text of each packet of a record."""
    return BETWEEN.split(packets) if packets else []


def kept_as_bits(line: str) -> Set[int]:
    """The NID_PACKET of the packets of a record that the program keeps as bits."""
    return set(map(int, KEPT_AS_BITS.findall(line))) if '"body"' in line else set()


@lru_cache(maxsize=KEPT)
def _packet(text: str) -> Form:
    return cast(Form, json.loads(text))


def shared(line: str) -> Form:
    """The object of a record that the program has written. Outside of its packets it has no list.

    Of equal packets all records have one object, so that what is made of it is made once: nobody changes it.
    """
    before, _, rest = line.partition('"packets":[')
    packets, _, behind = rest.rpartition("]")
    form = cast(Form, DECODER.raw_decode(f'{before}"packets":[]{behind}')[0])
    form["packets"] = list(map(_packet, packet_texts(packets)))
    return form

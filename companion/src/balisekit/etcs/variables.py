"""What the variables of telegrams and messages are called, and what their numbers mean (SUBSET-026, 7.5.1).

Each key of the program's JSON that has a number is in `VARIABLES`: a function gives it with a unit or by name.
Each other key has a label. A number that needs neither unit nor name has no words. Keys of packets that balisekit reads
by its own layouts have words as well. These layouts are read only for such keys.
"""
from __future__ import annotations

from decimal import Decimal
from functools import lru_cache
from typing import Any, Callable, Dict, Iterable, List, Mapping, NamedTuple, Optional, Sequence, Union

from balisekit.engine import records
from balisekit.etcs import raw_layouts
from balisekit.etcs.packets import MESSAGES, packet_name

Form = records.Form
Values = Mapping[str, Any]
"""An object of a record whose keys are not known in advance."""
NO_FORM: Values = {}


class Around(NamedTuple):
    """What is around a number: its packet, and the object that has its key."""

    packet: Values = NO_FORM
    parent: Values = NO_FORM
    from_track: bool = True

    def inside(self, form: Values) -> Around:
        """What is around the numbers of an object within this one."""
        return Around(form if "nid_packet" in form else self.packet, form, self.from_track)


Words = Callable[[int, Around], str]


UNITS = (1, 10, 100)
"""Of distances in decimetres, by Q_SCALE."""


def unit_dm(packet: Values) -> int:
    """The unit of the packet's distances in decimetres, by Q_SCALE."""
    return UNITS[int(packet.get("q_scale", 0))]


@lru_cache(maxsize=1 << 14)
def metres(distance_dm: int) -> str:
    """A distance of whole decimetres in metres, as "1200 m" or "12.3 m"."""
    return f"{number_of_metres(distance_dm)} m"


def number_of_metres(distance_dm: int) -> str:
    """The same without its unit."""
    whole, tenth = divmod(abs(distance_dm), 10)
    return f"{'-' if distance_dm < 0 else ''}{whole}{f'.{tenth}' if tenth else ''}"


def named(names: Mapping[int, str], other: str = "spare") -> Words:
    """Each number has a name."""
    return lambda value, around: names.get(value, other)


def listed(names: str) -> Words:
    """Each number has a name, from 0 on."""
    return named(dict(enumerate(names.split(" | "))))


def written(text: str, special: Mapping[int, str] = {}) -> Words:
    """A number within a text."""
    return lambda value, around: special.get(value) or text.format(value)


def distance(special: Mapping[int, str] = {}) -> Words:
    """A distance in the unit of its packet. A raw packet may have a spare Q_SCALE."""
    return lambda value, around: special.get(value) or (
        metres(value * unit_dm(around.packet)) if around.packet.get("q_scale", 0) < 3 else "in no unit"
    )


def speed(special: Mapping[int, str] = {}) -> Words:
    """A speed in steps of 5 km/h, up to 600 km/h."""
    return lambda value, around: special.get(value) or (f"{value * 5} km/h" if value <= 120 else "spare")


def clock(value: int, around: Around) -> str:
    """The train's clock, in hundredths of a second."""
    return "not known" if value == 4_294_967_295 else f"{value // 100}.{value % 100:02d} s"


def gradient(value: int, around: Around) -> str:
    """A safe gradient with its sign. The direction of an end mark has no meaning."""
    if value == 255:
        return END_OF_PROFILE
    return f"{'+' if around.parent.get('q_gdir') else '-'}{value} ‰" if value else "0 ‰"


def slope(value: int, around: Around) -> str:
    """Whether the track rises, which has no meaning at an end mark."""
    names = {0: "downhill", 1: "uphill"}
    return f"{names.get(value, 'spare')}{', without meaning at an end mark' if around.parent.get('g_a') == 255 else ''}"


def category(value: int, around: Around) -> str:
    """For which trains a difference is."""
    if around.parent.get("q_diff") == 0:
        return f"cant deficiency {CANT[value]} mm" if value in CANT else "spare"
    return OTHER_CATEGORY(value, around)


DIRECTIONS = {0: "reverse", 1: "nominal", 2: "both directions"}
END_OF_PROFILE = "end of the profile"
CANT = dict(enumerate((80, 100, 130, 150, 165, 180, 210, 225, 245, 275, 300)))
MODE = listed(
    "full supervision (FS) | on sight (OS) | staff responsible (SR) | shunting (SH) | unfitted (UN) | sleeping (SL) | "
    "stand by (SB) | trip (TR) | post trip (PT) | system failure (SF) | isolation (IS) | non leading (NL) | "
    "limited supervision (LS) | national system (SN) | reversing (RV) | passive shunting (PS)"
)
OTHER_CATEGORY = listed("freight trains braked in position P | freight trains braked in position G | passenger trains")
POSITION = listed(
    "first of the group | second of the group | third of the group | fourth of the group | fifth of the group | "
    "sixth of the group | seventh of the group | eighth of the group"
)
VARIABLES: Dict[str, Words] = {
    **dict.fromkeys(("nid_c", "prv_nid_c", "nid_engine", "nid_vbcmk", "nid_ntc"), named({}, "")),
    **dict.fromkeys(("nid_bg", "prv_nid_bg"), named({16_383: "not known"}, "")),
    **dict.fromkeys(("d_link", "l_section", "l_endsection", "l_ackleveltr", "d_gradient", "d_static"), distance()),
    **dict.fromkeys(("d_sectiontimerstoploc", "d_endtimerstartloc", "d_dp", "d_startol", "d_ol"), distance()),
    **dict.fromkeys(("d_lrbg", "l_doubtover", "l_doubtunder"), distance({32_767: "not known"})),
    **dict.fromkeys(("end_timeout", "t_sectiontimer", "t_endtimer", "t_ol"), written("{} s", {1023: "no time-out"})),
    **dict.fromkeys(("v_releasedp", "v_releaseol"), speed({126: "calculated on board", 127: "the national value"})),
    **dict.fromkeys(("v_diff", "v_train"), speed()),
    **dict.fromkeys(("q_dirlrbg", "q_dlrbg", "q_dirtrain"), listed("reverse | nominal | unknown")),
    **dict.fromkeys(("m_level", "m_leveltr"), listed("level 0 | level NTC | level 1 | level 2 | level 3")),
    "nid_message": named(MESSAGES, "not named here"),
    "user_bits": named({210: "short telegram", 830: "long telegram"}),
    "m_version": named({16: "1.0", 17: "1.1", 32: "2.0", 33: "2.1"}, ""),
    "n_pig": POSITION,
    "n_total": lambda value, around: f"{value + 1} balise{'s' if value else ''}",
    "m_dup": listed("no duplicate | duplicate of the next balise | duplicate of the previous balise"),
    "m_mcount": named({254: "fits no message of the group", 255: "fits each telegram of the group"}, ""),
    "t_train": clock,
    "m_ack": listed("no | yes"),
    "nid_packet": lambda value, around: packet_name(value, around.from_track),
    "q_dir": named(DIRECTIONS),
    "l_packet": written("{} bits"),
    "q_scale": listed("10 cm | 1 m | 10 m"),
    "v_main": speed({0: "0 km/h, train trip"}),
    "end_speed": speed({0: "0 km/h, stop"}),
    "q_link": listed("unlinked | linked"),
    "q_linkorientation": listed("reverse | nominal"),
    "q_linkreaction": listed("train trip | service brake | none"),
    "q_locacc": written("{} m to either side"),
    "q_gdir": slope,
    "g_a": gradient,
    "v_static": speed({127: END_OF_PROFILE}),
    "q_front": listed("holds until the rear has passed | holds until the front has passed"),
    "q_diff": listed(
        "by cant deficiency | by another category, in place of cant deficiency | "
        "by another category, beside cant deficiency"
    ),
    "nc": category,
    "q_length": listed("no information | confirmed by a device | confirmed by the driver | lost"),
    "l_trainint": written("{} m"),
    "m_mode": MODE,
    "d_leveltr": distance({32_767: "now"}),
}


def _raw_words(variable: raw_layouts.Variable) -> Words:
    """The words of a variable that only balisekit's own layouts have."""

    def words(value: int, around: Around) -> str:
        span = variable.span_of(value)
        return "spare" if span is None else span.words or _with_unit(value, variable, around)

    return words


def _with_unit(value: int, variable: raw_layouts.Variable, around: Around) -> str:
    """A number without a meaning of its own, in the unit of its variable."""
    unit = variable.unit
    if unit == "Q_SCALE":
        return distance()(value, around)
    if unit == "digits":
        return f"{value:0{variable.bits // 4}x}".rstrip("f") or "no digit"
    if unit == "identity":
        return f"NID_C {value >> 14}, NID_BG {value & 16_383}"
    if unit == "‰" and value:
        return f"{'+' if around.parent.get('q_gdir') else '-'}{value} ‰"
    factor, _, name = unit.rpartition(" ")
    return f"{value * Decimal(factor or 1)} {name}" if unit else ""


@lru_cache(maxsize=None)
def _raw_keys() -> Mapping[str, raw_layouts.Variable]:
    """The keys of balisekit's own layouts that the program's JSON does not have."""
    ones = (one for layout in raw_layouts.layouts().values() for one in raw_layouts.all_ones(layout.fields))
    return {one.key: one.variable for one in ones if one.key not in VARIABLES}


def _raw_name(key: str, variable: raw_layouts.Variable) -> str:
    """The name of a variable whose key is not its name. If an object has it twice, this is the second one."""
    return f"{variable.name} (2)" if key == f"{variable.name.lower()}_2" else variable.name


RAW_TEXTS = {"other_data": "other data", "x_text": "X_TEXT"}
"""Keys of balisekit's own layouts that have a text, with their names."""


def words_of(key: str) -> Optional[Words]:
    """What gives the numbers of a key in words. None if its value is no number or text of a packet."""
    return VARIABLES.get(key) or _raw_words_by_key().get(key)


@lru_cache(maxsize=None)
def _raw_words_by_key() -> Mapping[str, Words]:
    own = {key: _raw_words(variable) for key, variable in _raw_keys().items()}
    return {**own, **dict.fromkeys(RAW_TEXTS, named({}, ""))}


@lru_cache(maxsize=None)
def _places() -> Mapping[str, int]:
    """The place of each key in an order in which the keys of each object are in the order of its bits."""
    from graphlib import TopologicalSorter

    objects = (each for layout in raw_layouts.layouts().values() for each in raw_layouts.objects(layout.fields))
    chains = [list(Form.__annotations__), *(keys if inside else ["body", *keys] for inside, keys in objects)]
    before: Dict[str, List[str]] = {}
    for chain in chains:
        for place, key in enumerate(chain):
            before.setdefault(key, []).extend(chain[place - 1 : place] if place else [])
    return {key: place for place, key in enumerate(TopologicalSorter(before).static_order())}


def label_of(key: str) -> str:
    """The name of a part, or of its items."""
    return labels().get(key, key)


@lru_cache(maxsize=None)
def labels() -> Mapping[str, str]:
    """The names of parts and of their items."""
    own = {key: key.removesuffix("s").replace("_", " ") for key in _places() if words_of(key) is None}
    return {**own, "transitions": "choice"}


NAMES = {
    "user_bits": "user bits",
    "end_speed": "V_LOA",
    "end_timeout": "T_LOA",
    "prv_nid_c": "NID_C of NID_PRVLRBG",
    "prv_nid_bg": "NID_BG of NID_PRVLRBG",
    **RAW_TEXTS,
}
"""The variables whose keys are not the standard's names in small letters, but for those of balisekit's own layouts."""


def in_order(keys: Iterable[str]) -> List[str]:
    """Keys in the order in which the standard has the variables. Those that are not known come last."""
    places = _places()
    return sorted(keys, key=lambda key: (places.get(key, len(places)), key))


def variable_name(key: str, parent: Values) -> str:
    """The standard's name of the variable that this key of `parent` holds."""
    if key == "nc":
        return "NC_CDDIFF" if parent.get("q_diff") == 0 else "NC_DIFF"
    if key in NAMES or key in VARIABLES:
        return NAMES.get(key) or key.upper()
    return _raw_name(key, _raw_keys()[key]) if key in _raw_keys() else key


BESIDE: Mapping[str, str] = {
    "g_a": "q_gdir",
    "q_gdir": "g_a",
    "nc": "q_diff",
    **dict.fromkeys(("g_tsr", "g_pbdsr"), "q_gdir"),
}
"""The keys whose words need the value of another key beside them. `body` needs its packet."""


def value_texts(keys: Sequence[str], form: Values, around: Around) -> List[str]:
    """Values of an object with their names, as "Q_DIR nominal [1]". Most are repeated, so they are kept."""
    scale, from_track = around.packet.get("q_scale", 0), around.from_track
    return [
        _text(key, form[key], around)
        if key == "body"
        else _kept(key, form[key], scale, from_track, form.get(BESIDE[key]) if key in BESIDE else None)
        for key in keys
    ]


@lru_cache(maxsize=1 << 14)
def _kept(key: str, value: Union[int, str], scale: int, from_track: bool, beside: Optional[int]) -> str:
    parent = NO_FORM if beside is None else {BESIDE[key]: beside}
    return _text(key, value, Around({"q_scale": scale}, parent, from_track))


def _text(key: str, value: Union[int, str], around: Around) -> str:
    name, words = variable_name(key, around.parent), value_words(key, value, around)
    return f"{name} {words} [{value}]" if words else f"{name} {value}"


def value_words(key: str, value: Union[int, str], around: Around) -> str:
    """The value in words, with its unit; nothing if it needs none, or its key is not known here."""
    if isinstance(value, str):
        return _body_words(around) if key == "body" else ""
    words = words_of(key)
    return words(value, around) if words else ""


def _body_words(around: Around) -> str:
    """How many bits a body has: L_PACKET without the head, which has no Q_DIR in packets from train to track."""
    head = 23 if around.from_track else 21
    count = around.packet.get("l_packet", head) - head
    is_read = bool(around.packet.keys() - HEAD)
    return f"{count} bit{'s' if count > 1 else ''}{'' if is_read else ', not decoded'}" if count else "no bits"


HEAD = {"nid_packet", "q_dir", "l_packet", "body"}
"""The keys of a packet that is kept as bits. One that balisekit reads by its own layout has more."""

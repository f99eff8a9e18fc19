"""Names and units: each key of the schemas has a row, and each number that is allowed has words."""
from __future__ import annotations

import json
import re
from typing import Any, Dict, Iterator, Tuple

import pytest
from cases_of_program import TOP

from balisekit.engine.records import FROM_TRACK
from balisekit.etcs.packets import MESSAGES, packet_name
from balisekit.etcs.variables import NO_FORM, VARIABLES, Around, labels, metres, value_texts, value_words, variable_name

pytestmark = pytest.mark.uncovered
SCHEMAS = [json.loads((TOP / "schemas" / f"{name}.json").read_text()) for name in ("telegram", "message")]
#: Numbers that name something by themselves, and have no words.
IDENTITIES = {"nid_c", "nid_bg", "prv_nid_c", "prv_nid_bg", "nid_engine", "nid_ntc", "nid_vbcmk", "m_mcount"}


def _properties(schema: Any) -> Iterator[Tuple[str, Any]]:
    """Each key of a schema with what is allowed for it."""
    if isinstance(schema, dict):
        yield from ((key, part) for key, part in schema.get("properties", {}).items() if isinstance(part, dict))
        for part in schema.values():
            yield from _properties(part)
    elif isinstance(schema, list):
        for part in schema:
            yield from _properties(part)


def _is_value(schema: Any, whole: Any) -> bool:
    """Whether the key has a number or a text."""
    if "$ref" in schema:
        schema = whole["$defs"][schema["$ref"].rsplit("/", 1)[1]]
    return "const" in schema or "enum" in schema or schema.get("type") in ("integer", "string")


KEYS = sorted({key for whole in SCHEMAS for key, schema in _properties(whole) if _is_value(schema, whole)})


def test_each_key_has_a_row() -> None:
    """No key of the schemas is without a name, and no row without a key."""
    assert set(KEYS) - {"body"} == set(VARIABLES)
    assert {*labels(), *VARIABLES} >= {key for whole in SCHEMAS for key, _ in _properties(whole)}


def _numbers(schema: Any, whole: Any) -> Iterator[int]:
    """The numbers that a schema allows: of a range its ends, of 20 or fewer numbers each."""
    if "$ref" in schema:
        yield from _numbers(whole["$defs"][schema["$ref"].rsplit("/", 1)[1]], whole)
    if "const" in schema:
        yield schema["const"]
    yield from schema.get("enum", [])
    for part in schema.get("oneOf", []):
        yield from _numbers(part, whole)
    if "minimum" in schema:
        least, greatest = schema["minimum"], schema["maximum"]
        yield from range(least, greatest + 1) if greatest - least < 20 else (least, (least + greatest) // 2, greatest)


@pytest.mark.parametrize("whole", SCHEMAS)
def test_each_number_has_words(whole: Any) -> None:
    """Each allowed number has words that cannot be taken for another value; identities may have none."""
    for key, schema in _properties(whole):
        for number in _numbers(schema, whole):
            for parent in ({"q_diff": 0}, {"q_diff": 1}):
                words = value_words(key, number, Around({"q_scale": 1}, parent))
                assert words or key in IDENTITIES, (key, number)
                assert not set(words) & set("[]\n") and "  " not in words, (key, number)


#: The keys that are not their variable's name in small letters, and what tells the two variables of "nc" apart.
OTHER_KEYS = {"V_LOA": "end_speed", "T_LOA": "end_timeout", "NC_CDDIFF": "nc", "NC_DIFF": "nc"}
KINDS: Dict[str, Dict[str, int]] = {"NC_CDDIFF": {"q_diff": 0}, "NC_DIFF": {"q_diff": 1}}
#: The words of numbers for which variables.md has others.
OTHERWISE = {
    ("n_pig", 0): "first of the group",
    ("m_dup", 1): "duplicate of the next balise",
    ("m_dup", 2): "duplicate of the previous balise",
    ("m_mcount", 255): "fits each telegram of the group",
    ("q_dir", 2): "both directions",
    ("q_linkreaction", 2): "none",
    ("v_main", 0): "0 km/h, train trip",
    ("end_speed", 0): "0 km/h, stop",
    ("g_a", 255): "end of the profile",
    ("v_static", 127): "end of the profile",
    ("q_front", 0): "holds until the rear has passed",
    ("q_front", 1): "holds until the front has passed",
    ("q_diff", 1): "by another category, in place of cant deficiency",
    ("q_diff", 2): "by another category, beside cant deficiency",
    ("m_ack", 1): "yes",
}
PAGE = (TOP / "docs/variables.md").read_text("utf-8").split("## Packets that the program keeps as bits")[0]
ROWS = [
    (OTHER_KEYS.get(variable, variable.lower()), variable, values)
    for variable, values in sorted({*re.findall(r"^\| ([A-Z_]+) \|.*\| ([^|]+) \|$", PAGE, re.MULTILINE)})
]


@pytest.mark.parametrize("key, variable, values", [row for row in ROWS if row[0] in VARIABLES])
def test_words_are_those_of_the_page(key: str, variable: str, values: str) -> None:
    """The name of each variable in variables.md, the words of its numbers, and the unit of the others."""
    around = Around({"q_scale": 1}, KINDS.get(variable, NO_FORM))
    assert variable_name(key, around.parent) == variable
    for digits, words in re.findall(r"(?:^|; )([0-9,]+) = ([^;]+)", values):
        number = int(digits.replace(",", ""))
        said, other = value_words(key, number, around), OTHERWISE.get((key, number))
        assert said == other if other else said.endswith(words)
    for first, factor, unit in re.findall(r"(\d+) to [0-9,]+(?: × (\d+))? (units|km/h|ms|s|m|‰)(?:;|$)", values):
        amount = max(1, int(first)) * int(factor or 1)
        wanted = {"units": f"{amount} m", "ms": f"{amount / 1000:.2f} s"}.get(unit, f"{amount} {unit}")
        assert wanted in value_words(key, max(1, int(first)), around)


def test_names_of_packets_are_those_of_the_page() -> None:
    headings = re.findall(r"^### (Packet|Message) (\d+)(?:, | (from train) to track, )(.*)$", PAGE, re.MULTILINE)
    for kind, number, is_train, name in headings:
        assert name in (MESSAGES[int(number)] if kind == "Message" else packet_name(int(number), not is_train))
    assert len(headings) > 10
    assert {*VARIABLES} - {key for key, _, _ in ROWS} == {"user_bits", "prv_nid_c", "prv_nid_bg"}


WORDS: Dict[Tuple[str, int], str] = {
    ("v_main", 0): "0 km/h, train trip",
    ("v_main", 32): "160 km/h",
    ("end_speed", 0): "0 km/h, stop",
    ("v_static", 127): "end of the profile",
    ("v_releasedp", 126): "calculated on board",
    ("v_releaseol", 127): "the national value",
    ("v_train", 121): "spare",
    ("end_timeout", 1023): "no time-out",
    ("t_ol", 60): "60 s",
    ("t_train", 100): "1.00 s",
    ("t_train", 4_294_967_295): "not known",
    ("d_leveltr", 32_767): "now",
    ("d_lrbg", 32_767): "not known",
    ("d_link", 850): "8500 m",
    ("q_link", 1): "linked",
    ("nid_bg", 16_383): "not known",
    ("l_trainint", 400): "400 m",
    ("m_level", 3): "level 2",
    ("q_locacc", 5): "5 m to either side",
    ("n_pig", 1): "second of the group",
    ("n_total", 0): "1 balise",
    ("m_version", 33): "2.1",
    ("m_mode", 2): "staff responsible (SR)",
    ("m_dup", 1): "duplicate of the next balise",
    ("nid_packet", 65): "temporary speed restriction",
}


@pytest.mark.parametrize("key, number", sorted(WORDS))
def test_words(key: str, number: int) -> None:
    """How a number is shown if the unit of distances is 10 m."""
    assert value_words(key, number, Around({"q_scale": 2})) == WORDS[key, number]


def test_distances_by_scale() -> None:
    """The same distance in each unit."""
    for scale, number in ((0, 1200), (1, 120), (2, 12)):
        assert value_words("d_link", number, Around({"q_scale": scale})) == "120 m"
    assert value_words("d_link", 123, Around({"q_scale": 0})) == "12.3 m"
    assert (metres(0), metres(-5)) == ("0 m", "-0.5 m")


def test_gradient_has_the_sign_of_its_direction() -> None:
    """Uphill is plus, downhill minus, and an end mark has none."""
    for up, value, words in ((1, 5, "+5 ‰"), (0, 12, "-12 ‰"), (0, 0, "0 ‰")):
        assert value_words("g_a", value, Around({}, {"q_gdir": up, "g_a": value})) == words
    mark = Around({}, {"q_gdir": 1, "g_a": 255})
    assert value_words("g_a", 255, mark) == "end of the profile"
    assert value_words("q_gdir", 1, mark) == "uphill, without meaning at an end mark"


def test_category_depends_on_the_kind() -> None:
    """NC_CDDIFF or NC_DIFF, by Q_DIFF."""
    for kind, name, words in ((0, "NC_CDDIFF", "cant deficiency 165 mm"), (1, "NC_DIFF", "spare")):
        assert variable_name("nc", {"q_diff": kind}) == name
        assert value_words("nc", 4, Around({}, {"q_diff": kind})) == words


def test_packet_names() -> None:
    """A packet that is read has a name in each direction, and one that is not listed is not called unassigned."""
    assert all(packet_name(number) != "not named here" for number in FROM_TRACK)
    assert (packet_name(1), packet_name(1, False)) == ("not named here", "position report based on two balise groups")


@pytest.mark.parametrize("from_track", [True, False])
@pytest.mark.parametrize("beside", [0, 1, 2, 30, 255])
def test_words_that_are_kept_are_those_of_the_place(beside: int, from_track: bool) -> None:
    """Whatever other numbers its object has: words that were kept for another object are right here too."""
    for scale in (0, 1, 2):
        packet = {**dict.fromkeys(VARIABLES, beside), "q_scale": scale}
        around = Around(packet, packet, from_track)
        for key in [*VARIABLES, "not_known"]:
            for value in (0, 1, 2, 5, 126, 255, 16_383, 32_767):
                if key == "n_pig" and value > 7:
                    continue
                words, raw = value_words(key, value, around), f"[{value}]" if value_words(key, value, around) else value
                wanted = " ".join(filter(None, [variable_name(key, packet), words, str(raw)]))
                assert value_texts([key], {**packet, key: value}, around) == [wanted]
        assert value_words("body", "00", around) in value_texts(["body"], {"body": "00"}, around)[0]

"""Packets that the program keeps as bits: each layout against bodies that are written bit by bit here."""
from __future__ import annotations

import re
from decimal import Decimal
from pathlib import Path
from typing import Any, Callable, Dict, List, Optional, Tuple, cast

import pytest
from cases_of_program import TOP
from conftest import Run
from telegrams import OTHER

from balisekit.engine.program import Program, Text
from balisekit.engine.records import FROM_TRACK, FROM_TRAIN
from balisekit.etcs.differences import differences
from balisekit.etcs.flat import Variable, variables
from balisekit.etcs.geometry import Kilometres
from balisekit.etcs.places import Here, here_alone
from balisekit.etcs.raw_layouts import CERTAIN, Layout, layout_of, layouts, objects
from balisekit.etcs.raw_packets import content_of, fault_of, fields_of, with_content
from balisekit.etcs.variables import Around, Form, in_order, value_words, variable_name
from balisekit.present.telegram_text import text

try:
    from hypothesis import given, strategies
except ImportError:
    given = None

Values = Dict[str, Any]
TRACK_NOTE = "balisekit's own layout: not proved, not compared with a print"
NOT_CERTAIN = "layout not certain: balisekit's own, not proved, not compared with a print"


def packet(number: int, bits: str, from_track: bool = True, q_dir: int = 1) -> Form:
    """A raw packet with these bits as its body."""
    whole = bits.replace(" ", "")
    padded = whole + "0" * (-len(whole) % 8)
    body = f"{int(padded, 2):0{len(padded) // 4}x}" if padded else ""
    form: Form = {"nid_packet": number, "l_packet": len(whole) + (23 if from_track else 21), "body": body}
    if from_track:
        form["q_dir"] = q_dir
    return form


def spelled(text: str) -> str:
    """The bits of numbers with their widths: "1/2 500/15" is 1 in 2 bits and 500 in 15."""
    numbers = [tuple(map(int, word.split("/"))) for word in text.split()]
    assert all(number < 2**width for number, width in numbers), text
    return "".join(f"{number:0{width}b}" for number, width in numbers)


def telegram(*packets: Form) -> Form:
    """A telegram with these packets."""
    head = {"user_bits": 830, "m_version": 33, "n_pig": 0, "n_total": 0, "m_dup": 0, "m_mcount": 255}
    return cast(Form, {**head, "nid_c": 1, "nid_bg": 1, "q_link": 1, "packets": list(packets)})


#: Number, whether from track to train, the body, and what is in it. NID_RADIO of 131 has 64 ones.
BODIES: List[Tuple[int, bool, str, Values]] = [
    (2, True, "32/7", {"m_version_ordered": 32}),
    (16, True, "1/2 600/15", {"q_scale": 1, "l_section": 600}),
    (
        42,
        True,
        "1/1 352/10 16383/14 20567739387084799/64 0/1",
        {"q_rbc": 1, "nid_c": 352, "nid_rbc": 16383, "nid_radio": 0x0049123FFFFFFFFF, "q_sleepsession": 0},
    ),
    (45, True, "2498591/24", {"nid_mn": 0x26201F}),
    (46, True, "2/3 0/5", {"transitions": [{"m_leveltr": 2}]}),
    (
        46,
        True,
        "1/3 7/8 2/5 3/3 1/3 9/8",
        {"transitions": [{"m_leveltr": 1, "nid_ntc": 7}, {"m_leveltr": 3}, {"m_leveltr": 1, "nid_ntc": 9}]},
    ),
    (49, True, "0/5", {"groups": []}),
    (49, True, "2/5 0/1 5/14 1/1 7/10 6/14", {"groups": [{"nid_bg": 5}, {"nid_c": 7, "nid_bg": 6}]}),
    (57, True, "20/8 1023/10 255/8", {"t_mar": 20, "t_timeoutrqst": 1023, "t_cycrqst": 255}),
    (
        58,
        True,
        "1/2 255/8 32767/15 1/3 1/5 300/15 1/1",
        {"q_scale": 1, "t_cycloc": 255, "d_cycloc": 32767, "m_loc": 1, "elements": [{"d_loc": 300, "q_lgtloc": 1}]},
    ),
    (63, True, "1/5 0/1 5/14", {"groups": [{"nid_bg": 5}]}),
    (
        65,
        True,
        "1/2 3/8 500/15 300/15 0/1 16/7",
        {"q_scale": 1, "nid_tsr": 3, "d_tsr": 500, "l_tsr": 300, "q_front": 0, "v_tsr": 16},
    ),
    (66, True, "255/8", {"nid_tsr": 255}),
    (
        68,
        True,
        "1/2 0/1 100/15 50/15 3/4 1/5 200/15 80/15 9/4",
        {
            "q_scale": 1,
            "q_trackinit": 0,
            "elements": [
                {"d_trackcond": 100, "l_trackcond": 50, "m_trackcond": 3},
                {"d_trackcond": 200, "l_trackcond": 80, "m_trackcond": 9},
            ],
        },
    ),
    (68, True, "1/2 1/1 700/15", {"q_scale": 1, "q_trackinit": 1, "d_trackinit": 700}),
    (71, True, "2/2 10/15 20/15 0/1", {"q_scale": 2, "d_adhesion": 10, "l_adhesion": 20, "m_adhesion": 0}),
    (
        80,
        True,
        "1/2 400/15 0/2 8/7 32767/15 50/15 1/1 1/5 10/15 2/2 127/7 20/15 0/15 0/1",
        {
            "q_scale": 1,
            "elements": [
                {"d_mamode": 400, "m_mamode": 0, "v_mamode": 8, "l_mamode": 32767, "l_ackmamode": 50, "q_mamode": 1},
                {"d_mamode": 10, "m_mamode": 2, "v_mamode": 127, "l_mamode": 20, "l_ackmamode": 0, "q_mamode": 0},
            ],
        },
    ),
    (
        131,
        True,
        "1/2 1500/15 1/10 2/14 18446744073709551615/64 1/1",
        {"q_scale": 1, "d_rbctr": 1500, "nid_c": 1, "nid_rbc": 2, "nid_radio": 2**64 - 1, "q_sleepsession": 1},
    ),
    (132, True, "0/1", {"q_aspect": 0}),
    (135, True, "", {}),
    (136, True, "0/1 104/14", {"nid_bg": 104}),
    (136, True, "1/1 352/10 104/14", {"nid_c": 352, "nid_bg": 104}),
    (137, True, "1/1", {"q_srstop": 1}),
    (138, True, "1/2 100/15 400/15", {"q_scale": 1, "d_startreverse": 100, "l_reversearea": 400}),
    (139, True, "1/2 32767/15 6/7", {"q_scale": 1, "d_reverse": 32767, "v_reverse": 6}),
    (140, True, "4660/32", {"nid_operational": 4660}),
    (141, True, "0/1 12/8", {"q_gdir": 0, "g_tsr": 12}),
    (145, True, "", {}),
    (181, True, "", {}),
    (254, True, "", {}),
    (4, False, "8/8", {"m_error": 8}),
    (5, False, "4660/32", {"nid_operational": 4660}),
    (9, False, "16386/24", {"nid_ltrbg": 16386}),
    # layouts that are not certain
    (6, True, "1/1 5/6 9/10 30/8", {"q_vbco": 1, "nid_vbcmk": 5, "nid_c": 9, "t_vbc": 30}),
    (6, True, "0/1 5/6 9/10", {"q_vbco": 0, "nid_vbcmk": 5, "nid_c": 9}),
    (
        13,
        True,
        "1/2 0/1 5/14 1/1 2/10 6/14 900/15 0/5",
        {"q_scale": 1, "nid_bg": 5, "elements": [{"nid_c": 2, "nid_bg": 6, "d_sr": 900}]},
    ),
    (39, True, "1/2 9/15 0/4", {"q_scale": 1, "d_traction": 9, "m_voltage": 0}),
    (39, True, "1/2 9/15 1/4 5/10", {"q_scale": 1, "d_traction": 9, "m_voltage": 1, "nid_ctraction": 5}),
    (40, True, "1/2 5/15 50/10", {"q_scale": 1, "d_current": 5, "m_current": 50}),
    (44, True, "102/9 1/8 5/3", {"nid_xuser": 102, "nid_ntc": 1, "other_data": "a0"}),
    (44, True, "7/9", {"nid_xuser": 7, "other_data": ""}),
    (51, True, "1/2 1/1 5/15", {"q_scale": 1, "q_trackinit": 1, "d_trackinit": 5}),
    (
        51,
        True,
        "1/2 0/1 5/15 6/15 1/1 1/5 3/7 8/7 1/5 7/15 8/15 0/1 0/5",
        {
            "q_scale": 1,
            "q_trackinit": 0,
            "elements": [
                {"d_axleload": 5, "l_axleload": 6, "q_front": 1, "axle_loads": [{"m_axleloadcat": 3, "v_axleload": 8}]},
                {"d_axleload": 7, "l_axleload": 8, "q_front": 0, "axle_loads": []},
            ],
        },
    ),
    (
        52,
        True,
        "1/2 0/1 5/15 0/1 9/8 1/1 6/15 7/15 0/5",
        {
            "q_scale": 1,
            "q_trackinit": 0,
            "elements": [{"d_pbd": 5, "q_gdir": 0, "g_pbdsr": 9, "q_pbdsr": 1, "d_pbdsr": 6, "l_pbdsr": 7}],
        },
    ),
    (64, True, "", {}),
    (67, True, "1/2 5/15 6/15 0/5", {"q_scale": 1, "elements": [{"d_trackcond": 5, "l_trackcond": 6}]}),
    (
        69,
        True,
        "1/2 0/1 5/15 6/15 3/4 2/2 0/5",
        {
            "q_scale": 1,
            "q_trackinit": 0,
            "elements": [{"d_trackcond": 5, "l_trackcond": 6, "m_platform": 3, "q_platform": 2}],
        },
    ),
    (
        70,
        True,
        "1/2 0/1 5/15 0/2 9/8 2/5 6/15 1/2 8/7 7/15 2/2 1/4 3/10",
        {
            "q_scale": 1,
            "q_trackinit": 0,
            "elements": [
                {"d_suitability": 5, "q_suitability": 0, "m_linegauge": 9},
                {"d_suitability": 6, "q_suitability": 1, "m_axleloadcat": 8},
                {"d_suitability": 7, "q_suitability": 2, "m_voltage": 1, "nid_ctraction": 3},
            ],
        },
    ),
    (
        72,
        True,
        "1/2 1/2 0/1 5/15 3/4 1/3 9/8 7/15 30/10 1/4 0/3 1/2 1/1 1/1 4/8 5/10 6/14 3/8 72/8 105/8 27/8",
        {
            "q_scale": 1,
            "q_textclass": 1,
            "q_textdisplay": 0,
            "d_textdisplay": 5,
            "m_modetextdisplay": 3,
            "m_leveltextdisplay": 1,
            "nid_ntc": 9,
            "l_textdisplay": 7,
            "t_textdisplay": 30,
            "m_modetextdisplay_2": 1,
            "m_leveltextdisplay_2": 0,
            "q_textconfirm": 1,
            "q_conftextdisplay": 1,
            "q_textreport": 1,
            "nid_textmessage": 4,
            "nid_c_rbc": 5,
            "nid_rbc": 6,
            "l_text": 3,
            "x_text": "Hi\\x1b",
        },
    ),
    (
        76,
        True,
        "1/2 1/2 0/1 5/15 3/4 0/3 7/15 30/10 1/4 1/3 8/8 0/2 2/8",
        {
            "q_scale": 1,
            "q_textclass": 1,
            "q_textdisplay": 0,
            "d_textdisplay": 5,
            "m_modetextdisplay": 3,
            "m_leveltextdisplay": 0,
            "l_textdisplay": 7,
            "t_textdisplay": 30,
            "m_modetextdisplay_2": 1,
            "m_leveltextdisplay_2": 1,
            "nid_ntc_2": 8,
            "q_textconfirm": 0,
            "q_text": 2,
        },
    ),
    (
        79,
        True,
        "1/2 0/1 5/14 9/15 1/1 123456/24 0/5",
        {"q_scale": 1, "elements": [{"nid_bg": 5, "d_posoff": 9, "q_mposition": 1, "m_position": 123456}]},
    ),
    (
        88,
        True,
        "1/2 3/8 500/15 30/15 1/1 8/7 1/1 40/15",
        {"q_scale": 1, "nid_lx": 3, "d_lx": 500, "l_lx": 30, "q_lxstatus": 1, "v_lx": 8, "q_stoplx": 1, "l_stoplx": 40},
    ),
    (88, True, "1/2 3/8 500/15 30/15 0/1", {"q_scale": 1, "nid_lx": 3, "d_lx": 500, "l_lx": 30, "q_lxstatus": 0}),
    (90, True, "0/1 104/14", {"nid_bg": 104}),
    (
        133,
        True,
        "1/2 1/1 2/10 3/14 4/64 5/15 1/1 6/10 7/14",
        {
            "q_scale": 1,
            "q_rif": 1,
            "nid_c": 2,
            "nid_riu": 3,
            "nid_radio": 4,
            "d_infill": 5,
            "nid_c_2": 6,
            "nid_bg_group": 7,
        },
    ),
    (
        134,
        True,
        "1/2 2/14 3/15 4/15 1/1 5/4",
        {"q_scale": 1, "nid_loop": 2, "d_loop": 3, "l_loop": 4, "q_loopdir": 1, "q_sscode": 5},
    ),
    (143, True, "1/1 2/10 3/14 4/64", {"q_riu": 1, "nid_c": 2, "nid_riu": 3, "nid_radio": 4}),
    (180, True, "1/1 9/8", {"q_lssma": 1, "t_lssma": 9}),
    (2, False, "32/7 1/5 33/7", {"versions": [{"m_version": 32}, {"m_version": 33}]}),
    (3, False, "1/5 4/64", {"numbers": [{"nid_radio": 4}]}),
    (
        11,
        False,
        "1/4 2/15 400/12 32/7 3/8 4/7 1/2 16/10 2/5 0/4 1/4 5/10 1/5 6/8",
        {
            "nc_cdtrain": 1,
            "nc_train": 2,
            "l_train": 400,
            "v_maxtrain": 32,
            "m_loadinggauge": 3,
            "m_axleloadcat": 4,
            "m_airtight": 1,
            "n_axle": 16,
            "voltages": [{"m_voltage": 0}, {"m_voltage": 1, "nid_ctraction": 5}],
            "systems": [{"nid_ntc": 6}],
        },
    ),
    (44, False, "7/9 1/1", {"nid_xuser": 7, "other_data": "80"}),
]
#: The variables of packet 3 up to Q_NVKINT, each with its bits.
NATIONAL = (
    "q_scale/2 d_validnv/15 nid_c/10 n_iter/5 v_nvshunt/7 v_nvstff/7 v_nvonsight/7 v_nvlimsuperv/7 v_nvunfit/7 "
    "v_nvrel/7 d_nvroll/15 q_nvsbtsmperm/1 q_nvemrrls/1 q_nvguiperm/1 q_nvsbfbperm/1 q_nvinhsmicperm/1 "
    "v_nvallowovtrp/7 v_nvsupovtrp/7 d_nvovtrp/15 t_nvovtrp/8 d_nvpotrp/15 m_nvcontact/2 t_nvcontact/8 "
    "m_nvderun/1 d_nvstff/15 q_nvdriver_adhes/1 a_nvmaxredadh1/6 a_nvmaxredadh2/6 a_nvmaxredadh3/6 q_nvlocacc/6 "
    "m_nvavadh/5 m_nvebcl/4"
)


def all_values(values: Any) -> List[Any]:
    """The numbers and texts of an object."""
    parts = values.values() if isinstance(values, dict) else values if isinstance(values, list) else ()
    return [each for part in parts for each in all_values(part)] if isinstance(values, (dict, list)) else [values]


def test_each_layout_has_a_body() -> None:
    """No layout is without a body, no body without a layout, and the program reads none of these packets."""
    assert not {*((number, True) for number in FROM_TRACK), *((number, False) for number in FROM_TRAIN)} & {*layouts()}
    assert {*(case[:2] for case in BODIES), (3, True)} == {*layouts()}
    certain = [layout for layout in layouts().values() if layout.is_certain]
    assert (len([each for each in certain if each.from_track]), len(certain), len(layouts())) == (26, 29, 54)
    assert all(layout.doubt for layout in layouts().values() if not layout.is_certain)
    page = (TOP / "docs" / "commands.md").read_text("utf-8")
    counts = f"For {len(layouts())} of", f". {len(certain)} packets,", f". {len(layouts()) - len(certain)} packets,"
    assert all(count in page for count in counts)


@pytest.mark.parametrize("number, from_track, body, values", BODIES)
def test_a_body_that_fits(number: int, from_track: bool, body: str, values: Values) -> None:
    """Each number is found in its bits, and no bit is without a variable."""
    form = packet(number, spelled(body), from_track)
    content = content_of(form, from_track)
    assert content and (content.values, content.fault, content.is_complete) == (values, None, True)
    widths = [int(word.split("/")[1]) for word in body.split()]
    places, at = [], 23 if from_track else 21
    for width in widths:
        places.append((at, width))
        at += width
    text_or_rest = [each for each in content.fields if each.name in ("other data", "X_TEXT")]
    assert text_or_rest or [(each.at, each.width) for each in content.fields] == places
    assert sum(each.width for each in content.fields) == form["l_packet"] - (23 if from_track else 21)
    head = {key: value for key, value in form.items() if key != "body"}
    assert fields_of(form, from_track) == ({**head, **values} if content.layout.is_certain else None)
    assert fault_of(form, from_track) is None


@pytest.mark.parametrize("number, from_track, body, values", [case for case in BODIES if case[0] != 44])
def test_bodies_that_are_too_short_or_too_long(number: int, from_track: bool, body: str, values: Values) -> None:
    """The place and the reason are named, what fits is shown, and no rule gets it."""
    bits, head = spelled(body), 23 if from_track else 21
    longer = packet(number, f"{bits}00000000", from_track)
    content = content_of(longer, from_track)
    assert content and (content.values, content.is_complete) == (values, False)
    wanted = f"the packet has 8 bits more than its layout: bits {head + len(bits)} to {head + len(bits) + 7} of it"
    assert content.fault and content.fault[1:] == ("", head + len(bits), wanted)
    assert fields_of(longer, from_track) is None
    assert fault_of(longer, from_track) == (content.fault if content.layout.is_certain else None)
    if bits:
        shorter = packet(number, bits[:-1], from_track)
        content = content_of(shorter, from_track)
        assert content and content.fault and not content.is_complete
        assert content.fault.reason.startswith(f"the packet ends within {content.fault.name}, which needs ")
        assert fields_of(shorter, from_track) is None
        assert fault_of(shorter, from_track) == (content.fault if content.layout.is_certain else None)


def test_national_values() -> None:
    """Packet 3 without and with correction factors."""
    numbers = {key: place for place, (key, _) in enumerate(word.split("/") for word in NATIONAL.split())}
    widths = {key: int(width) for key, width in (word.split("/") for word in NATIONAL.split())}
    numbers.update(n_iter=0)
    numbers.update({key: 1 for key, width in widths.items() if width < 5})
    bits = spelled(" ".join(f"{numbers[key]}/{width}" for key, width in widths.items()))
    wanted = dict[str, Any]((key, value) for key, value in numbers.items() if key not in ("nid_c", "n_iter"))
    form = packet(3, f"{bits}0")
    assert form["l_packet"] == 230
    content = content_of(form)
    wanted.update(areas=[{"nid_c": numbers["nid_c"]}], q_nvkint=0)
    assert content and content.values == wanted and content.is_complete
    factors = "1/2 5/6 6/6 10/7 50/7 60/7 1/5 20/7 51/7 61/7 1/5 0/2 30/7 52/7 0/5 7/5 8/5 0/5 9/5"
    content = content_of(packet(3, f"{bits}1{spelled(factors)}"))
    assert content and content.fault is None and content.is_complete
    assert content.values["trains"] == [
        {
            "q_nvkvintset": 1,
            "a_nvp12": 5,
            "a_nvp23": 6,
            "speeds": [
                {"v_nvkvint": 10, "m_nvkvint": 50, "m_nvkvint_2": 60},
                {"v_nvkvint": 20, "m_nvkvint": 51, "m_nvkvint_2": 61},
            ],
        },
        {"q_nvkvintset": 0, "speeds": [{"v_nvkvint": 30, "m_nvkvint": 52}]},
    ]
    assert (content.values["lengths"], content.values["m_nvktint"]) == ([{"l_nvkrint": 7, "m_nvkrint": 8}], 9)


@pytest.mark.parametrize(
    "number, body, name, at, wrong",
    [
        *((46, f"1/3 7/8 1/5 {level}/3", "M_LEVELTR", 39, level) for level in (5, 6, 7)),
        (65, "3/2 3/8 500/15 300/15 0/1 16/7", "Q_SCALE", 23, 3),
        (65, "1/2 3/8 500/15 300/15 0/1 121/7", "V_TSR", 64, 121),
        (65, "1/2 3/8 500/15 300/15 0/1 127/7", "V_TSR", 64, 127),
        (80, "1/2 400/15 3/2 8/7 5/15 50/15 1/1 0/5", "M_MAMODE", 40, 3),
        (80, "1/2 400/15 0/2 126/7 5/15 50/15 1/1 0/5", "V_MAMODE", 42, 126),
        (139, "1/2 9/15 121/7", "V_REVERSE", 40, 121),
    ],
)
def test_spare_numbers(number: int, body: str, name: str, at: int, wrong: int) -> None:
    """The first spare number is named with its bits. The packet is shown, and no rule gets its variables."""
    form = packet(number, spelled(body))
    fault, content = fault_of(form), content_of(form)
    assert fault and content and content.is_complete and (fault.name, fault.at) == (name, at)
    assert re.fullmatch(rf"{name} has the spare number {wrong} in the packet, bits {at} to \d+ of it", fault.reason)
    assert fields_of(form) is None and f"{name} spare [{wrong}]" in text(telegram(form))


def test_numbers_at_the_edges_are_no_fault() -> None:
    """The greatest speed, and the special value of V_MAMODE."""
    assert fault_of(packet(65, spelled("2/2 3/8 500/15 300/15 0/1 120/7"))) is None
    assert fault_of(packet(80, spelled("1/2 400/15 2/2 127/7 5/15 50/15 1/1 0/5"))) is None
    assert fault_of(packet(68, spelled("1/2 0/1 5/15 6/15 15/4 0/5"))) is None


def test_packets_that_are_read_by_the_program_or_by_nobody() -> None:
    """They have no content."""
    linking: Any = {"nid_packet": 5, "q_dir": 1, "q_scale": 1, "links": []}
    for form in (linking, packet(33, "101"), packet(1, "")):
        assert (content_of(form), fields_of(form), fault_of(form)) == (None, None, None)
    assert "body 3 bits, not decoded [a0]" in text(telegram(packet(33, "101")))


@pytest.mark.parametrize("layout", layouts().values(), ids=str)
def test_keys_are_in_the_order_of_the_bits(layout: Layout) -> None:
    """Whatever order an object has them in."""
    for inside, keys in objects(layout.fields):
        whole = keys if inside else ["nid_packet", "q_dir", "l_packet", "body", *keys]
        assert in_order(reversed(whole)) == whole


@pytest.mark.parametrize("number, from_track, body, values", BODIES)
def test_each_number_is_shown_once(number: int, from_track: bool, body: str, values: Values) -> None:
    """In words with the layout that it is read by, and as rows of the sheet."""
    form = telegram(packet(number, spelled(body), from_track))
    if not from_track:
        form = {"nid_message": 136, "t_train": 5, "nid_engine": 6, "packets": form["packets"]}
    said = text(form)
    layout = layout_of(number, from_track)
    assert layout and f"= {TRACK_NOTE if layout.is_certain else NOT_CERTAIN}\n" in f"{said}\n"
    assert ("layout not certain" in said) != layout.is_certain
    assert "not decoded" not in said
    found: List[Variable] = list(variables(form)) if from_track else []
    for value in all_values(values):
        assert f"[{value}]" in said or f" {value}" in said, (value, said)
        assert not from_track or value in [each.raw for each in found]
    assert len({each[:3] for each in found}) == len(found)


@pytest.mark.parametrize(
    "key, number, words",
    [
        ("v_tsr", 16, "80 km/h"),
        ("v_mamode", 127, "the national value"),
        ("d_tsr", 500, "5000 m"),
        ("d_rbctr", 32_767, "now"),
        ("l_mamode", 32_767, "infinite"),
        ("nid_radio", 0x0049123FFFFFFFFF, "0049123"),
        ("nid_radio", 2**64 - 1, "the short number"),
        ("nid_mn", 0x26201F, "26201"),
        ("nid_operational", 0xFFFFFFFF, "no digit"),
        ("nid_ltrbg", 16_386, "NID_C 1, NID_BG 2"),
        ("m_current", 50, "500 A"),
        ("a_nvp12", 3, "0.15 m/s²"),
        ("m_trackcond", 4, "radio hole"),
        ("m_trackcond", 8, "switch off magnetic shoe brake"),
        ("m_trackcond", 10, "switch off eddy current brake for emergency brake"),
        ("m_current", 1000, "10000 A"),
        ("m_current", 1001, "spare, but read"),
        ("m_current", 1022, "spare, but read"),
        ("m_current", 1023, "no restriction"),
        ("m_position", 16_777_214, ""),
        ("m_position", 16_777_215, "no position from this location on"),
        ("g_tsr", 254, "-254 ‰"),
        ("g_tsr", 255, "spare, but read"),
        ("t_mar", 20, "20 s"),
        ("nid_tsr", 255, "not revocable"),
        ("nid_tsr", 3, ""),
        ("q_aspect", 0, "stop if in shunting mode"),
    ],
)
def test_words(key: str, number: int, words: str) -> None:
    """How a number is shown if the unit of distances is 10 m."""
    assert value_words(key, number, Around({"q_scale": 2})) == words


def test_gradients_have_a_sign() -> None:
    """By Q_GDIR of the same packet."""
    assert "G_TSR -12 ‰ [12]" in text(telegram(packet(141, spelled("0/1 12/8"))))
    assert "G_TSR +12 ‰ [12]" in text(telegram(packet(141, spelled("1/1 12/8"))))
    assert variable_name("nc", {"q_diff": 0}) == "NC_CDDIFF"


@pytest.mark.parametrize(
    "number, body, note, km",
    [
        (16, "1/2 600/15", "at 600 m, km 14.450", {"L_SECTION": "14.450"}),
        (
            65,
            "1/2 3/8 500/15 300/15 0/1 16/7",
            "from 500 m, km 14.350 to 800 m, km 14.650",
            {"D_TSR": "14.350", "L_TSR": "14.650"},
        ),
        (
            68,
            "1/2 0/1 100/15 50/15 3/4 1/5 200/15 80/15 9/4",
            "from 300 m, km 14.150 to 380 m, km 14.230",
            {"D_TRACKCOND": "14.150", "L_TRACKCOND": "14.230"},
        ),
        (68, "1/2 1/1 700/15", "at 700 m, km 14.550", {"D_TRACKINIT": "14.550"}),
        (71, "2/2 10/15 20/15 0/1", "from 100 m, km 13.950 to 300 m, km 14.150", {"D_ADHESION": "13.950"}),
        (
            80,
            "1/2 400/15 0/2 8/7 100/15 50/15 1/1 0/5",
            "from 400 m, km 14.250 to 500 m, km 14.350; acknowledged from 350 m, km 14.200",
            {"D_MAMODE": "14.250", "L_MAMODE": "14.350", "L_ACKMAMODE": "14.200"},
        ),
        (80, "1/2 400/15 0/2 8/7 32767/15 0/15 1/1 0/5", "from 400 m, km 14.250", {"L_MAMODE": ""}),
        (131, "1/2 1500/15 1/10 2/14 5/64 1/1", "at 1500 m, km 15.350", {"D_RBCTR": "15.350"}),
        (131, "1/2 32767/15 1/10 2/14 5/64 1/1", "", {"D_RBCTR": ""}),
        (138, "1/2 100/15 400/15", "from 100 m, km 13.950 to 500 m, km 14.350", {"L_REVERSEAREA": "14.350"}),
        (88, "1/2 3/8 500/15 30/15 0/1", "", {"D_LX": ""}),
        (65, "3/2 3/8 500/15 300/15 0/1 16/7", "", {"D_TSR": ""}),
    ],
)
def test_places(number: int, body: str, note: str, km: Dict[str, str]) -> None:
    """In metres and kilometres, if the layout is certain and the packet fits it."""
    form, here = telegram(packet(number, spelled(body))), Here(Kilometres(Decimal("13.85"), 1))
    notes = re.findall(r"= ((?:from|at) .*)", text(form, here))
    assert (notes[-1] if notes else "") == note
    found = {each.name: each.km for each in variables(form, here) if each.packet}
    assert {name: found[name] for name in km} == km


def test_places_of_infill_count_from_elsewhere() -> None:
    """What follows a packet 136 has no kilometre of this group."""
    form = telegram(packet(136, spelled("0/1 104/14")), packet(65, spelled("1/2 3/8 500/15 300/15 0/1 16/7")))
    here = here_alone(form, Kilometres(Decimal("13.85"), 1))
    assert "infill: counted from the group of packet 136; from 500 m to 800 m" in text(form, here)
    assert {each.km for each in variables(form, here) if each.packet == "65"} == {""}


def test_differences_are_of_variables() -> None:
    """With units, and without the body. Of a packet that does not fit, the body differs too."""
    old, new = (telegram(packet(65, spelled(f"1/2 3/8 500/15 300/15 0/1 {speed}/7"))) for speed in (16, 8))
    where = "packet 65 (temporary speed restriction, nominal, balisekit's own layout), first in the telegram"
    assert [str(each) for each in differences(old, new)] == [f"{where}  V_TSR 80 km/h [16] -> 40 km/h [8]"]
    assert differences(old, old) == []
    long = telegram(packet(65, spelled("1/2 3/8 500/15 300/15 0/1 8/7 0/1")))
    names = [change.name for change in differences(old, long)]
    assert names == ["L_PACKET", "body", "V_TSR"]
    crossing, other = (telegram(packet(88, spelled(f"1/2 3/8 {place}/15 30/15 0/1"))) for place in (500, 600))
    wanted = (
        "packet 88 (level crossing information, nominal, layout not certain), first in the telegram  "
        "D_LX 500 m [500] -> 600 m [600]"
    )
    assert [str(each) for each in differences(crossing, other)] == [wanted]
    nobody = (telegram(packet(33, bits)) for bits in ("101", "110"))
    said = [str(each) for each in differences(*nobody)]
    assert said == [
        "packet 33 (not named here, nominal), first in the telegram  "
        "body 3 bits, not decoded [a0] -> 3 bits, not decoded [c0]"
    ]


def test_packets_that_come_and_go() -> None:
    """With their variables, and a list that grew with its new item."""
    old = telegram(packet(46, spelled("2/3 0/5")))
    new = telegram(packet(46, spelled("2/3 1/5 3/3")), packet(66, spelled("3/8")))
    own = "balisekit's own layout"
    assert [str(each) for each in differences(old, new)][1:] == [
        f"packet 46 (conditional level transition order, nominal, {own}), first in the telegram  choice 1  added: "
        "M_LEVELTR level 2 [3]",
        f"packet 66 (temporary speed restriction revocation, {own}), second in the telegram  added: NID_PACKET "
        "temporary speed restriction revocation [66]  Q_DIR nominal [1]  L_PACKET 31 bits [31]  NID_TSR 3",
    ]


def test_packets_that_the_program_reads_are_as_they_were() -> None:
    own: Form = {"nid_packet": 0, "nid_vbcmk": 1}
    assert with_content(own) is own
    raw = with_content(packet(66, spelled("3/8")), keeps_body=False)
    assert raw == {"nid_packet": 66, "q_dir": 1, "l_packet": 31, "nid_tsr": 3}


TSR = "1/2 3/8 500/15 300/15 0/1 {}/7"
HEAD = "group,km,nominal,name,telegram"
Write = Callable[..., Path]


def row_of(program: Program, *packets: Form) -> str:
    """A row of a table with a telegram of these packets."""
    (answer,) = program.encode([telegram(*packets)])
    assert isinstance(answer, Text)
    return f"A,13.850,rising,A0,{answer.line}"


def test_commands(program: Program, run: Run, table: Write, tmp_path: Path) -> None:
    """What the program keeps as bits is shown, written and compared, and `check` says that the program does not."""
    packets = [packet(65, spelled(TSR.format(16))), packet(88, spelled("1/2 3/8 500/15 30/15 0/1")), packet(33, "101")]
    old = table(HEAD, row_of(program, *packets), name="old.csv")
    new = table(HEAD, row_of(program, packet(65, spelled(TSR.format(8))), *packets[1:]), name="new.csv")
    status, out, _ = run("show", old)
    assert status == 0 and "Q_FRONT holds until the rear has passed [0]  V_TSR 80 km/h [16]" in "\n".join(out)
    assert f"= {NOT_CERTAIN}" in "\n".join(out) and "body 3 bits, not decoded [a0]" in "\n".join(out)
    status, out, _ = run("diff", old, new)
    said = [line for line in out if "V_TSR" in line]
    assert status == 1 and len(said) == 1 and said[0].endswith("V_TSR 80 km/h [16] -> 40 km/h [8]")
    assert run("table", old, "--csv", tmp_path / "sheet.csv")[0] == 0
    sheet = (tmp_path / "sheet.csv").read_text("utf-8")
    assert f'A,1/1,,0,65,,body,40c0fa012c10,"{TRACK_NOTE}",,\n' in sheet
    assert "A,1/1,,0,65,,D_TSR,500,500,m,14.350\n" in sheet and "A,1/1,,0,65,,V_TSR,16,80,km/h,\n" in sheet
    assert run("table", old, "--expect", tmp_path / "sheet.csv")[0] == 0
    status, out, _ = run("table", new, "--expect", tmp_path / "sheet.csv")
    said = [line for line in out if line.startswith("row ")]
    where = 'row 2  A  km 13.850  balise "A0" (first of its group)  packet 65'
    assert status == 1 and [line.partition(", ")[2] for line in said] == [
        f'column raw: expected "40c0fa012c10", found "40c0fa012c08": {where}  body',
        f'column raw: expected "16", found "8": {where}  V_TSR',
        f'column value: expected "80", found "40" km/h: {where}  V_TSR',
    ]
    _, out, _ = run("check", old)
    assert [line for line in out if "packet" in line and ": E1: " not in line] == [
        "not decoded: packet 33 in 1 telegram (row 2)",
        "decoded only by balisekit: packet 65 in 1 telegram (row 2)",
        "decoded only by balisekit, layout not certain: packet 88 in 1 telegram (row 2)",
    ]


@pytest.mark.parametrize("only", ["F", "L", "E", "F,L,E"])
def test_each_answer_names_packets_that_are_not_decoded(
    program: Program, run: Run, table: Write, tmp_path: Path, only: str
) -> None:
    """Whichever rules and outputs are asked for, and whether or not anything else needs the decoded telegrams."""
    packets = [packet(33, "101"), packet(65, spelled(TSR.format(16)))]
    path = table(HEAD, row_of(program, *packets), f"B,14.850,rising,B0,{OTHER}")
    files = {name: tmp_path / f"out.{name}" for name in ("json", "junit", "sarif")}
    wanted = [
        "not decoded: packet 33 in 1 telegram (row 2)",
        "decoded only by balisekit: packet 65 in 1 telegram (row 2)",
    ]
    _, alone, _ = run("check", path, "--only", only)
    _, out, _ = run("check", path, "--only", only, *(f"--{name}={file}" for name, file in files.items()))
    assert alone == out and [line for line in out if "decoded" in line] == wanted
    texts = {name: file.read_text("utf-8") for name, file in files.items()}
    assert {(name, line) for name in texts for line in wanted if line not in texts[name]} == set()


def test_pictures(program: Program, run: Run, table: Write) -> None:
    """Restrictions, modes, conditions and levels are drawn, with places, and whose layout it is."""
    pytest.importorskip("jinja2")
    level: Any = {"nid_packet": 41, "q_dir": 1, "q_scale": 1, "d_leveltr": 900}
    level["transitions"] = [{"m_leveltr": 1, "nid_ntc": 9, "l_ackleveltr": 0}]
    packets = [
        packet(65, spelled(TSR.format(16))),
        packet(65, spelled(TSR.format(8)), q_dir=0),
        packet(65, spelled(TSR.format(127))),
        packet(80, spelled("1/2 400/15 0/2 8/7 32767/15 50/15 1/1 0/5")),
        packet(68, spelled("1/2 0/1 100/15 0/15 4/4 0/5")),
        packet(88, spelled("1/2 3/8 500/15 30/15 0/1")),
        level,
    ]
    path = table(HEAD, row_of(program, *packets))
    for words, limit in (["--group", "A"], "m, km 14"), (["--track"], "km 14"):
        status, out, _ = run("draw", path, *words)
        picture = "\n".join(out).replace("&#39;", "'")
        titles = re.findall(f"<title>([^<]*); {TRACK_NOTE}, [^<]*</title>", picture)
        assert status == 0 and sorted(title.partition(",")[0] for title in titles) == [
            "mode on sight",
            "temporary speed restriction 40 km/h",
            "temporary speed restriction 80 km/h",
            "track condition radio hole",
        ]
        assert re.search(
            rf"temporary speed restriction 80 km/h, from [^<]*{limit}\.350 to [^<]*{limit}\.650; ", picture
        )
        drawn = re.sub("<title>E1: [^<]*", "", picture)  # (without the flag of the remark on V_TSR 127)
        assert "change to level NTC 9, at " in drawn and "level crossing" not in drawn and "spare" not in drawn


def test_bits(program: Program, run: Run, table: Write) -> None:
    """Each variable has its bits of the telegram, and so have those that the JSON would leave out."""
    path = table(HEAD, row_of(program, packet(66, spelled("3/8")), packet(46, spelled("2/3 1/5 1/3 9/8 1/2"))))
    status, out, _ = run("show", path, "--bits")
    begin = next(place for place, line in enumerate(out) if line.startswith("  packet 46 "))
    assert status == 0 and [" ".join(line.split()) for line in out[begin + 4 : begin + 11]] == [
        "bits 104 to 124 body 21 bits [412128]",
        f"{TRACK_NOTE}; the packet has 2 bits more than its layout: bits 42 to 43 of it:",
        "bits 104 to 106 M_LEVELTR level 1 [2]",
        "bits 107 to 111 N_ITER 1",
        "bits 112 to 114 M_LEVELTR level NTC [1]",
        "bits 115 to 122 NID_NTC 9",
        "bits 125 to 132 NID_PACKET 255",
    ]


if given is not None:

    @pytest.mark.uncovered
    @given(  # type: ignore[misc]
        strategies.integers(1, 254),
        strategies.booleans(),
        strategies.integers(0, 400).flatmap(
            lambda size: strategies.integers(0, 2**size - 1).map(lambda it: (it, size))
        ),
    )
    def test_random_bodies(number: int, from_track: bool, body: Tuple[int, int]) -> None:
        """Nothing fails, whatever is in a body, and each bit that was read belongs to one variable."""
        bits = f"{body[0]:0{body[1]}b}" if body[1] else ""
        form = packet(number, bits, from_track)
        content: Optional[Any] = content_of(form, from_track)
        whole = telegram(form, packet(65, bits))
        if not from_track:
            whole = {"nid_message": 136, "t_train": 5, "nid_engine": 6, "packets": [form]}
        assert text(whole, Here(Kilometres(Decimal("13.85"), 1)))
        if from_track:
            names = [each[:3] for each in variables(whole, Here(Kilometres(Decimal("13.85"), -1)))]
            assert len(names) == len({*names})
        none = cast(Form, {**whole, "packets": []})
        assert differences(whole, none)
        fields, fault = fields_of(form, from_track), fault_of(form, from_track)
        if content is None:
            assert fields is None and fault is None
            return
        at = 23 if from_track else 21
        for each in content.fields:
            assert each.at == at
            at += each.width
        assert at == form["l_packet"] if content.is_complete else content.fault
        assert (fields is not None) == (content.layout.sure >= CERTAIN and content.fault is None)
        assert fault is None or content.layout.sure >= CERTAIN

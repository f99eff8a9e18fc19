"""F10 to F13: authorities without a profile, and profiles that end before the supervised location."""
from __future__ import annotations

from typing import Dict, Optional, Tuple

from balisekit.etcs.geometry import INFILL, Authority, Origin, Site, authority, holds, origins, passed, profile
from balisekit.etcs.packets import packet_name
from balisekit.etcs.variables import metres, number_of_metres
from balisekit.rules.statements.scene import Scene, Statement, packet_words

KINDS = {10: 21, 11: 21, 12: 27, 13: 27}
"""The NID_PACKET of the profile that the rule is about."""


def no_profile(scene: Scene) -> Statement:
    """F10 and F12: the authority, and where a profile is that does not hold here."""
    number, direction = KINDS[scene.finding.rule], scene.finding.direction or ""
    authorities = [
        (site, packet) for site, packet in passed(scene.forms, direction) if packet["nid_packet"] in (12, 15)
    ]
    site, packet = authorities[0]
    speed = {"V_MAIN": f"{packet['v_main'] * 5} km/h"} if "v_main" in packet else {}
    about = ", ".join([packet_name(packet["nid_packet"]), *(f"V_MAIN {value}" for value in speed.values())])
    of = "" if scene.own.row is None else f" of {scene.aspect[site.balise]}"
    more = f" and {len(authorities) - 1} more" if len(authorities) > 1 else ""
    sentence = f" with packet {packet['nid_packet']} ({about}){of}{more}"
    before, rows = _elsewhere(scene, number, direction)
    lacking = f"no packet {number} ({packet_name(number)})"
    return Statement(sentence + before, rows, values=speed, packet=number, lacking=lacking)


def neither_profile(one: Statement, other: Statement) -> Optional[Statement]:
    """What F10 and F12 say together of an authority without any profile; None if what they say of it differs."""
    if (one.before, one.others) != (other.before, other.others):
        return None
    return one._replace(lacking=f"{one.lacking} and {other.lacking}", packet=None)


def _elsewhere(scene: Scene, number: int, direction: str) -> Tuple[str, Tuple[int, ...]]:
    """Where the aspect has a profile of this kind that does not hold here, and the rows."""
    there = [
        (place, packet)
        for place, form in enumerate(scene.forms)
        for packet in form["packets"]
        if packet["nid_packet"] == number
    ]
    silent = [place for place, packet in there if holds(packet, direction)]
    if silent:
        balise = scene.aspect[silent[0]]
        return f": packet {number} is in {balise}, which is silent in this direction", balise.rows
    if not there:
        return "", ()
    other, q_dir = ("reverse", 0) if direction == "nominal" else ("nominal", 1)
    rows = [number for place, _ in there for number in scene.aspect[place].rows]
    return f": packet {number} holds only in {other} direction (Q_DIR {q_dir})", tuple(dict.fromkeys(rows))


def profile_short(scene: Scene) -> Statement:
    """F11 and F13: how far the profile reaches, the supervised location, and what is missing."""
    finding, forms = scene.finding, scene.forms
    direction, site = finding.direction or "", Site(scene.place, finding.packet or 0)
    packet = forms[site.balise]["packets"][site.packet]
    reach = profile(site, packet).reach or 0
    authorities = [authority(at, one) for at, one in passed(forms, direction) if one["nid_packet"] in (12, 15)]
    farthest = max(authorities, key=lambda one: one.supervised)
    missing = farthest.supervised - reach
    known = dict(origins(forms, direction))
    values: Dict[str, str] = {}
    words = [
        _place(scene, name, place_dm, known.get(at, Origin.OWN), values)
        for name, place_dm, at in (("reach", reach, site), ("supervised_location", farthest.supervised, farthest.site))
    ]
    values["missing_m"] = number_of_metres(missing)
    sentence = (
        f"{packet_words(forms[site.balise], site.packet)}, reaches {words[0]}, and the supervised location, "
        f"{_what(farthest)}, is at {words[1]}: {metres(missing)} missing, "
        "by the profile or by a length of the authority"
    )
    return Statement(sentence, values=values, packet=packet["nid_packet"])


def _what(farthest: Authority) -> str:
    """What the supervised location of an authority is, and how far it is beyond the end of the authority."""
    where, beyond = "the end of the authority", ""
    for what, variable, place in (
        ("the danger point", "D_DP", farthest.danger_point),
        ("the end of the overlap", "D_OL", farthest.overlap),
    ):
        if place is not None:
            where, beyond = what, f" ({variable} {metres(place - farthest.end)})"
    return f"{where}{beyond} of packet {farthest.form['nid_packet']}"


def _place(scene: Scene, name: str, place_dm: int, origin: Origin, values: Dict[str, str]) -> str:
    """A place in metres, and in kilometres if they are known. Behind a packet 136 it counts from another group."""
    values[f"{name}_m"] = number_of_metres(place_dm)
    if origin is not Origin.OWN:
        return f"{metres(place_dm)} from the group of packet {INFILL}"
    km = scene.aspects.kilometres.words(place_dm, scene.finding.direction or "")
    if not km:
        return metres(place_dm)
    values[f"{name}_km"] = km
    return f"{metres(place_dm)} (km {km})"

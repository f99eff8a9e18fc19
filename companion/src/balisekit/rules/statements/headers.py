"""F1 to F7 and F14 to F16: values of the header that do not fit together."""
from __future__ import annotations

from typing import Dict

from balisekit.etcs.variables import in_order, variable_name
from balisekit.rules.statements.packets import packets_differ
from balisekit.rules.statements.scene import Balise, Scene, Statement
from balisekit.tables.names import group_words, ordinal

SAME = ("m_version", "nid_c", "nid_bg", "q_link")
"""What all balises of a group have alike."""
OF_ALL = 254
"""A counter below it tells messages apart. 254 itself fits none, and 255 each."""


def position_wrong(scene: Scene) -> Statement:
    """F1: N_PIG beside the place in the table."""
    said, place = scene.own.form["n_pig"], scene.place
    sentence = f"N_PIG is {said} instead of {place}: the table has the balise as the {ordinal(place)} of its group"
    return Statement(sentence, values={"N_PIG": str(said), "wanted_N_PIG": str(place)})


def total_wrong(scene: Scene) -> Statement:
    """F2: how many balises the group should have, and which positions no telegram has."""
    total, there = scene.own.form["n_total"], {balise.form["n_pig"] for balise in scene.aspect}
    lacks = [str(position) for position in range(total + 1) if position not in there]
    last = f" or {lacks.pop()}" if len(lacks) > 1 else ""
    none = f": none has N_PIG {', '.join(lacks)}{last}" if lacks else ""
    count = len(scene.aspect)
    sentence = f"N_TOTAL + 1 says {total + 1} balise{'s' if total else ''}, and the table has {count}{none}"
    return Statement(sentence, values={"N_TOTAL": str(total), "wanted_N_TOTAL": str(count - 1)})


def header_differs(scene: Scene) -> Statement:
    """F3: each of the four values that is not that of the first balise of the first aspect."""
    first = scene.aspects[0][0]
    keys = [key for key in SAME if dict(scene.own.form)[key] != dict(first.form)[key]]
    said = [f"{variable_name(key, {})} is {scene.own.value(key)}, and {first.value(key)}" for key in keys]
    values: Dict[str, str] = {}
    for key in keys:
        values.update(_both(key, scene.own, first))
    return Statement(f"{'; '.join(said)} in {_of(first, scene, 0)}", first.rows, values=values)


def mark_outside(scene: Scene) -> Statement:
    """F4: M_DUP of the first or last balise."""
    which = "only" if len(scene.aspect) == 1 else "first" if scene.place == 0 else "last"
    sentence = f"M_DUP is {scene.own.value('m_dup')}, and the balise is the {which} one of its group"
    return Statement(sentence, values={"M_DUP": str(scene.own.form["m_dup"])})


def mark_unanswered(scene: Scene) -> Statement:
    """F5: M_DUP, and that of the neighbour that it names."""
    other = scene.aspect[scene.place + (1 if scene.own.form["m_dup"] == 1 else -1)]
    sentence = f"M_DUP is {scene.own.value('m_dup')}, and {other.value('m_dup')} in {other}"
    return Statement(sentence, other.rows, values=_both("m_dup", scene.own, other))


def counter_unfit(scene: Scene) -> Statement:
    """F6: M_MCOUNT, and packet 254 if the telegram is a default telegram."""
    numbers = [packet["nid_packet"] for packet in scene.own.form["packets"]]
    default = "; the telegram has packet 254 (default balise, loop or RIU information)" if 254 in numbers else ""
    return Statement(f"M_MCOUNT is {scene.own.value('m_mcount')}{default}", values={"M_MCOUNT": "254"})


def counters_differ(scene: Scene) -> Statement:
    """F7: M_MCOUNT, and the first one below 254 in the aspect."""
    other = next(balise for balise in scene.aspect if balise.form["m_mcount"] < OF_ALL)
    sentence = f"M_MCOUNT is {scene.own.form['m_mcount']}, and {other.form['m_mcount']} in {other}"
    return Statement(sentence, other.rows, values=_both("m_mcount", scene.own, other))


def identity_used(scene: Scene) -> Statement:
    """F14: the identity, and the earlier group."""
    form, earlier = scene.aspects[0][0].form, scene.earlier
    values = {"NID_C": str(form["nid_c"]), "NID_BG": str(form["nid_bg"])}
    sentence = f"the identity {form['nid_c']}/{form['nid_bg']} (NID_C/NID_BG) is also that of "
    if earlier is None:
        return Statement(f"{sentence}an earlier group", values=values)
    return Statement(sentence + group_words(earlier), tuple(row.number for row in earlier.rows()), values=values)


def marks_differ(scene: Scene) -> Statement:
    """F15: M_DUP, and that of the same balise in the first aspect."""
    other = scene.aspects[0][scene.place]
    sentence = f"M_DUP is {scene.own.value('m_dup')}, and {other.value('m_dup')} in {scene.of_aspect(0)}"
    return Statement(sentence, other.rows, values=_both("m_dup", scene.own, other))


def not_told_apart(scene: Scene) -> Statement:
    """F16: the earlier aspect with the same counter; or why the balise is neither fixed nor switched."""
    if scene.finding.aspect is None:
        return _neither_fixed_nor_switched(scene)
    counter = scene.own.form["m_mcount"]
    index = scene.aspects.first_with[counter]
    if index < scene.finding.aspect:
        aspect = scene.aspects[index]
        same = [place for place, balise in enumerate(aspect) if balise.form["m_mcount"] == counter]
        place = scene.place if scene.place in same else same[0]
        where = "" if place == scene.place else f" in {aspect[place]}"
        sentence = f"M_MCOUNT {counter} is also that of {scene.of_aspect(index)}{where}"
        return Statement(sentence, aspect[place].rows, values={"M_MCOUNT": str(counter)})
    return Statement(f"M_MCOUNT {counter} is also that of an earlier aspect", values={"M_MCOUNT": str(counter)})


def _neither_fixed_nor_switched(scene: Scene) -> Statement:
    """Of F16: the counter of the first aspect, and the first other one; or what differs where all counters are 255."""
    balises = [aspect[scene.place] for aspect in scene.aspects]
    first = balises[0]
    counters = [balise.form["m_mcount"] for balise in balises]
    if set(counters) == {255}:
        index = next(index for index, balise in enumerate(balises) if balise.form != first.form)
        return _telegrams_differ(first, balises[index], scene.of_aspect(index))
    if len(set(counters)) == 1:
        return Statement(
            f"M_MCOUNT is {first.value('m_mcount')} in every aspect", values={"M_MCOUNT": str(counters[0])}
        )
    tells = [counter < OF_ALL for counter in counters]
    index = tells.index(not tells[0]) if len(set(tells)) > 1 else counters.index((set(counters) - {counters[0]}).pop())
    other = balises[index]
    sentence = f"M_MCOUNT is {first.value('m_mcount')} in {scene.of_aspect(0)}, and {other.value('m_mcount')} in "
    return Statement(sentence + scene.of_aspect(index), other.rows, values=_both("m_mcount", first, other))


def _telegrams_differ(own: Balise, other: Balise, where: str) -> Statement:
    """What differs first between two telegrams with counter 255."""
    said = "M_MCOUNT is 255 in every aspect, and the telegrams differ: "
    for key in in_order(own.form):
        if key != "packets" and own.value(key) != other.value(key):
            sentence = f"{said}{variable_name(key, {})} is {own.value(key)}, and {other.value(key)} in {where}"
            return Statement(sentence, other.rows, values=_both(key, own, other))
    these, those = (list(enumerate(balise.form["packets"])) for balise in (own, other))
    found = packets_differ(own, other, where, these, those)
    return found._replace(before=said + found.before)


def _both(key: str, own: Balise, other: Balise) -> Dict[str, str]:
    """A value of the header, and the other one."""
    name = variable_name(key, {})
    return {name: str(dict(own.form)[key]), f"other_{name}": str(dict(other.form)[key])}


def _of(balise: Balise, scene: Scene, index: int) -> str:
    """A balise, and its aspect if there are several."""
    return " of ".join(filter(None, [str(balise), scene.of_aspect(index)]))

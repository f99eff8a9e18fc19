"""The packets of a way in few words: at their places, and in sentences for those who do not see a picture."""
from __future__ import annotations

from typing import Callable, Iterator, List, Sequence, Tuple

from balisekit.drawing.ways import Way
from balisekit.etcs.areas import Area
from balisekit.etcs.geometry import Authority, Element, Profile
from balisekit.etcs.variables import Around, Form, metres, value_words
from balisekit.tables.names import listed

Describe = Callable[[int], str]
"""A place of a way in words."""
NAMED = 3
"""How many authorities, levels or restrictions of a way a sentence names."""
LIMIT = "no supervised location"
CATEGORIES = ("freight P", "freight G", "passenger")
"""By NC_DIFF, in short."""


def is_limit(authority: Authority) -> bool:
    """Whether it ends with a limit of authority, at which the train need not stop: V_LOA is above 0."""
    return authority.form["end_speed"] > 0


def release(authority: Authority, part: str) -> str:
    """The release speed at the danger point or overlap."""
    if part == "overlap":
        return f"release speed {value_words('v_releaseol', authority.form['overlap']['v_releaseol'], Around())}"
    return f"release speed {value_words('v_releasedp', authority.form['danger_point']['v_releasedp'], Around())}"


def limit_words(authority: Authority, place: str) -> str:
    """A limit of authority in words, or nothing for another end: the title of its section has its place."""
    if not is_limit(authority):
        return ""
    speed = value_words("end_speed", authority.form["end_speed"], Around())
    return f"limit of authority: {place}, V_LOA {speed}, {LIMIT}"


def place_words(authority: Authority) -> List[Tuple[int, str]]:
    """The places of an authority, with words. Unless it ends at a limit, one of them is the supervised location."""
    limit = f"limit of authority {metres(authority.end)}, {LIMIT}"
    found = [(authority.end, limit if is_limit(authority) else f"end {metres(authority.end)}")]
    if authority.danger_point is not None:
        words = f"danger point {metres(authority.danger_point)}, {release(authority, 'danger_point')}"
        found.append((authority.danger_point, words))
    if authority.overlap is not None:
        found.append((authority.overlap, f"overlap to {metres(authority.overlap)}, {release(authority, 'overlap')}"))
    if not is_limit(authority):
        place, words = found[-1]
        found[-1] = place, f"{words}; SvL"
    return found


def timers(authority: Authority) -> Iterator[Tuple[int, str]]:
    """Where the timers of sections stop, and where that of the end section starts, each with its seconds."""
    form, stops = authority.form, list(authority.timer_stops)
    for part in (*form["sections"], form):
        if "section_timer" in part:
            seconds = value_words("t_sectiontimer", part["section_timer"]["t_sectiontimer"], Around())
            yield stops.pop(0), f"T_SECTIONTIMER {seconds} stops at"
    if authority.end_timer is not None:
        seconds = value_words("t_endtimer", form["end_timer"]["t_endtimer"], Around())
        yield authority.end_timer, f"T_ENDTIMER {seconds} starts at"


def speed_words(authority: Authority) -> str:
    """V_MAIN and V_LOA."""
    form = authority.form
    main = [f"V_MAIN {value_words('v_main', form['v_main'], Around())}"] if "v_main" in form else []
    return "; ".join([*main, f"V_LOA {value_words('end_speed', form['end_speed'], Around())}"])


def category_words(difference: Form) -> Tuple[str, str]:
    """For which trains the speed of a category holds: in short, and in full."""
    full = value_words("nc", difference["nc"], Around({}, difference))
    if difference["q_diff"] == 0:
        return full.replace("cant deficiency", "CD").replace(" mm", ""), full
    known = difference["nc"] < len(CATEGORIES)
    return CATEGORIES[difference["nc"]] if known else f"NC_DIFF {difference['nc']}", full


def area_words(area: Area, place: Describe) -> str:
    """Which area it is, and where."""
    if area.begin == area.end:
        where = f"at {place(area.begin)}"
    else:
        where = f"from {place(area.begin)}" + ("" if area.end is None else f" to {place(area.end)}")
    acknowledged = "" if area.acknowledged is None else f", acknowledged from {place(area.acknowledged)}"
    return f"{area.words} {where}{acknowledged}"


def ends(way: Way, place: Describe) -> str:
    """Where the authorities of a way end."""
    found = [
        f"{'limit of authority at' if is_limit(authority) else 'authority to'} {place(authority.end)}"
        for authority in way.authorities
    ]
    return listed(found, NAMED) if found else "no authority"


def summary(ways: Sequence[Way], place: Describe) -> str:
    """Speeds, gradients and areas of several ways together."""
    parts = [
        _span("speeds", [part.value * 5 for way in ways for part in _elements(way.speeds)], "km/h"),
        _span("gradients", [_slope(part.form) for way in ways for part in _elements(way.gradients)], "\u2030"),
    ]
    areas = dict.fromkeys(f"{area.kind} {area_words(area, place)}" for way in ways for area in way.areas)
    return "; ".join(filter(None, [*parts, listed(list(areas), NAMED)]))


def _elements(profiles: Sequence[Profile]) -> Iterator[Element]:
    return (element for profile in profiles for element in profile.elements)


def _slope(form: Form) -> int:
    return form["g_a"] if form["q_gdir"] else -form["g_a"]


def _span(name: str, values: Sequence[int], unit: str) -> str:
    """The least and the greatest value, or the only one."""
    if not values:
        return ""
    least, greatest = (str(value).replace("-", "\u2212") for value in (min(values), max(values)))
    return f"{name} {least} {unit}" if least == greatest else f"{name} {least} to {greatest} {unit}"

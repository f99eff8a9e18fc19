"""One packet 5 that is wrong as a whole, or in one of its links."""
from __future__ import annotations

from collections import Counter
from typing import Any, Dict, Iterator, Mapping, Optional

from balisekit.rules.chains import Chain
from balisekit.rules.corrections.correction import Correction, Evidence
from balisekit.rules.corrections.packets import DIRECTIONS, group_of, named, packet_words, with_packet
from balisekit.rules.telegrams import LINKING, Link
from balisekit.tables.names import ordinal

NEAR = 100
"""How near a group must be to the place to which a link leads, in decimetres."""


def suggest(evidence: Evidence) -> Iterator[Correction]:
    """Each packet 5 of the rows that two or more entries name: as a whole, then link by link."""
    rows = [row for row, count in named(evidence).items() if count > 1]
    for row in rows:
        for place, packet in enumerate(evidence.forms[row]["packets"]):
            if packet["nid_packet"] == LINKING:
                yield from _of_packet(evidence, row, place)
                yield from _of_each_link(evidence, row, place)


def _of_packet(evidence: Evidence, row: int, place: int) -> Iterator[Correction]:
    """With all orientations turned, for another direction, or with another Q_SCALE."""
    packet: Any = evidence.forms[row]["packets"][place]
    links, rules = packet["links"], Counter(entry.rule for entry in evidence.entries if row in entry.rows)
    if rules["L3"] > 1:
        turned = [{**link, "q_linkorientation": 1 - link["q_linkorientation"]} for link in links]
        yield _with(evidence, row, place, {"links": turned}, "every Q_LINKORIENTATION turned")
    for way in sorted(DIRECTIONS.keys() - {packet["q_dir"]}) if rules["L2"] + rules["L3"] > 1 else ():
        yield _with(evidence, row, place, {"q_dir": way}, f"Q_DIR {way} instead of {packet['q_dir']}")
    for scale in sorted({0, 1, 2} - {packet["q_scale"]}) if rules["L2"] > 1 else ():
        yield _with(evidence, row, place, {"q_scale": scale}, f"Q_SCALE {scale} instead of {packet['q_scale']}")


def _of_each_link(evidence: Evidence, row: int, place: int) -> Iterator[Correction]:
    """With two neighbouring links exchanged, without one of two equal links, or with another group or D_LINK."""
    links: Any = evidence.forms[row]["packets"][place]["links"]
    chain = next((each for each in evidence.line.chains if _is_of(each, row, place)), None)
    for index, link in enumerate(links):
        others = links[:index], links[index + 1 :]
        if index and link == links[index - 1]:
            yield _with(evidence, row, place, {"links": [*others[0], *others[1]]}, f"the {ordinal(index)} link once")
        yield from _one_link(evidence, row, place, chain, index)
        if index:
            order = [*links[: index - 1], link, links[index - 1], *links[index + 1 :]]
            words = f"the {ordinal(index - 1)} and the {ordinal(index)} link exchanged"
            yield _with(evidence, row, place, {"links": order}, words)


def _one_link(evidence: Evidence, row: int, place: int, chain: Optional[Chain], index: int) -> Iterator[Correction]:
    """The group that is at the place of a link, then the D_LINK that leads to its group."""
    if chain is None or chain.sender is None or index >= len(chain.links):
        return
    link, along, begin = chain.links[index], chain.sender.along(chain.direction), chain.sender.place
    if along is None or begin is None:
        return
    near = evidence.line.decoded.nearest(chain.sender.track, begin + along * link.total)
    identity = near.group.identity if near and abs((near.place or 0) - begin - along * link.total) <= NEAR else None
    if identity and identity != link.identity and identity[0] == link.identity[0]:
        yield _with_link(evidence, row, place, index, {"nid_bg": identity[1]}, f"NID_BG {identity[1]}")
    yield from _distance(evidence, row, place, link, along, begin)


def _distance(evidence: Evidence, row: int, place: int, link: Link, along: int, begin: int) -> Iterator[Correction]:
    target = link.target.place if link.target else None
    wanted = None if target is None else link.distance + (target - begin) * along - link.total
    if wanted is not None and wanted > 0 and wanted != link.distance and wanted % link.unit == 0:
        number = wanted // link.unit
        yield _with_link(evidence, row, place, link.number, {"d_link": number}, f"D_LINK {number}")


def _is_of(chain: Chain, row: int, place: int) -> bool:
    where = chain.location
    return where.row is not None and where.row.number == row and where.packet == place


def _with_link(
    evidence: Evidence, row: int, place: int, index: int, values: Mapping[str, int], words: str
) -> Correction:
    links: Any = list(evidence.forms[row]["packets"][place]["links"])
    own: Dict[str, int] = {key: links[index][key] for key in values}
    links[index] = {**links[index], **values}
    instead = ", ".join(map(str, own.values()))
    return _with(evidence, row, place, {"links": links}, f"{words} instead of {instead} in the {ordinal(index)} link")


def _with(evidence: Evidence, row: int, place: int, values: Mapping[str, Any], words: str) -> Correction:
    form = evidence.forms[row]
    made = with_packet(form, place, {**form["packets"][place], **values})
    sentence = f"{packet_words(form, place)}: with {words}, its links would agree"
    return Correction(group_of(evidence, row), (row,), sentence, forms={row: made})

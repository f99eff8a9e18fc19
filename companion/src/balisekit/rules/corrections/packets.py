"""One packet with a wrong Q_DIR, or with other values than in another aspect."""
from __future__ import annotations

from collections import Counter
from typing import Any, Dict, Iterator, List, Mapping, Optional, Sequence, Set, Tuple

from balisekit.engine.records import Form
from balisekit.etcs.packets import packet_name
from balisekit.rules.corrections.correction import Correction, Evidence, with_values
from balisekit.rules.entries import Entry
from balisekit.rules.meaning.infill_signals import COMPARED
from balisekit.tables.model import Group
from balisekit.tables.names import ordinal, rows_words

DIRECTIONS = {0: "the reverse direction", 1: "the nominal direction", 2: "both directions"}
"""By Q_DIR."""
BOTH = 2
INFILL = 136
"""What precedes infill."""


def suggest(evidence: Evidence) -> Iterator[Correction]:
    """Directions first: they need no other telegram. Then packets as other aspects have them."""
    rows = named(evidence)
    for row in rows:
        yield from _of_directions(evidence, row)
    yield from _choices(evidence)
    for row, count in rows.items():
        yield from _of_siblings(evidence, row) if count > 1 else ()


def suggest_infill(evidence: Evidence) -> Iterator[Correction]:
    """The packets of infill as its signal has them, if no other correction explains what E15 reports."""
    for entry in evidence.entries:
        yield from _of_infill(evidence, entry) if entry.rule == "E15" else ()


def named(evidence: Evidence) -> Mapping[int, int]:
    """The rows that entries name, those of most entries first, with how many do."""
    counts = Counter(row for entry in evidence.entries for row in evidence.named(entry) if row in evidence.rows)
    return dict(counts.most_common())


def with_packet(form: Form, place: int, packet: Mapping[str, Any]) -> Form:
    """A telegram with another packet at this place."""
    packets: List[Any] = list(form["packets"])
    packets[place] = packet
    return with_values(form, packets=packets)


def packet_words(form: Form, place: int) -> str:
    """A packet by its NID_PACKET and its place in the telegram."""
    number = form["packets"][place]["nid_packet"]
    return f"packet {number} ({packet_name(number)}), {ordinal(place)} in the telegram"


def group_of(evidence: Evidence, row: int) -> Group:
    """The group of a row."""
    return evidence.groups[evidence.rows[row].group]


def _of_directions(evidence: Evidence, row: int) -> Iterator[Correction]:
    """A packet for another direction than all others of its telegram; or a telegram whose packets are all turned."""
    form, group = evidence.forms[row], group_of(evidence, row)
    directions = {place: packet["q_dir"] for place, packet in enumerate(form["packets"]) if "q_dir" in packet}
    counts = Counter(directions.values())
    if len(counts) == 2:
        (usual, many), (other, few) = counts.most_common()
        for place, own in directions.items() if few == 1 else ():
            if own == other:
                yield _with_direction(evidence, row, place, usual)
        for place, own in directions.items() if many == few == 1 else ():
            if own == usual:
                yield _with_direction(evidence, row, place, other)
    elif len(counts) == 1 and 2 not in counts and len(directions) > 1:
        (own,) = counts
        if not _may_be_turned(evidence, row, 1 - own):
            return
        sent: Sequence[Any] = form["packets"]
        packets = [{**packet, "q_dir": 1 - own} if "q_dir" in packet else packet for packet in sent]
        sentence = f"all packets of the telegram are for {DIRECTIONS[own]}: for {DIRECTIONS[1 - own]} they would agree"
        forms = {row: with_values(form, packets=packets)}
        yield Correction(group, (row,), sentence, forms=forms, values={"Q_DIR": str(own)})


def _may_be_turned(evidence: Evidence, row: int, wanted: int) -> bool:
    """Whether a telegram may be meant for the other direction.

    Aspects that agree with each other may be wrong together. So one that stops trains is turned only if another balise
    of its group shows the direction: else the trains that it stops would pass at danger.
    """
    group = group_of(evidence, row)
    if all(packet.get("v_main") != 0 for packet in evidence.forms[row]["packets"]):
        return True
    others = (each.number for each in group.each_row if group.places[each.number] != group.places[row])
    said = {packet.get("q_dir", BOTH) for each in others for packet in evidence.forms[each]["packets"]}
    return said - {BOTH} == {wanted}


def _with_direction(evidence: Evidence, row: int, place: int, wanted: int) -> Correction:
    form = evidence.forms[row]
    own = form["packets"][place]["q_dir"]
    sentence = (
        f"{packet_words(form, place)}: Q_DIR {own} is for {DIRECTIONS[own]}: with Q_DIR {wanted}, for "
        f"{DIRECTIONS[wanted]} as the other packets of the telegram, all would agree"
    )
    made = with_packet(form, place, {**form["packets"][place], "q_dir": wanted})
    return Correction(group_of(evidence, row), (row,), sentence, forms={row: made}, values={"Q_DIR": str(own)})


def _choices(evidence: Evidence) -> Iterator[Correction]:
    """Packets of one number that are for both directions in many telegrams, beside packets for one direction."""
    if not any(entry.rule == "L9" for entry in evidence.entries):
        return
    found: Dict[int, Dict[int, Form]] = {}
    for row, form in evidence.forms.items():
        directions = {packet["q_dir"] for packet in form["packets"] if packet.get("q_dir", 2) != 2}
        for place, packet in enumerate(form["packets"]) if len(directions) == 1 else ():
            if packet.get("q_dir") == 2:
                (wanted,) = directions
                own = found.setdefault(packet["nid_packet"], {})
                own[row] = with_packet(own.get(row, form), place, {**packet, "q_dir": wanted})
    for number, forms in sorted(found.items(), key=lambda each: -len(each[1])):
        yield from [_choice(evidence, number, forms)] if len(forms) > 1 else ()


def _choice(evidence: Evidence, number: int, forms: Mapping[int, Form]) -> Correction:
    rows = tuple(sorted(forms))
    sentence = (
        f"packet {number} ({packet_name(number)}) has Q_DIR 2 (both directions) in {len(rows)} telegrams whose other "
        "packets are for one direction: a group therefore counts as saying something in the other one, too. With the "
        "direction of the other packets, all would agree"
    )
    values = {"Q_DIR": "2", "telegrams": str(len(rows))}
    return Correction(group_of(evidence, rows[0]), rows, sentence, forms=forms, values=values)


def _of_siblings(evidence: Evidence, row: int) -> Iterator[Correction]:
    """Each packet of a telegram as the same balise has it in another aspect."""
    group, form, tried = group_of(evidence, row), evidence.forms[row], set()  # type: Group, Form, Set[Tuple[int, str]]
    siblings = [aspect.rows[group.places[row]].number for aspect in group.aspects]
    for place, packet in enumerate(form["packets"]):
        for sibling in dict.fromkeys(each for each in siblings if each != row):
            other = _alike(evidence.forms[sibling], packet["nid_packet"])
            if other is not None and other != packet and (place, repr(other)) not in tried:
                tried.add((place, repr(other)))
                made = with_packet(form, place, other)
                words = f"{packet_words(form, place)}: as in row {sibling} it would agree"
                yield Correction(group, (row,), words, forms={row: made})


def _of_infill(evidence: Evidence, entry: Entry) -> Iterator[Correction]:
    """The packets that E15 compares: those of an infill as its signal has them, and those of the signal as the infill.

    Each keeps its Q_DIR.
    """
    compared = {where.row.number for where in entry.remark.compared if where.row} if entry.remark else set()
    signals = tuple(sorted(compared))
    if not signals or not {*compared, *entry.rows} <= evidence.rows.keys():
        return
    own, its = entry.rows, rows_words(signals)
    infill = {row: _as_in(evidence, row, signals) for row in own}
    signal = {row: _as_in(evidence, row, own) for row in signals}
    words = f"{entry.sentence}; with the packets of {its} it would agree"
    other = f"{its} with the packets of {rows_words(own)} would agree"
    made = Correction(group_of(evidence, own[0]), own, words, values=entry.values, rule="E15", least=1)
    made = made._replace(both=f"{words}, or {other}")
    yield from [made._replace(forms=infill)] if _changes(evidence, infill) else ()
    group, sentence = group_of(evidence, signals[0]), f"infill in {rows_words(own)}: {entry.sentence}; {other}"
    turned = made._replace(group=group, rows=signals, sentence=sentence, forms=signal)
    yield from [turned] if _changes(evidence, signal) else ()


def _changes(evidence: Evidence, forms: Mapping[int, Form]) -> bool:
    """Whether telegrams are others than those of the table."""
    return any(form != evidence.forms[row] for row, form in forms.items())


def _as_in(evidence: Evidence, row: int, others: Sequence[int]) -> Form:
    """A telegram whose packets that E15 compares are those of other telegrams. In infill they follow a packet 136."""
    made, numbers = evidence.forms[row], [packet["nid_packet"] for packet in evidence.forms[row]["packets"]]
    begin = numbers.index(INFILL) if INFILL in numbers else -1
    for place, packet in enumerate(made["packets"]):
        found = (_alike(evidence.forms[each], packet["nid_packet"]) for each in others)
        other = next((each for each in found if each), None)
        if other and place > begin and packet["nid_packet"] in COMPARED:
            made = with_packet(made, place, {**other, "q_dir": packet["q_dir"]})
    return made


def _alike(form: Form, number: int) -> Optional[Mapping[str, Any]]:
    """The one packet of a telegram with this number."""
    found: Sequence[Any] = [packet for packet in form["packets"] if packet["nid_packet"] == number]
    return found[0] if len(found) == 1 else None

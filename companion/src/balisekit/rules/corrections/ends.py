"""Profiles of one telegram that end elsewhere than those of all other signals."""
from __future__ import annotations

from decimal import Decimal
from typing import Any, Dict, Iterator, List, Optional, Tuple

from balisekit.engine.records import Form
from balisekit.etcs.geometry import ELEMENT_KEYS
from balisekit.etcs.variables import unit_dm
from balisekit.rules.corrections.correction import Correction, Evidence
from balisekit.rules.corrections.packets import group_of, with_packet
from balisekit.rules.entries import Entry


def suggest(evidence: Evidence) -> Iterator[Correction]:
    """The profiles of each telegram that E4 names, with the end that others have."""
    by_row: Dict[Tuple[int, ...], List[Entry]] = {}
    for entry in evidence.entries:
        if entry.rule == "E4" and "others_beyond_m" in entry.values:
            by_row.setdefault(entry.rows, []).append(entry)
    for rows, entries in by_row.items():
        made = {row: _with_ends(evidence.forms[row], entries) for row in rows if row in evidence.rows}
        if made and all(form is not None for form in made.values()):
            forms = {row: form for row, form in made.items() if form is not None}
            words = f"{entries[0].sentence}; with that end all would agree"
            yield Correction(group_of(evidence, rows[0]), rows, words, forms=forms, values=entries[0].values, rule="E4")


def _with_ends(form: Form, entries: List[Entry]) -> Optional[Form]:
    """A telegram whose profiles end where others do. None if a profile cannot end there."""
    made: Optional[Form] = form
    for entry in entries:
        values = entry.values
        farther = int((Decimal(values["others_beyond_m"]) - Decimal(values["beyond_m"])) * 10)
        for place, packet in enumerate(form["packets"]):
            if made is not None and packet["nid_packet"] == entry.packet:
                own = _moved(packet, farther)
                made = with_packet(made, place, own) if own else None
    return made


def _moved(packet: Any, decimetres: int) -> Optional[Any]:
    """A profile whose end mark is so much farther, without the elements that it would pass."""
    distance, value, mark = ELEMENT_KEYS[packet["nid_packet"]]
    elements, farther = [dict(each) for each in packet["elements"]], round(decimetres / unit_dm(packet))
    if elements[-1][value] != mark:
        return None
    elements[-1][distance] += farther
    while elements[-1][distance] <= 0 and len(elements) > 2:
        elements[-1][distance] += elements[-2][distance]
        del elements[-2]
    return {**packet, "elements": elements} if elements[-1][distance] > 0 else None

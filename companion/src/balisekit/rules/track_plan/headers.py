"""What the headers of a group are beside its row of the design."""
from __future__ import annotations

from typing import Dict, Iterator, List

from balisekit.design.groups import DesignedGroup
from balisekit.engine.records import Header
from balisekit.rules.passages import GroupData
from balisekit.rules.track_plan.placed import PlacedPlan
from balisekit.tables.model import Row
from balisekit.tables.names import rows_words
from balisekit.tables.plan import PlanRow


def differing_headers(placed: PlacedPlan, data: GroupData, group: DesignedGroup) -> Iterator[str]:
    """What differs in the headers: each other value once, with its rows."""
    terms = group.row.group_terms
    balises = terms.balises or len(terms.kilometres)
    rows: Dict[str, List[int]] = {}
    for row, header in ((number, telegram.header) for number, telegram in data.telegrams.items()):
        _compare_header(placed, group.row, data.telegrams[row].row, header)
        identity = header.nid_c, header.nid_bg
        if terms.identity and identity != terms.identity:
            own, wanted = (f"{each[0]}/{each[1]}" for each in (identity, terms.identity))
            rows.setdefault(f"NID_C and NID_BG are {own}{{}}, and {wanted}", []).append(row)
        if balises and header.n_total + 1 != balises:
            text = f"N_TOTAL is {header.n_total} ({header.n_total + 1} balises){{}}, and {balises - 1}"
            rows.setdefault(text, []).append(row)
        if terms.is_linked is not None and bool(header.q_link) != terms.is_linked:
            rows.setdefault(f"Q_LINK is {int(header.q_link)}{{}}, and {int(terms.is_linked)}", []).append(row)
    for text, numbers in rows.items():
        yield text.format("" if len(numbers) == len(data.telegrams) else f" in {rows_words(sorted(numbers))}")


def _compare_header(placed: PlacedPlan, row: PlanRow, own: Row, header: Header) -> None:
    """Which variables of the header of the telegram in this row are those of the plan, as far as it states them.

    The balise at the kilometre that the plan has for a place in the group has to send this place as its N_PIG.
    """
    terms = row.group_terms
    nid_c, nid_bg = terms.identity or (None, None)
    wanted = {"nid_c": nid_c, "nid_bg": nid_bg, "n_total": terms.balises and terms.balises - 1}
    for key, value in (*wanted.items(), ("q_link", terms.is_linked)):
        if value is not None:
            placed.confirmed.of_header(row, own.number, key, getattr(header, key) == value)
    if header.n_pig < len(terms.kilometres) and terms.kilometres[header.n_pig] == own.km:
        placed.confirmed.of_header(row, own.number, "n_pig", True)

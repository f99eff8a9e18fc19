"""X11: radio block centre or network other than in the plan.

What it says. A packet 42 or 131 names an RBC that no row `radio` of the plan has, or gives its RBC another telephone
number than the plan. The same holds for the radio network of packet 45. The rule also reports a row that no such packet
names. It rests on SUBSET-026, 7.4.2 and 7.5.1.
- RBCs are only compared if the plan lists one, and networks likewise. A row without `phone` has any number.
- Packets of radio messages and packets that follow a packet 136 are compared too.
- The RBC that the train had before (NID_RBC 16,383) is not compared. The number of a packet 42 with Q_RBC 0 is not
  compared either, because it ends the session.
- A row is not reported if a telegram of the table is refused.

Why it matters. At worst the train gets wrong information: it calls nobody, or another RBC than that of its track.

Example. Before (`examples/meaning/level-border.csv` with `--plan` `examples/meaning/plan.csv`): row 102 of the plan has
the RBC 352/17, and no packet 42 or 131 names it. After: a packet 42 has the identity and the number of this RBC.

When it is a false alarm. The rule assumes that the plan lists all RBCs and networks of the line, if it lists one. It
assumes that trains get the number of an RBC from packets of this table, and not only from tables of other lines. It
assumes that the layouts of these packets are as balisekit believes.

Usual cause. A digit of the number is wrong, or the number of the RBC has changed since the telegrams were made.

How to correct it. Correct NID_RBC, NID_RADIO or NID_MN, or the row of the plan.

How to accept it. Name the table with the packets of this RBC, or state which other number it has.
"""
from __future__ import annotations

from collections import Counter
from typing import Any, Dict, Iterator, List, Sequence, Set, Tuple

from balisekit.rules.line import Line
from balisekit.rules.location import Location
from balisekit.rules.meaning.sent import located, sent
from balisekit.rules.rule import Options, Remark, Result, Rule, Urgency
from balisekit.rules.telegrams import Packet
from balisekit.rules.track_plan.borders import LAST_KNOWN, NOT_DECODED
from balisekit.rules.track_plan.placed import SAYS_NOTHING, Counts, PlacedPlan, cells_of, plan_words
from balisekit.rules.track_plan.x9_not_listed import REFUSED
from balisekit.tables.plan import PlanRow, rows_named
from balisekit.tables.plan_things import SHORT

SESSION, TRANSITION, NETWORK = 42, 131, 45
KEYS = {SESSION: "rbc", TRANSITION: "rbc", NETWORK: "network"}
"""The key of a row that says what a packet names."""
NAMES = {"rbc": "NID_C and NID_RBC are", "network": "NID_MN is"}
PACKETS = {"rbc": "packet 42 or 131", "network": "packet 45"}
THE_LAST = "the RBC that was known last"


def find(line: Line, options: Options) -> Result:
    """Compares each packet that names an RBC or a network, then looks for rows that none names."""
    placed, counts = PlacedPlan(line, options), Counter[str]()
    by_name: Dict[Tuple[str, object], PlanRow] = {}
    for row in placed.plan.of_kind("radio"):
        key = "rbc" if "rbc" in row.terms else "network"
        by_name.setdefault((key, row.terms[key]), row)
    listed = {key for key, _ in by_name}
    found: Dict[Tuple[str, Sequence[str]], List[Location]] = {}
    for owner, packet in sent(line.decoded, *KEYS) if listed else ():
        for said in _differing(placed, packet, by_name, listed, counts):
            found.setdefault(said, []).append(located(owner, packet))
    remarks = [Remark("X11", where, said, also=also, facts=facts) for (said, facts), (where, *also) in found.items()]
    stated = placed.confirmed.met.keys() | placed.confirmed.contradicted.keys()
    left = [(key, row) for (key, _), row in by_name.items() if row.number not in stated]
    is_read = not any(data.group.unread for data in line.decoded.groups)
    placed.confirmed.uncovered.update(row.number for _, row in left if is_read)
    counts["" if is_read else REFUSED] += len(left)
    remarks += [_unnamed(key, row) for key, row in left] if is_read else []
    return placed.result(["radio"], remarks, +counts)


def _differing(
    placed: PlacedPlan, packet: Packet, by_name: Dict[Tuple[str, object], PlanRow], listed: Set[str], counts: Counts
) -> Iterator[Tuple[str, Sequence[str]]]:
    """What differs in one packet, and the rows on which that rests."""
    key = KEYS[packet.number]
    form: Any = packet.form
    is_decoded = "nid_mn" in form if key == "network" else "nid_radio" in form
    why = "" if is_decoded and key in listed else SAYS_NOTHING if is_decoded else NOT_DECODED
    if not why and form.get("nid_rbc") == LAST_KNOWN:
        why = THE_LAST
    counts[why] += 1
    if why:
        return
    own = f"{form['nid_c']}/{form['nid_rbc']}" if key == "rbc" else f"{form['nid_mn']:06x}".rstrip("f")
    row = by_name.get((key, own))
    if row is None:
        rows = [each for (kind, _), each in by_name.items() if kind == key]
        what = "row radio of the plan has it" if len(rows) > 1 else "row of the plan has it"
        yield f"{NAMES[key]} {own}, and no {what}", tuple(map(cells_of, rows))
        return
    number = f"{form.get('nid_radio', 0):016x}".rstrip("f") or SHORT
    is_other = "phone" in row.terms and form.get("q_rbc", 1) == 1 and number != row.terms["phone"]
    (placed.confirmed.contradict if is_other else placed.confirmed.confirm)([row], packet, ())
    if is_other:
        words = f"NID_RADIO of the RBC {own} is {number}, and {row.terms['phone']} by {plan_words(row, with_km=False)}"
        yield words, (cells_of(row),)


def _unnamed(key: str, row: PlanRow) -> Remark:
    """A row that no packet names."""
    name = f"{'RBC' if key == 'rbc' else 'network'} {row.terms[key]}"
    sentence = f"no {PACKETS[key]} names the {name}, which {rows_named([row])} has"
    return Remark("X11", Location(listed=name), sentence, texts={"plan_name": name}, facts=[cells_of(row)])


RULE = Rule("X11", "radio centres of the plan", __doc__ or "", find, Urgency.WRONG_INFORMATION)

"""ACME-7: an overlap that is shorter than on other lines.

What it says. D_OL is less than 250 m, which ACME plans for each main signal.

Why it matters. A train that brakes late may pass the end of the overlap.

Example. Before (`examples/table/line.csv`): in row 22 the overlap is 200 m long. After: it is 250 m long.

When it is a false alarm. The rule assumes that no place has an approved overlap of its own.

How to correct it. Correct D_OL, and the profiles up to the end of the overlap.
"""
from typing import Iterator

from balisekit import AddedRule, Answer, LineView


def find(line: LineView) -> Iterator[Answer]:
    """Looks at each overlap."""
    for telegram in line.telegrams:
        for packet in telegram.packets(12):
            if "overlap" in packet.form:
                length = packet.metres(packet.form["overlap"]["d_ol"])
                yield packet.remark(d_ol_m=length) if length < 250 else None


RULE = AddedRule("ACME-7", __doc__, "overlaps", "D_OL is {d_ol_m} m, and less than 250 m", find, "braking")

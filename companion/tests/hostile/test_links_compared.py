"""What `links` says of what it has not compared: no rule that compared nothing ends with "none found" and status 0."""
from __future__ import annotations

from pathlib import Path
from typing import Any, Callable, Dict, List, Sequence, Tuple

import pytest
from conftest import Run
from link_tables import link, linking, telegram

from balisekit.engine.program import Program, Text

Write = Callable[..., Path]
Form = Dict[str, Any]


def chain_of_groups(program: Program, balises: int, kms: Sequence[str], nominal: str = "", by: int = 5000) -> List[str]:
    """Groups that each link the next one: 1,000 m ahead, `by` metres by D_LINK, and with a wrong orientation."""
    items: List[Tuple[str, str, Form]] = []
    for number, km in enumerate(kms):
        packets = [linking(1, link(by, number + 2, 0))] if number + 1 < len(kms) else []
        for place in range(balises):
            form = telegram(number + 1, place, balises - 1, 1, *(packets if place == 0 else []))
            items.append((f"G{number}", km, form))
    texts = [each.line for each in program.encode([form for _, _, form in items]) if isinstance(each, Text)]
    return [f"{name},{km},{nominal},{text}" for (name, km, _), text in zip(items, texts)]


HEADING = "group,km,nominal,telegram"
KMS = ["0", "1", "2", "3", "4", "5"]


@pytest.mark.parametrize(
    "balises, kms, nominal, by, status, last",
    [
        (2, KMS, "rising", 5000, 1, ["links: 10 found (L2 5, L3 5)", "compared: 5 links (L1, L2, L3)"]),
        (2, KMS, "", 5000, 1, ["links: 9 found (L2 5, L3 4)", "compared: 5 links (L1, L2), 4 links (L3)"]),
        (2, KMS, "", 1000, 1, ["links: 4 found (L3 4)", "compared: 5 links (L1, L2), 4 links (L3)"]),
        (1, KMS, "", 5000, 1, ["links: 5 found (L2 5) in 6 groups", "compared: 5 links (L1, L2), 0 links (L3)"]),
        (
            1,
            KMS,
            "",
            1000,
            0,
            ["links: none found of L1 to L9 in 6 groups", "compared: 5 links (L1, L2), 0 links (L3)"],
        ),
        (1, KMS[::-1], "", 1000, 0, ["links: none found of L1 to L9 in 6 groups", "compared: 5 links (L1, L2)"]),
        (
            1,
            ["0", "", "", "", "", ""],
            "rising",
            5000,
            2,
            ["INCOMPLETE: L2 compared none of 5 links (no kilometre: 5), L9 compared none of 5 pairs"],
        ),
        (1, ["0", "1", "", "", "", ""], "rising", 1000, 0, ["1 of 5 links (L2)", "1 of 5 pairs (L9)"]),
        (1, ["0"], "", 5000, 0, ["links: none found of L1 to L9 in 1 group;", "compared: 0 links (L1, L2, L3)"]),
    ],
    ids=["direction", "by-links", "by-links-right", "single", "single-right", "down", "one-km", "two-km", "no-links"],
)
def test_what_was_not_compared(
    program: Program,
    run: Run,
    table: Write,
    balises: int,
    kms: Sequence[str],
    nominal: str,
    by: int,
    status: int,
    last: Sequence[str],
) -> None:
    path = table(HEADING, *chain_of_groups(program, balises, kms, nominal, by))
    answer, out, _ = run("links", path)
    assert answer == status and all(words in out[-1] for words in last), out[-1]


def test_links_to_another_track_are_counted(program: Program, run: Run, table: Write) -> None:
    rows = chain_of_groups(program, 1, ["0", "1"], "rising")
    lines = [f"{row},{track}" for row, track in zip(rows, "12")]
    status, out, _ = run("links", table(f"{HEADING},track", *lines))
    assert status == 2
    assert out[-1].startswith("INCOMPLETE: L2 compared none of 1 link (another track: 1), L9 compared none of 1 pair (")


def test_a_link_that_turns_back(program: Program, run: Run, table: Write) -> None:
    """Without a direction the first link shows it: the second one, to the other side, does not pass by its length."""
    chain = linking(1, link(1000, 2, 1), link(1000, 3, 1))
    forms = [telegram(1, 0, 0, 1, chain), telegram(2, 0, 0, 1), telegram(3, 0, 0, 1)]
    texts = [each.line for each in program.encode(forms)]
    lines = [f"G{number},{km},,{text}" for number, km, text in zip((1, 2, 3), (10, 11, 8), texts)]
    status, out, _ = run("links", table(HEADING, *lines))
    assert (
        status == 1
        and "second link: G3 (km 8.000) is 2000 m from G1 (km 10.000) by D_LINK, and 2000 m in rear of it" in out[-2]
    )


def test_many_notes_are_counted(program: Program, run: Run, table: Write) -> None:
    rows = chain_of_groups(program, 1, [""] * 40 + ["1"], by=1000)
    out = run("links", table(HEADING, *rows))[1]
    notes = [line for line in out if line.startswith("note: ") and "no kilometre" in line]
    assert len(notes) == 21 and notes[-1] == "note: and 20 more: it has no kilometre: L2 and L9 do not look at it"

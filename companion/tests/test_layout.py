"""The walk of the bits, compared with every case: the field of a refusal, and the numbers of the JSON."""
from __future__ import annotations

import json
from typing import List

import pytest
from cases_of_program import EXAMPLES, Case, accepted, cases, value_at

from balisekit.engine import grammar
from balisekit.etcs import layout


def refused() -> List[Case]:
    """The cases whose refusal names a bit."""
    return [case for case in cases() if case.answer.startswith("refused: ") and " at " in case.answer]


def test_there_are_cases() -> None:
    """The list of cases is not empty."""
    assert len(refused()) > 2000 and len(accepted()) > 500


@pytest.mark.uncovered
def test_a_refusal_points_at_a_field() -> None:
    """Each refusal begins at a field. Its end is the end of that field if only this field decides it."""
    for case in refused():
        refusal = grammar.refusal("decode", case.answer)
        assert refusal is not None and refusal.at is not None and refusal.end is not None
        bits = layout.user_bits(case.text)
        fields = {field.at: field for field in layout.telegram_fields(bits)}
        if refusal.why == "no end":
            assert refusal.at in fields or refusal.at == len(bits), case
            continue
        field = fields[refusal.at]
        if refusal.why in ("spare", "version", "loop", "down-link"):
            assert field.at + field.width == refusal.end, case
        elif refusal.why == "length":
            assert field.name == "L_PACKET", case
        else:
            assert refusal.why == "short" and not field.whole, case


@pytest.mark.uncovered
@pytest.mark.parametrize("radio", [False, True])
def test_numbers_are_those_of_the_json(radio: bool) -> None:
    """Each number of the JSON is a field's, and each field that the JSON writes has its number."""
    some = EXAMPLES[True] if radio else [*accepted(), *EXAMPLES[False]]
    assert some
    for case in some:
        form = json.loads(case.answer)
        walk = (
            layout.message_fields(layout.bits_of(case.text))
            if radio
            else layout.telegram_fields(layout.user_bits(case.text))
        )
        found = {}
        for field in walk:
            rest = field.digits
            for path, width in field.parts:
                found[path], rest = rest[:width], rest[width:]
        numbers = {path: int(digits, 2) for path, digits in found.items() if not path.endswith("/body")}
        wanted = {path: value for path, value in value_at(form) if isinstance(value, int)}
        assert numbers == {path: value for path, value in wanted.items() if path != "/user_bits"}, case
        for path, digits in found.items():
            if path.endswith("/body"):
                body = dict(value_at(form))[path]
                assert layout.bits_of(str(body), len(digits)) == digits, case

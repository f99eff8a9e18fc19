"""The form of records: the package and the schemas accept the same objects."""
from __future__ import annotations

import copy
import json
import re
from functools import lru_cache, reduce
from itertools import product
from operator import getitem
from typing import Any, Dict, Iterator, List, Set, Tuple

import pytest
from cases_of_program import EXAMPLES, accepted
from test_check_outputs import schema

from balisekit.engine import records

pytest.importorskip("jsonschema")
hypothesis = pytest.importorskip("hypothesis")
from hypothesis import given, strategies as st  # noqa: E402

pytestmark = pytest.mark.uncovered
EXPRESSIONS = {"telegram": records.telegram_expression, "message": records.message_expression}
PARTS = 8
"""The parts of the longest test, for several processes."""
SHORT = {"nid_packet": 0, "nid_vbcmk": 0}
OTHERS: Tuple[Any, ...] = (None, True, "", "0", "00", "0g", [], {}, [{}], 0, 1)
"""Values instead of a text, a list or an object."""
LIMITS = {"nid_packet": list(records.FROM_TRACK), "l_packet": [head for head, _ in records.BODIES.values()]}
"""Numbers within the range of a key that also decide what is accepted."""


@lru_cache(maxsize=None)
def lines() -> List[Tuple[str, str]]:
    """The records of all cases and examples, and what each is."""
    telegrams = [("telegram", case.answer) for case in (*accepted(), *EXAMPLES[False])]
    return [*telegrams, *(("message", case.answer) for case in EXAMPLES[True])]


def numbers(key: str) -> Set[int]:
    """Small numbers, on which other keys may depend, and those at both sides of each limit of a key."""
    parts = [*records.allowed(key), *LIMITS.get(key, ())]
    limits = {limit for part in parts for limit in ((part,) if isinstance(part, int) else (part[0], part[-1]))}
    return {*range(-1, 4), *(limit + more for limit in limits for more in (-1, 0, 1))}


def values(form: Any, path: Tuple[Any, ...]) -> Tuple[Any, ...]:
    """What the value at a path is replaced by."""
    is_number = isinstance(path[-1], str) and isinstance(reduce(getitem, path, form), int)
    return (None, True, "0", [], {}, *sorted(numbers(path[-1]))) if is_number else OTHERS


def line(form: Any) -> str:
    """The object as the program writes it."""
    return json.dumps(form, sort_keys=True, separators=(",", ":"))


def agree(name: str, form: Any) -> bool:
    """Whether the form is accepted, by the schema and by the package."""
    matches = EXPRESSIONS[name]().fullmatch(line(form)) is not None
    assert matches == schema(name).is_valid(form), (name, form)
    return matches


def places(form: Any, path: Tuple[Any, ...] = ()) -> Iterator[Tuple[Any, ...]]:
    """The path of each value within a form."""
    for key, value in form.items() if isinstance(form, dict) else enumerate(form) if isinstance(form, list) else ():
        yield (*path, key)
        yield from places(value, (*path, key))


def changed(form: Any, path: Tuple[Any, ...], key: Any, value: Any = ...) -> Any:
    """The form in which the object around this path's value has another value at a key, or lacks the key."""
    form = copy.deepcopy(form)
    within = form
    for step in path[:-1]:
        within = within[step]
    if value is ...:
        del within[key]
    else:
        within[key] = value
    return form


def test_examples_and_cases_are_accepted() -> None:
    assert len(lines()) > 500
    assert all(agree(name, json.loads(text)) for name, text in lines())
    assert all(EXPRESSIONS[name]().fullmatch(text) for name, text in lines())


def with_few_packets() -> Iterator[Tuple[str, str]]:
    """Telegrams with one packet, or with a short one before it, and all messages: what is short is read sooner."""
    for name, text in lines():
        form = json.loads(text)
        if name == "message" or not form["packets"]:
            yield name, text
        else:
            several = ([SHORT, packet][place:] for packet in form["packets"] for place in (0, 1))
            yield from ((name, line({**form, "packets": packets})) for packets in several)


def keys(form: Any, path: Tuple[Any, ...]) -> Tuple[Any, ...]:
    """The keys of a path, after the number of its packet. Of lists only the first item differs from the others.

    All packets that are kept as bits have one form.
    """
    packet: Dict[str, Any] = form["packets"][path[1]] if len(path) > 1 and path[0] == "packets" else {}
    number = "kept as bits" if "body" in packet else packet.get("nid_packet")
    return (number, *(step if isinstance(step, str) else min(step, 1) for step in path))


@lru_cache(maxsize=None)
def first_places() -> List[Tuple[str, Any, Tuple[Any, ...]]]:
    """For each place that telegrams or messages have, by its keys, the shortest record that has it."""
    found: Dict[Tuple[Any, ...], Tuple[str, Any, Tuple[Any, ...]]] = {}
    for name, text in sorted(set(with_few_packets()), key=lambda pair: (len(pair[1]), pair)):
        form = json.loads(text)
        for path in places(form):
            found.setdefault((name, keys(form, path)), (name, form, path))
    return list(found.values())


@pytest.mark.parametrize("part", range(PARTS))
def test_each_key_is_needed_and_each_value_has_its_range(part: int) -> None:
    """Without each key, with an additional one, and with each of some values instead of its own."""
    assert len(first_places()) > 300
    for name, form, path in first_places()[part::PARTS]:
        assert agree(name, form)
        key = path[-1]
        for value in values(form, path):
            agree(name, changed(form, path, key, value))
        agree(name, changed(form, path, key))
        if isinstance(key, str):
            agree(name, changed(changed(form, path, key), path, f"{key}_", 0))
            agree(name, changed(form, path, "nid_c", 0))


def test_commas_of_lists() -> None:
    """One too many or too few between objects, after the last or before the first one is not accepted."""
    changes = (("},{", "}{"), ("},{", "},,{"), ("}]", "},]"), ("[{", "[,{"), ("[]", "[,]"), ("}]", "}"))
    texts = {(name, line(form)) for name, form, _ in first_places()}
    for (name, text), (there, wrong) in product(texts, changes):
        for at in (match.start() for match in re.finditer(re.escape(there), text)):
            assert not EXPRESSIONS[name]().fullmatch(text[:at] + wrong + text[at + len(there) :])


@given(st.data())  # type: ignore[misc]
def test_several_changes(data: st.DataObject) -> None:
    name, text = data.draw(st.sampled_from(lines()))
    form = json.loads(text)
    for _ in range(data.draw(st.integers(1, 4))):
        path = data.draw(st.sampled_from(list(places(form))))
        form = changed(form, path, path[-1], data.draw(st.sampled_from(values(form, path))))
    agree(name, form)

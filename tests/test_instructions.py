"""How many instructions the commands take for fixed inputs, counted by valgrind.

Fast paths are in front of slow paths that give the same answers, so no other test notices that one is never taken. Each
input takes some of them so often that losing one costs more than the 3 % by which a count may differ from its budget,
the count of the stored program. After a change that makes the program faster, the new counts are the budgets.
Not guarded: a header's fields read at once, bits that fit into the last byte, rules about single balises asked at once.
"""
import functools
import json
import platform
import shutil

import pytest

from cases import FORM
from measure import instructions
from runner import EXAMPLES, program, run

BUDGETS = {
    # Elements whose fields are read at once, fields far from the end, digits of messages.
    "links": 573754, "gradients": 623030, "speeds": 998550, "differences": 971030, "level orders": 720539,
    "sections": 493318, "parts": 888258,
    "pairs": 2867151,  # documents read from their tokens, in either order and with blanks; equal packets compared once
    "findings": 3233557,  # groups with findings found in one walk, digits of telegrams
    "decode": 893774,  # members of a line after one check of capacity, numbers of three and of five digits
    "decode short": 336325,  # capacity for seven packets
    "decode --radio": 435572,  # digits of a stream, fields in the last bytes
    "encode": 622189, "encode --radio": 730913,  # lines as `decode` writes them
}


def example(name, line=0):
    """The form in this line of an example."""
    return json.loads((EXAMPLES / f"{name}.json").read_text().splitlines()[line])


def packet(name, key, count, **others):
    """The first packet of an example. Its list has the first item this many times, with other values of some keys."""
    form = example(name)["packets"][0]
    return {**form, key: [{**form[key][0], **others}] * count}


def encoded(forms, *option):
    """The texts of telegrams or messages, and their lines of JSON."""
    lines = "".join(f"{FORM.encode(form)}\n" for form in forms)
    return run(("encode", *option), lines).stdout, lines


SINGLE, PAIR = example("header-only"), (example("duplicated-pair"), example("duplicated-pair", 1))
AUTHORITY, *PROFILES = example("authority-with-profiles")["packets"]
PARTS = {**packet("movement-authority-level-1", "sections", 31, l_section=10), "l_endsection": 10}
DIFFERENCES = example("speeds")["packets"][0]["elements"][0]["differences"][:1] * 31
# A packet of each kind, and how many of them a message has.
KINDS = {
    "links": (packet("linking", "links", 32), 6), "gradients": (packet("gradients", "elements", 32), 9),
    "speeds": (packet("speeds", "elements", 32, differences=[]), 8),
    "differences": (packet("speeds", "elements", 1, differences=DIFFERENCES), 17),
    "level orders": (packet("level-transition", "transitions", 32), 12),
    "sections": (PARTS, 5), "parts": ({**PARTS, "sections": []}, 40)}


def pairs(packets, heads=PAIR):
    """A hundred groups of two balises with these packets."""
    forms = [{**head, "nid_bg": it, "packets": packets, "user_bits": 830} for it in range(100) for head in heads]
    texts = encoded(forms)[0].split()
    return [{"balises": it} for it in zip(texts[::2], texts[1::2])]


@functools.lru_cache(None)
def inputs():
    """The words, the input and the beginning of the answer for each budget."""
    found, message = {}, example("radio-movement-authority")
    for name, (form, count) in KINDS.items():
        packets = [*message["packets"], *PROFILES, *[form] * count]
        texts, _ = encoded([{**message, "packets": packets}] * 20, "--radio")
        found[name] = "check", FORM.encode({"groups": [], "messages": texts.split()}), "yes: groups 0, messages 20\n"
    equal = pairs([{"body": "", "l_packet": 23, "nid_packet": 44, "q_dir": it % 2} for it in range(33)])
    found["pairs"] = "check", json.dumps({"messages": [], "groups": equal}, indent=1), "yes: groups 100, messages 0\n"
    short = [{**AUTHORITY, "l_endsection": 1010}, *PROFILES]
    groups = pairs(short)[:50] + pairs(short, (SINGLE, {**SINGLE, "m_mcount": 254}))[50:]
    found["findings"] = "check", FORM.encode({"groups": groups, "messages": []}), "no: findings 500\n"
    gradients = packet("gradients", "elements", 30, d_gradient=30000, g_a=200)
    texts, forms = encoded([{**SINGLE, "packets": [gradients], "user_bits": 830}] * 20)
    found["decode"] = "decode", texts * 5, forms * 5
    found["encode"] = "encode", forms, texts
    found["decode short"] = "decode", *encoded([{**SINGLE, "packets": [{"nid_packet": 0, "nid_vbcmk": 17}] * 5}] * 100)
    texts, forms = encoded([example("radio-two-groups-report")] * 100, "--radio")
    found["decode --radio"] = "decode --radio", texts, forms
    found["encode --radio"] = "encode --radio", forms, texts
    return found


@pytest.mark.parametrize("name", BUDGETS)
def test_budget(name, tmp_path):
    """The answer is right, and the count is within 3 % of its budget."""
    if not shutil.which("valgrind") or platform.machine() != "x86_64":
        pytest.skip("counts of instructions (valgrind)")
    words, given, wanted = inputs()[name]
    (tmp_path / "input").write_text(given)
    assert run(words.split(), given).stdout.startswith(wanted)
    assert 0.97 < instructions([program(), *words.split()], tmp_path / "input") / BUDGETS[name] < 1.03

"""Refused memory: each request is refused in turn, by itself and with all later ones. The program reports it after a
beginning of its answer, or answers as before. Calls of the crates are tried by their own tests. After that, limits of
memory and of the stack."""
import os
import random
import re
import shutil
import subprocess
import sys

import pytest

from corpus import FORM, MESSAGE, MESSAGE_FORM, SHORT, long_jobs, runs_of, undisturbed
from hostile import (ALL, CHECK, COMMANDS, DECODE_RADIO, ENCODE, ENCODE_RADIO, GROUPS, STACK, Job, Plan, Program,
                     disturbed, shared, stops)
from runner import MEMORY, TOP, Answer, answered, run

WORDS = pytest.mark.parametrize("words", [*COMMANDS, ()], ids=" ".join)
NAMED = os.environ.get("BALISECHECK_TESTS")  # what `rt ci` builds of these two crates, with a colon between them
CRATES = [str(TOP / "crates" / crate / "out" / f"{crate}_tests") for crate in ("trials_groups", "trials_lines")]
KEPT = 4  # times the size of a document that is kept complete: it takes 3 to 3.5


def in_turn(requests, step=1):
    """Plans that refuse each request, or one in `step`, up to one more than there are. Odd ones also with all later."""
    return [Plan(it, count) for it in (*range(1, requests + 1, step), requests + 1) for count in (1, ALL)[:1 + it % 2]]


def refuse(program, known, plans, said=MEMORY):
    """Plays runs with requests refused. Those for which the plan has a refusal meet it, and some then stop."""
    cases = [(job._replace(memory=plan), wanted, counts.requests) for job, wanted, counts in known
             for plan in plans(counts.requests)]
    for (job, wanted, requests), (answer, counts) in zip(cases, program.play([job for job, *_ in cases])):
        assert (counts.refused > 0) == (job.memory.first <= requests), (job, counts)
        assert answer == wanted or counts.refused and stops(answer, wanted, said), (job, answer, wanted)


@WORDS
def test_requests(words):
    """Each request of a few runs is refused, a random one and some later ones of many, and some of long runs."""
    choice, known = random.Random(1), runs_of(disturbed(), words, each_kind=False)
    refuse(disturbed(), runs_of(disturbed(), words), in_turn)
    refuse(disturbed(), choice.choices(known, k=100),
           lambda requests: [Plan(choice.randint(1, requests), choice.randint(1, requests))])
    refuse(disturbed(), undisturbed(disturbed(), long_jobs(words)),
           lambda requests: in_turn(requests, max(1, requests // 10)))


@pytest.mark.parametrize("path", NAMED.split(":") if NAMED else CRATES, ids=os.path.basename)
def test_calls_of_crates(path):
    """The tests of the modules `refused_memory` pass, whichever requests are refused."""
    disturbed()
    if not NAMED and not os.path.exists(path):
        pytest.skip("refused memory in calls of crates (toolchain)")
    program, listed = Program(path), subprocess.check_output([path, "--list"], text=True)
    jobs = [Job((name,), b"") for name in re.findall("(?m)^(refused_memory::.*): test$", listed)]
    assert jobs
    passed = Answer(0, "\ntest result: ok\n", "")
    refuse(program, [(job, passed, counts) for job, (_, counts) in zip(jobs, program.play(jobs))], in_turn, said=None)


def test_no_other_requests():
    """The program asks for memory and moves bytes by functions that the shim has."""
    if not shutil.which("nm"):
        pytest.skip("functions that the program calls (binutils)")
    symbols = subprocess.check_output(["nm", "-D", "--undefined-only", disturbed().path], text=True)
    asked = re.findall(r"U (\w*(?:alloc|memalign|mmap|brk|read|write|send|recv|put|splice)\w*)", symbols)
    assert {*asked} <= {"malloc", "calloc", "realloc", "read", "write", "__write"}


# ---- limits of the system


@WORDS
def test_stack(words):
    """Each run answers as ever with little stack, also with 127 levels or with a key twice, which is kept complete."""
    levels = ["[" * 127 + "]" * 127, '{"a":' * 126 + "{}" + "}" * 126, '{"messages":0,"messages":[],"groups":[]}']
    some = [Job(words, data.encode()) for data in levels if words in (CHECK, ENCODE, ENCODE_RADIO)] + long_jobs(words)
    known = undisturbed(shared(), some) + runs_of(shared(), words, each_kind=False)
    for (job, wanted, _), (answer, _) in zip(known, Program(stack=STACK).play([job for job, *_ in known])):
        assert answer == wanted, job


def test_long_document():
    """A long document is checked group by group in an address space without room for its JSON value, whichever list is
    first. With a key twice it is kept complete, and each list of packets gives back the memory that it lacks."""
    made = subprocess.check_output([sys.executable, "-B", TOP / "bench" / "documents.py", "500"], text=True)
    some = enumerate(re.findall("{[^{}]*}", made) * (GROUPS // 500))  # (to make them all takes 5 s: they repeat)
    groups = (re.sub('(?<="a1....).{7}', f"{(1 << 24 | place) << 3 | 4:07x}", it) for place, it in some)
    groups_first = '{"groups":[%s],"messages":[]}' % ",".join(groups)
    messages_first = '{"messages":[],' + groups_first.removesuffix(',"messages":[]}')[1:] + "}"
    for text, times in (groups_first, 2), (messages_first, 2), ('{"messages":[],' + messages_first[1:], KEPT):
        answer = run(CHECK, text, f"ulimit -v {times * len(text) // 1024 + 10000} || exit 98")
        assert answer == answered(f"yes: groups {GROUPS}, messages 0\n"), (text[:30], times)
    sizes = len(groups_first) / 1e6, (2 * len(groups_first) // 1024 + 10000) * 1024 / 1e6
    page = (TOP / "docs/assurance/proofs.md").read_text("utf-8")
    assert "a document of {:.1f} MB in {:.0f} MB)".format(*sizes) in page


def test_many_messages():
    """Of a stream no more is kept than a line and a message."""
    answer = run(DECODE_RADIO, f"{MESSAGE * 2}\n" * 100000, "ulimit -v 100000 || exit 98")
    assert answer.status == 0 and (answer.stdout == f"{MESSAGE_FORM}\n" * 200000) is True


@pytest.mark.parametrize("words, first, endless", [("decode", f"{SHORT}\n", "yes"), ("check", "", "yes ' '")])
def test_endless_line(words, first, endless):
    """It is answered by `memory`, after the answers to the lines before it."""
    given = f'{{ printf %s "{first}"; {endless} | tr -d "\\n"; }}'
    answer = run([words], limits=f'ulimit -v 100000; {given} | "$0" "$@"; exit')
    assert answer == answered(f"{FORM}\n" * bool(first), MEMORY)

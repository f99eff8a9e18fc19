"""balisecheck_table: its answers and statuses, and each request for memory and each call of a device that fails in turn.

What it answers to a table is proved from the bytes that were read on; companion/tests compare it with balisekit.
"""
import errno
import os

import pytest

from hostile import ALL, Job, Plan, Program, stops
from runner import TOP, Answer, run

BUILT = TOP / "out/balisecheck_table"
PATH = os.environ.get("BALISECHECK_TABLE", str(BUILT if BUILT.exists() else TOP / "dist/x86_64-linux/balisecheck_table"))
MEMORY, DEVICE = "balisecheck_table: memory\n", "balisecheck_table: device\n"
SINGLE = "a1007f802000ffffffffffffffffffffffffffffffffffffffffc0"  # a linked balise without packets
FIRST = "a102ff802000ffffffffffffffffffffffffffffffffffffffffc0"  # the first of two
SECOND = "a1137f802000ffffffffffffffffffffffffffffffffffffffffc0"
YES = f"group,telegram\nA,{SINGLE}\n"
NO = f"\ufeffgroup;aspect;telegram\r\n\r\nA;red;{FIRST}\r\nA;red;{SINGLE}\r\nB;;{SECOND}\r\n"
CASES = [
    (YES, 0, "yes: groups 1, telegrams 1\n"),
    (f"telegram\tbalise\tGROUP\n{SECOND}\t1\tA\n{FIRST}\t0\tA\n", 0, "yes: groups 1, telegrams 2\n"),
    (NO, 1, "no: findings 7\nF1 row 4: position wrong\nF2 row 4: total wrong\nF5 row 3: mark not answered\n"
            "F1 row 5: position wrong\nF2 row 5: total wrong\nF4 row 5: mark points outside\nF14 row 5: identity used before\n"),
    ("", 2, "refused: no heading row\n"),
    (f"group,telegram\nA,{SINGLE[:-1]}1\n", 2, "refused: row 2: pad bits set\n"),
    (f"group,telegram\n\nA,{SINGLE}\n,{SINGLE}\n", 2, "refused: row 4: no group\n"),
    (f'group,telegram\nA,{SINGLE}\n"B,{SINGLE}\n', 2, "refused: row 3: a quote that is not closed\n"),
]
USAGE = "refused: usage is balisecheck_table, and the table is standard input\n"


def jobs():
    """The tables of the cases."""
    return [Job((), table.encode("utf-8")) for table, *_ in CASES]


def disturbed():
    """The program, if its memory and devices can fail."""
    program = Program(PATH)
    if program.shim is None:
        pytest.skip("refused memory and failing devices (gcc)")
    return program


@pytest.mark.parametrize("table, status, text", CASES)
def test_answers(table, status, text):
    assert run((), table, path=PATH) == Answer(status, text, "")


@pytest.mark.parametrize("words", [("check",), ("table.csv",), ("--help",), ("--version",), ("",)])
def test_other_words(words):
    """Other words are refused, also those that ask for help or the version, which are on standard error."""
    answer = run(words, YES, path=PATH)
    assert (answer.status, answer.stdout) == (2, USAGE)
    assert ("balisecheck_table" in answer.stderr) == (words[0][:2] == "--")


def test_requests():
    """Each request for memory is refused, alone and with all later ones: the program reports it, or answers as before."""
    program = disturbed()
    for job, (wanted, counts) in zip(jobs(), program.play(jobs())):
        plans = [Plan(first, count) for first in range(1, counts.requests + 2) for count in (1, ALL)]
        found = program.play([job._replace(memory=plan) for plan in plans])
        for plan, (answer, seen) in zip(plans, found):
            assert (seen.refused > 0) == (plan.first <= counts.requests), (job, plan, seen)
            assert answer == wanted or seen.refused and stops(answer, wanted, MEMORY), (job, plan, answer)


@pytest.mark.parametrize("device", ["reader", "writer"])
@pytest.mark.parametrize("piece", [7, 0])
def test_devices(device, piece):
    """Each call of a device fails in turn: the program reports it, after a beginning of its answer."""
    program = disturbed()
    slow = [job._replace(reader=Plan(piece=piece), writer=Plan(piece=piece)) for job in jobs()]
    for job, (wanted, counts) in zip(slow, program.play(slow)):
        calls = counts.reads if device == "reader" else counts.writes
        failing = [job._replace(**{device: Plan(call, 1, errno.EIO, piece)}) for call in range(1, calls + 1)]
        assert calls and wanted == program.play([job._replace(reader=Plan(), writer=Plan())])[0][0]
        assert all(stops(answer, wanted, DEVICE) for answer, _ in program.play(failing)), job

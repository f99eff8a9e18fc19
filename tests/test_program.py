"""The built program from outside, of which no contract states anything: each case of tests/cases, turned bits, words,
standard streams, exit statuses and pages that describe them."""
import contextlib
import re
import shutil
import subprocess
import threading

import pytest

import cases
from corpus import LONG, REPORT, answers
from hostile import DECODE, DECODE_RADIO, Job, shared
from runner import DEVICE, TOP, Answer, flipped, in_bytes, program, run

TELEGRAM, FORM, MESSAGE = cases.TELEGRAM, cases.ALONE, cases.MESSAGE
PAIRS = {"decode": (TELEGRAM, FORM), "encode": (FORM, TELEGRAM), "decode --radio": (MESSAGE, cases.MOVEMENT),
         "encode --radio": (cases.MOVEMENT, MESSAGE)}
PATIENCE = 10  # seconds that the answers to two lines may take
FAULT = re.compile(r"refused: (line 1|message 0): [a-z -]+ at \d+ end (\d+)\n")


@pytest.mark.elsewhere
def test_cases():
    """Each case of tests/cases and each example, in processes of their own."""
    every = sorted(cases.every(), key=lambda case: case[1])  # (so that a process plays all with the same words)
    found = shared().play([Job(tuple(words), in_bytes(given)) for _, words, given, _ in every])
    wrong = [(*case, answer) for case, (answer, _) in zip(every, found) if answer != case[-1]]
    assert wrong[:5] == [] and len(every) >= 5000


@pytest.mark.parametrize("words, texts", [(DECODE, [TELEGRAM, LONG]), (DECODE_RADIO, [MESSAGE, REPORT])])
def test_turned_bits(words, texts):
    """With bits turned each answer is documented. No bit at or past the end of a fault makes a record."""
    turned = [flipped(text, bit) for text in texts for bit in range(4 * len(text))]
    faults = [(FAULT.fullmatch(answer.stdout), text) for text, answer in zip(turned, answers(shared(), words, turned))]
    past = [flipped(text, bit) for place, (fault, text) in enumerate(faults) if fault
            for bit in range(int(fault[2]) + place % 37, 4 * len(text), 37)]
    assert len(past) > 100
    for text, answer in zip(past, answers(shared(), words, past)):
        assert answer.stdout.startswith(("refused: line 1: ", "refused: message 0: ")), (text, answer)


@pytest.mark.parametrize("words", PAIRS)
def test_a_line_is_answered_before_the_next(words):
    (line, answer), found = PAIRS[words], []
    pipes = {"stdin": subprocess.PIPE, "stdout": subprocess.PIPE, "text": True}
    with subprocess.Popen([program(), *words.split()], **pipes) as waiting:
        clock = threading.Timer(PATIENCE, waiting.kill)
        clock.start()
        with contextlib.suppress(BrokenPipeError):
            for _ in range(2):
                print(line, file=waiting.stdin, flush=True)
                found.append(waiting.stdout.readline())
            waiting.stdin.close()
        assert (found, waiting.wait()) == ([f"{answer}\n"] * 2, 0)
        clock.cancel()


def test_manual_page():
    """It has no fault of layout, and has each command and status."""
    page = TOP / "man" / "balisecheck.1"
    if shutil.which("groff"):
        assert not subprocess.check_output(["groff", "-man", "-ww", "-z", page], stderr=subprocess.STDOUT)
    sections = dict(re.findall(r"(?ms)^\.SH ([A-Z ]+)\n(.*?)(?=^\.SH|\Z)", page.read_text()))
    names = re.findall(r"(?m)^\.B (?!balisecheck)([a-z].*)", sections["DESCRIPTION"])
    assert len(names) == 5 and re.findall(r"(?m)^\.B (\d)$", sections["EXIT STATUS"]) == list("0123")
    for name in names:
        assert not run(name.replace("\\", "").split()).stdout.startswith("refused: usage"), name


@pytest.mark.elsewhere
def test_help():
    """Help and the version are on standard error, beside the usage line and its status. Help has each command, each
    status, as the guide has, and examples that are answered."""
    usage = run(["--radio"])
    assert run(["--version"]) == usage._replace(stderr=f"balisecheck {(TOP / 'VERSION').read_text()}")
    text = run(["--help"]).stderr
    for words in ("--help", "-h", "help", "help check", "decode --help", "check --help"):
        assert run(words.split()) == usage._replace(stderr=text), words
    assert re.findall(r"(?m)^  balisecheck (\S+)", text) == ["check", "decode", "encode", "--version"]
    guide = (TOP / "docs" / "guide.md").read_text("utf-8").partition("\n## Exit statuses\n")[2]
    assert re.findall(r"(?m)^  (\d)  ", text) == re.findall(r"(?m)^\| (\d) \|", guide) == list("0123")
    examples = re.findall(r"(?m)^  (echo .*) \| balisecheck (\w+)$", text)
    assert len(examples) == 2
    for command, word in examples:
        assert run([word], subprocess.check_output(["sh", "-c", command])).status == 0, command


def test_argument_that_is_no_text():
    assert run([b"\xff"]) == Answer(3, "", DEVICE)

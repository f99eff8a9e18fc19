"""The runs that hostile tests begin with, from the cases and examples, and which answers the documents name."""
import functools
import json
import re

import cases
from hostile import CHECK, COMMANDS, DECODE, DECODE_RADIO, ENCODE, ENCODE_RADIO, INVERSE, Job
from runner import EXAMPLES, in_bytes, in_full
from balisekit.engine import grammar

SHORT, MESSAGE = cases.TELEGRAM, cases.MESSAGE
LONG = in_full("a1007f802000c31024a5007fe007d002a813a000105080647f8da0560000140029c43f81...f fc")
REPORT = "8807000000320000004000e480200081f450014002830832c00ed280"
FORM, MESSAGE_FORM = cases.ALONE, cases.MOVEMENT
BALISE, LIST = '{"groups":[{"balises":["%s"]}],"messages":[]}', '{"groups":[],"messages":["%s"]}'
# how telegrams and messages are written
TEXTS = {ENCODE: "a[01][0-9a-f]{50}[048c]0|a[01][0-9a-f]{205}[048c]", ENCODE_RADIO: "(03|88)([0-9a-f]{2}){2,1022}"}


# ---- runs


@functools.lru_cache(None)
def jobs():
    """Runs of all commands, and of no command, the shortest first."""
    runs = [(words, given) for _, words, given, _ in cases.common()]
    runs += [(["check"], BALISE % line) for _, line, *_ in cases.telegrams()]
    runs += [(["check"], LIST % line) for _, line, *_ in cases.messages()]
    runs += [(["check"], path.read_text()) for path in EXAMPLES.glob("check/*.json")]
    found = {Job(tuple(words), in_bytes(data)) for words, data in runs}
    return sorted(found, key=lambda job: (job.words, len(job.data), job.data))


def long_jobs(words):
    """A run of a command whose input and output have more bytes than a buffer of the program."""
    _, telegram, form, *_ = next(it for it in cases.telegrams() if len(it[1]) == len(LONG) and it[2][0] == "{")
    *_, (_, message, record) = cases.messages()
    group = '{"balises":[%s]}' % ",".join([f'"{SHORT}"'] * 8)
    data = {DECODE: f"{telegram}\n" * 340, ENCODE: f"{form}\n" * 340, DECODE_RADIO: f"{message}\n" * 34,
            ENCODE_RADIO: f"{record}\n" * 34, CHECK: '{"groups":[%s],"messages":[]}' % ",".join([group] * 160)}
    return [Job(words, data[words].encode())] if words in data else []


# ---- answers


def are_records(words, lines):
    """Whether the command writes these lines for records."""
    if words in TEXTS:
        return all(re.fullmatch(TEXTS[words], line) for line in lines)
    return words in INVERSE and all(line[:1] == "{" and cases.FORM.encode(json.loads(line)) == line for line in lines)


def is_documented(words, answer):
    """Whether the documents name this answer of a program whose memory and devices do not fail."""
    words = words[:-1] if words[-1:] == ("--",) else words
    *lines, rest = answer.stdout.split("\n")
    if rest or answer.stderr and words in COMMANDS:
        return False
    if answer.status == 2:
        *lines, last = lines or [""]
        name = " ".join(words) if words in COMMANDS else "words"
        return grammar.refusal(name, last) is not None and (not lines or are_records(words, lines))
    if words == CHECK:
        verdict = grammar.verdict(lines[0]) if lines else None
        return (verdict is not None and answer.status == int(not verdict.yes) and verdict.findings == len(lines) - 1
                and all(map(grammar.finding, lines[1:])))
    return answer.status == 0 and are_records(words, lines)


def documented(program, some):
    """These jobs, each with its answer, which the documents name, and its counts."""
    found = [(job, *played) for job, played in zip(some, program.play(some))]
    for job, answer, _ in found:
        assert is_documented(job.words, answer), (job, answer)
    return found


def undisturbed(program, some):
    """The same, and a second run has the same."""
    found = documented(program, some)
    assert [it[1:] for it in found] == program.play(some)
    return found


@functools.lru_cache(None)
def runs_of(program, words, each_kind=True):
    """Runs of a command, or those without one: all, or undisturbed the first one with each kind of line."""
    if not each_kind:
        return documented(program, [it for it in jobs() if (it.words if it.words in COMMANDS else ()) == words])
    chosen = {}
    for it in runs_of(program, words, each_kind=False):
        for line in it[1].stdout.splitlines() or [""]:
            line = re.sub(r"^\{.*|^[0-9a-f]{20,}$", "a record", line)
            chosen.setdefault(re.sub(r"^F.*: |/\S*|\d+", "", line), it[0])
    return undisturbed(program, [*dict.fromkeys(chosen.values())])


def answers(program, words, inputs):
    """The documented answers to these inputs."""
    return [answer for _, answer, _ in documented(program, [Job(words, in_bytes(data)) for data in inputs])]

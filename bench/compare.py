#!/usr/bin/env python3
"""Compares what two programs answer to random inputs: output, standard error and status. Each answer of the first one
is documented, and each record that it accepts comes back.

    bench/compare.py OLD [NEW] [--inputs N] [--seed S] [--command WORDS] [--jobs N]

A path with .so in its name is the library for C. Each command gets N inputs. Those of `check` are documents
(bench/faults.py): half of them have a group with aspects, a third have faults, and a tenth are mutated. Those of other
commands are up to four lines, of which only the last one is spoiled. The inputs depend only on the seed, and on which
inputs of the tests the first program accepts.

The first differences are printed. The last line counts the statuses of each command, findings and differences. The exit
status is 1 if an answer differs.
"""
import argparse
import collections
import concurrent.futures
import contextlib
import functools
import json
import pathlib
import re
import sys

sys.dont_write_bytecode = True  # so that no folder for it is made beside the tests
sys.path.append(str(pathlib.Path(__file__).resolve().parents[1] / "tests"))

from corpus import answers, runs_of  # noqa: E402  (the path comes first)
from faults import random_document  # noqa: E402
from hostile import CHECK, COMMANDS, DECODE, DECODE_RADIO, INVERSE, Job, Library, Program  # noqa: E402
from records import FORM, message, numbers, telegram  # noqa: E402
from runner import respelled  # noqa: E402

FAULTY, MUTATED, RESPELLED, KNOWN = 0.33, 0.1, 0.15, 0.1  # shares
BATCH, SHOWN = 500, 10  # inputs of a batch, and differences that are printed
BY_NAME = {" ".join(words): words for words in COMMANDS}
NUMBERS = (b"0", b"1", b"2", b"3", b"7", b"31", b"32", b"120", b"127", b"255", b"1023", b"8191", b"32767", b"65536",
           b"4294967295", b"18446744073709551615", b"18446744073709551616", b"-1", b"-0", b"1.5", b"1e5", b"1e400",
           b"null", b'"a"', b"[]", b"{}", b"true")
PIECES = (b'"', b"{", b"}", b"[", b"]", b",", b":", b"0", b"\\", b"\\u0000", b"\\ud800", b"\x00", b"\x7f", b"\xff",
          b"\xc3\xa9", b" ", b"\r", b'"x":0,', b"null", b"g", b"-")


# ---- inputs: lines and documents that are right, with bits turned, numbers replaced, lines torn and joined


def accepted_of(program, words):
    """The documents or lines of the tests that the program accepts."""
    known = runs_of(program, words, each_kind=False)
    texts = [job.data for job, answer, _ in known if answer.status < 2 and len(job.data) < 5000]
    if words == DECODE_RADIO:
        texts = [re.sub(b"[\r\n]", b"", text) for text in texts]
    return [line for text in texts for line in ([text] if words == CHECK else text.splitlines()) if line]


def turned(line, first=0):
    """Some bits of the line's digits turned, more often near its beginning."""
    digits = list(line)
    for _ in range(numbers.choice((1, 1, 1, 1, 1, 1, 2, 8))):
        place = first + int((len(line) - first) * numbers.random() ** 1.5)
        if place < len(line) and chr(line[place]) in "0123456789abcdefABCDEF":
            digits[place] = ord(f"{int(chr(line[place]), 16) ^ 1 << numbers.randrange(4):x}")
    return bytes(digits)


def renumbered(line):
    """Some numbers of the JSON replaced, more often by small ones."""
    places = [it.span() for it in re.finditer(rb"(?<=:)\d+", line)]
    chosen = numbers.sample(places, min(len(places), numbers.choice((1, 1, 1, 1, 1, 3))))
    for begin, end in sorted(chosen, reverse=True):
        small = b"%d" % numbers.randrange(max(2, 2 * int(line[begin:end]) + 2) if end - begin < 19 else 1)
        line = line[:begin] + (numbers.choice(NUMBERS) if numbers.random() < 0.1 else small) + line[end:]
    return line


def torn(line, other):
    """The line with a part left out, doubled, replaced or joined to another line."""
    begin, end = sorted((numbers.randint(0, len(line)), numbers.randint(0, len(line))))
    end = min(end, begin + numbers.choice((1, 2, 8, 40, 1000)))
    part, piece = line[begin:end], numbers.choice(PIECES)
    middle = numbers.choice((b"", part * numbers.choice((2, 3, 30)), piece, piece + part, other[begin:end],
                             numbers.randbytes(numbers.choice((1, 2, 20)))))
    return line[:begin] + middle + (other if numbers.random() < 0.05 else line)[end:]


def random_line(words):
    """A random line, not made from another one."""
    if words[0] == "decode" and numbers.random() < 0.7:
        size = numbers.choice((54, 208)) if words == DECODE else 2 * numbers.randrange(3, 80)
        head = "a1" if words == DECODE else numbers.choice(("0300", "8800")) + f"{size // 2 << 6 & 0xffff:04x}"[:2]
        return (head + f"{numbers.getrandbits(4 * size):0{size}x}")[:size].encode()
    return b"".join(numbers.choice(PIECES + NUMBERS) for _ in range(numbers.randrange(1, 30)))


def mutated(words, line):
    """The line or document with bits or numbers changed."""
    if words[0] == "encode":
        return renumbered(line)
    return turned_text(line) if words == CHECK else turned(line, 6 if words == DECODE_RADIO else 0)


def turned_text(document):
    """The document with bits of one of its texts turned, or the text replaced by another one or doubled."""
    texts = list(re.finditer(rb'"[0-9a-fA-F]{8,}"', document))
    if not texts:
        return torn(document, document)
    found = numbers.choice(texts)
    inner = numbers.choice(texts)[0] if numbers.random() < 0.2 else b'"%s"' % turned(found[0][1:-1])
    return document[:found.start()] + inner + (b"," + found[0]) * (numbers.random() < 0.1) + document[found.end():]


def right_line(words, known):
    """A line that the command accepts."""
    if numbers.random() < KNOWN:
        return numbers.choice(known)
    text, record = message() if "--radio" in words else telegram()
    if words[0] == "decode":
        return text.encode()
    line = json.dumps(dict(numbers.sample([*record.items()], len(record))), separators=(",", ":"))
    return (respelled(line) if numbers.random() < RESPELLED else line).encode()


def spoiled_keys(line):
    """The line of JSON with a key left out, renamed, added or given another value."""
    keys = list(re.finditer(rb'"(\w+)":(\d+|"\w*")?,?', line))
    if not keys:
        return line[:-1]
    found = numbers.choice(keys)
    other = (b"", found[0].replace(found[1], numbers.choice((b"x", b"n_pug", b"m_akk"))), found[0] + b'"x":0,',
             b'"%s":%s' % (found[1], numbers.choice(NUMBERS)) + b"," * found[0].endswith(b","), found[0] + found[0])
    return line[:found.start()] + numbers.choice(other if found[2] else other[1:]) + line[found.end():]


def spoiled_line(words, known):
    """A line that the command refuses in most cases."""
    line, way = right_line(words, known), numbers.random()
    if way < 0.1:
        return mutated(words, numbers.choice((line, numbers.choice(known))))
    if way < 0.2:
        return random_line(words)
    if words[0] == "encode" and way < 0.7:
        return spoiled_keys(line)
    return torn(line, numbers.choice(known))


def some_lines(words, known):
    """Up to three lines that are accepted and in most cases a spoiled one, as the bytes of an input."""
    lines = [right_line(words, known) for _ in range(numbers.choice((0, 1, 1, 2, 3)))]
    if numbers.random() < 0.95:
        lines.append(spoiled_line(words, known).replace(b"\n", b" "))
    data = numbers.choice((b"\n", b"\n", b"\r\n", b"\n\n")).join(lines)
    if words == DECODE_RADIO and numbers.random() < 0.7:
        data = re.sub(b"[\r\n]", b"", data)
        place = 2 * numbers.randint(0, len(data) // 2)
        data = data[:place] + b"\n" + data[place:]
    return data + b"\n" * (numbers.random() < 0.8)


def some_document(known):
    """A document, with aspects or without."""
    has_aspects, way = numbers.random() < 0.5, numbers.random()
    document = random_document(has_aspects, way < FAULTY).encode()
    if way > 1 - MUTATED:
        return mutated(CHECK, numbers.choice((document, numbers.choice(known))))
    if numbers.random() < RESPELLED:
        return respelled(document.decode()).encode()
    return document.replace(b"{", b'{"messages":0,', 1) if numbers.random() < RESPELLED else document


def inputs(words, known, count):
    """`count` jobs of a command."""
    make = (lambda: some_document(known)) if words == CHECK else (lambda: some_lines(words, known))
    return [Job(words, make()) for _ in range(count)]


# ---- answers


def come_back(program, words, forms):
    """Each of these forms is encoded to a text that is decoded to the same values."""
    encoded, = answers(program, INVERSE[words], ["".join(f"{form}\n" for form in forms)])
    decoded, = answers(program, words, [encoded.stdout])
    assert (encoded.status, decoded.status) == (0, 0), (encoded.stdout[-200:], decoded.stdout[-200:])
    wanted = [FORM.encode(json.loads(form)).lower() for form in forms]
    assert decoded.stdout.splitlines() == wanted, (words, forms)


def wrong_with(program, words, jobs):
    """What is wrong with the answers to these jobs, if anything, and the answers."""
    try:
        found = answers(program, words, [job.data for job in jobs])
        texts = [it.stdout for it in found]
        if words[0] == "encode":
            texts = [job.data.decode() for job, it in zip(jobs, found) if it.status == 0]
        forms = sorted({line for text in texts for line in text.split("\n") if line.strip().startswith("{")})
        if words != CHECK and forms:
            come_back(program, DECODE_RADIO if "--radio" in words else DECODE, forms)
        return "", found
    except (AssertionError, ValueError) as why:
        return str(why), []


@functools.lru_cache(None)
def opened(path):
    """The library or the program at this path."""
    return Library(path) if ".so" in path.rpartition("/")[2] else Program(path)


def batch(said, words, first):
    """The counts of a batch, and its first inputs whose answers differ: words, input and both answers, or what is wrong
    with one answer."""
    met, programs = collections.Counter(), [opened(path) for path in said.programs]
    numbers.seed(f"{said.seed} {words} {first}")
    jobs = inputs(words, accepted_of(programs[0], words), min(BATCH, said.inputs - first))
    why, found = wrong_with(programs[0], words, jobs)
    differences = [(words, why, None, None)] * bool(why)
    others = [answer for answer, _ in programs[-1].play(jobs)] if programs[1:] else found
    for job, old, new in zip(jobs, found, others):
        met.update([f"{' '.join(words)}: {old.status}", *{*re.findall(r"(?m)^(F\d+) ", old.stdout)}])
        differences += [(words, job.data, old, new)] * (old != new)
    met["different"] = len(differences)
    return met, differences[:SHOWN]


def main():
    """Compares as the command line says."""
    parser = argparse.ArgumentParser(description="Compares two programs on random inputs.")
    parser.add_argument("programs", nargs="+", type=lambda path: str(pathlib.Path(path).resolve(strict=True)))
    parser.add_argument("--inputs", type=int, default=30_000, help="for each command, 30000 if not given")
    parser.add_argument("--seed", type=int, default=1, help="of the inputs, 1 if not given")
    parser.add_argument("--command", choices=BY_NAME, help="only this command")
    parser.add_argument("--jobs", type=int, default=2, help="processes side by side, 2 if not given")
    said, met, differences = parser.parse_args(), collections.Counter(), []
    commands = [BY_NAME[said.command]] if said.command else COMMANDS
    batches = [(said, words, first) for words in commands for first in range(0, said.inputs, BATCH)]
    # (a pool needs semaphores, which a user cannot have on a system without /dev/shm)
    with concurrent.futures.ProcessPoolExecutor(said.jobs) if said.jobs > 1 else contextlib.nullcontext() as pool:
        for counted, found in (pool.map if pool else map)(batch, *zip(*batches)):
            met.update(counted)
            differences += found
    for words, data, old, new in differences[:SHOWN]:
        print(f"{' '.join(words)} of {data[:2000]}", f"  old: {old}", f"  new: {new}", sep="\n")
    print(", ".join(f"{name} {met[name]}" for name in sorted(met)))
    sys.exit(bool(differences))


if __name__ == "__main__":
    main()
